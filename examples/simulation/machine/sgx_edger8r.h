/* What the printed stubs need of the SDK, as stand-ins over one process. */
#ifndef SGX_EDGER8R_H
#define SGX_EDGER8R_H
#include <stddef.h>
#include <stdint.h>
typedef uint32_t sgx_status_t;
typedef uint64_t sgx_enclave_id_t;
#define SGX_SUCCESS 0x0000
#define SGX_ERROR_UNEXPECTED 0x0001
#define SGX_ERROR_INVALID_PARAMETER 0x0002
#define SGX_ERROR_OUT_OF_MEMORY 0x0003
#define SGX_ERROR_INVALID_FUNCTION 0x1001
#define SGX_ERROR_ECALL_NOT_ALLOWED 0x1007
#define SGX_ERROR_STACK_OVERRUN 0x1009
sgx_status_t sgx_ecall(sgx_enclave_id_t eid, int ordinal, const void* ocall_table, void* frame);
sgx_status_t sgx_ocall(unsigned ordinal, void* frame);
/* no worker runs, so a switchless call goes the ordinary way */
#define sgx_ecall_switchless sgx_ecall
#define sgx_ocall_switchless sgx_ocall
void* sgx_ocalloc(size_t size);
void sgx_ocfree(void);
int sgx_is_outside_enclave(const void* start, size_t size);
int sgx_is_within_enclave(const void* start, size_t size);
#endif
