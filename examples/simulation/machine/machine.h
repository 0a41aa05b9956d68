/* Host memory, the enclave's memory, and the records of calls. */
#ifndef MACHINE_H
#define MACHINE_H
#include "sgx_edger8r.h"

#define HOST_START 0x10000u
#define HOST_SIZE 8192u
#define STACK_SIZE 1024u
#define ENCLAVE_START 0x100000000u
#define ENCLAVE_SIZE 0x1000000u
#define ARENA_SIZE 4096u
#define MAX_ENTRIES 16

/* maps both memories and loads the enclave */
void machine_start(const char* enclave);

/* the records are printed in the order in which calls began */
void record_begin(const char* kind, const char* function);
void record_bytes(const char* line, const char* name, const void* bytes, size_t length);
void record_end(sgx_status_t status);
void records_print(void);
#endif
