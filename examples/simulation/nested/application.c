/* The application: it calls the enclave, which calls it, and it calls back. */
#include <string.h>
#include "machine.h"
#include "nested_u.h"

static void call_inner(uint32_t number)
{
    uint64_t result;
    record_begin("ecall", "inner");
    sgx_status_t status = inner(1, &result, number);
    if (status == SGX_SUCCESS) record_bytes("ret", "", &result, sizeof(result));
    record_end(status);
}

static void call_other(void)
{
    record_begin("ecall", "other");
    record_end(other(1));
}

uint32_t ask(const char* text, uint8_t* answer)
{
    uint32_t result = 5;
    record_begin("ocall", "ask");
    record_bytes("in", "text", text, strlen(text) + 1);
    call_inner(7);
    call_other();
    memcpy(answer, (uint8_t[]){1, 2, 3, 4}, 4);
    record_bytes("ret", "", &result, sizeof(result));
    record_bytes("out", "answer", answer, 4);
    record_end(SGX_SUCCESS);
    return result;
}

void tell(uint64_t number)
{
    record_begin("ocall", "tell");
    record_bytes("in", "number", &number, sizeof(number));
    record_end(SGX_SUCCESS);
}

int main(int words, char** word)
{
    uint64_t result;
    char* text = (char*)(uintptr_t)HOST_START;
    machine_start(words > 1 ? word[1] : "./enclave.so");
    memcpy(text, "hi", 3);
    call_inner(7);
    record_begin("ecall", "outer");
    sgx_status_t status = outer(1, &result, text);
    if (status == SGX_SUCCESS) record_bytes("ret", "", &result, sizeof(result));
    record_end(status);
    records_print();
    return 0;
}
