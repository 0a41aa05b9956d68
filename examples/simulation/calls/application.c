/* The application: the calls of calls.script, in its order. */
#include <string.h>
#include "calls_u.h"
#include "machine.h"

static uint8_t* host(uintptr_t address)
{
    return (uint8_t*)address;
}

static void ended(sgx_status_t status, const void* result, size_t size)
{
    if (status == SGX_SUCCESS) record_bytes("ret", "", result, size);
    record_end(status);
}

static void call_total(uint8_t* bytes, size_t width, size_t number)
{
    uint64_t result;
    record_begin("ecall", "total");
    ended(total(1, &result, bytes, width, number), &result, sizeof(result));
}

static void call_blank(uint8_t* bytes)
{
    record_begin("ecall", "blank");
    sgx_status_t status = blank(1, bytes);
    if (status == SGX_SUCCESS) record_bytes("out", "bytes", bytes, 8);
    record_end(status);
}

static void call_letters(char* text)
{
    uint64_t result;
    record_begin("ecall", "letters");
    sgx_status_t status = letters(1, &result, text);
    if (status == SGX_SUCCESS) {
        record_bytes("ret", "", &result, sizeof(result));
        record_bytes("out", "text", text, strlen(text) + 1);
    }
    record_end(status);
}

static void call_digits(struct pair* numbers)
{
    uint64_t result;
    record_begin("ecall", "digits");
    ended(digits(1, &result, numbers), &result, sizeof(result));
}

static void call_cells(uint16_t* table)
{
    uint64_t result;
    record_begin("ecall", "cells");
    ended(cells(1, &result, table), &result, sizeof(result));
}

static void call_mark(void* where, int32_t change)
{
    int32_t result;
    record_begin("ecall", "mark");
    ended(mark(1, &result, where, change), &result, sizeof(result));
}

int main(int words, char** word)
{
    machine_start(words > 1 ? word[1] : "./enclave.so");
    memcpy(host(0x10000), (uint8_t[]){1, 2, 3, 4, 5, 6}, 6);
    memcpy(host(0x10100), "hi", 3);
    memcpy(host(0x10200), &(struct pair){1, 2}, sizeof(struct pair));
    memcpy(host(0x10300), (uint16_t[]){1, 2, 3, 4, 5, 6}, 12);
    call_total(host(0x10000), 3, 2);
    call_total(NULL, 3, 2);
    call_total(host(0x10000), 0, 2);
    call_total(host(0x100000000), 1, 1);
    call_total(host(0x10000), 0x8000000000000000, 2);
    call_total(host(0x10000), 4097, 1);
    call_blank(host(0x10010));
    call_letters((char*)host(0x10100));
    call_digits((struct pair*)host(0x10200));
    call_cells((uint16_t*)host(0x10300));
    call_mark(host(0x123), -2);
    records_print();
    return 0;
}
