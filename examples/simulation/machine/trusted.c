/* The enclave's side: its memory, and the frames of OCALLs on the host stack. */
#include <stdlib.h>
#include "machine.h"

/* blocks are rounded up to 16 bytes, and the last is freed first */
static size_t used;
static size_t marks[64];
static int marked;

void* malloc(size_t size)
{
    size_t room = ARENA_SIZE - used;
    if (size > room || (size + 15) / 16 * 16 > room) return NULL;
    marks[marked++] = used;
    void* block = (uint8_t*)(uintptr_t)ENCLAVE_START + used;
    used += (size + 15) / 16 * 16;
    return block;
}

void free(void* block)
{
    if (block != NULL) used = marks[--marked];
}

/* each OCALL takes its frame off the top, and gives it back */
static uintptr_t top = HOST_START + HOST_SIZE;
static uintptr_t tops[MAX_ENTRIES];
static int taken;

void* sgx_ocalloc(size_t size)
{
    uintptr_t base = HOST_START + HOST_SIZE - STACK_SIZE;
    tops[taken++] = top;
    if (size > top - base || (top - size) / 16 * 16 < base) return NULL;
    top = (top - size) / 16 * 16;
    return (void*)top;
}

void sgx_ocfree(void)
{
    top = tops[--taken];
}

/* the last address of a range, whose start it is where the range is empty */
static uintptr_t last_of(uintptr_t start, size_t size)
{
    return size == 0 ? start : start + size - 1;
}

int sgx_is_outside_enclave(const void* start, size_t size)
{
    uintptr_t first = (uintptr_t)start, last = last_of(first, size);
    return last >= first && (last < ENCLAVE_START || first >= (uintptr_t)ENCLAVE_START + ENCLAVE_SIZE);
}

int sgx_is_within_enclave(const void* start, size_t size)
{
    uintptr_t first = (uintptr_t)start, last = last_of(first, size);
    return last >= first && first >= ENCLAVE_START && last < (uintptr_t)ENCLAVE_START + ENCLAVE_SIZE;
}
