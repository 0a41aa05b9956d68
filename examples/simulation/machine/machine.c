/* The application's side: both memories, and the entry into the enclave by its tables. */
#define _GNU_SOURCE
#include <dlfcn.h>
#include <stdio.h>
#include <stdlib.h>
#include <string.h>
#include <sys/mman.h>
#include "machine.h"

/* the tables of a trusted source, as it prints them */
struct ecall_entry { void* call; uint8_t is_private; uint8_t is_switchless; };
struct ecall_table { size_t count; struct ecall_entry entries[]; };
struct allow_table { size_t count; uint8_t rows[]; };
struct ocall_table { size_t count; void* calls[]; };

typedef sgx_status_t (*bridge)(void* frame);

/* an entry in progress, and the OCALL in progress on it or -1 */
struct entry { const struct ocall_table* ocalls; int ocall; };

static const struct ecall_table* ecalls;
static const struct allow_table* allowed;
static struct entry entries[MAX_ENTRIES];
static int depth;

static void map_at(uintptr_t start, size_t size)
{
    void* at = mmap((void*)start, size, PROT_READ | PROT_WRITE,
                    MAP_PRIVATE | MAP_ANONYMOUS | MAP_FIXED_NOREPLACE, -1, 0);
    if (at != (void*)start) { perror("mmap"); exit(1); }
}

void machine_start(const char* enclave)
{
    map_at(HOST_START, HOST_SIZE);
    map_at(ENCLAVE_START, ENCLAVE_SIZE);
    void* loaded = dlopen(enclave, RTLD_NOW);
    if (loaded == NULL) { fprintf(stderr, "%s\n", dlerror()); exit(1); }
    ecalls = dlsym(loaded, "g_ecall_table");
    allowed = dlsym(loaded, "g_dyn_entry_table");
}

static int is_allowed(size_t ordinal)
{
    int ocall = entries[depth - 1].ocall;
    return allowed->rows[(size_t)ocall * ecalls->count + ordinal];
}

sgx_status_t sgx_ecall(sgx_enclave_id_t eid, int ordinal, const void* ocall_table, void* frame)
{
    (void)eid;
    if (ordinal < 0 || (size_t)ordinal >= ecalls->count) return SGX_ERROR_INVALID_FUNCTION;
    if (depth == 0 && ecalls->entries[ordinal].is_private) return SGX_ERROR_ECALL_NOT_ALLOWED;
    if (depth != 0 && !is_allowed((size_t)ordinal)) return SGX_ERROR_ECALL_NOT_ALLOWED;
    if (depth == MAX_ENTRIES) return SGX_ERROR_STACK_OVERRUN;
    entries[depth].ocalls = ocall_table;
    entries[depth].ocall = -1;
    depth++;
    sgx_status_t status = ((bridge)ecalls->entries[ordinal].call)(frame);
    depth--;
    return status;
}

sgx_status_t sgx_ocall(unsigned ordinal, void* frame)
{
    struct entry* entry = &entries[depth - 1];
    entry->ocall = (int)ordinal;
    sgx_status_t status = ((bridge)entry->ocalls->calls[ordinal])(frame);
    entry->ocall = -1;
    return status;
}
