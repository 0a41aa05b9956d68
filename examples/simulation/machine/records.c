/* The records of calls, in the form of the runner's report but for the frames' addresses. */
#include <stdio.h>
#include <string.h>
#include "machine.h"

struct record { const char* kind; const char* function; int depth; sgx_status_t status; char lines[4096]; };

static struct record records[64];
static int count;
static int open[64];
static int opened;

void record_begin(const char* kind, const char* function)
{
    struct record* record = &records[count];
    record->kind = kind;
    record->function = function;
    record->depth = opened;
    open[opened++] = count++;
}

void record_bytes(const char* line, const char* name, const void* bytes, size_t length)
{
    char* lines = records[open[opened - 1]].lines;
    char* end = lines + strlen(lines);
    end += sprintf(end, "  %s%s%s ", line, *name ? " " : "", name);
    if (bytes == NULL) end += sprintf(end, "null");
    for (size_t i = 0; bytes != NULL && i < length; i++)
        end += sprintf(end, "%02x", ((const uint8_t*)bytes)[i]);
    sprintf(end, "\n");
}

void record_end(sgx_status_t status)
{
    records[open[--opened]].status = status;
}

void records_print(void)
{
    for (int i = 0; i < count; i++)
        printf("%s %d %s ordinary 0x%04x\n%s", records[i].kind, records[i].depth, records[i].function,
               records[i].status, records[i].lines);
}
