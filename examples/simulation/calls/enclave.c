/* The enclave's functions. Each tells what it was given: a real enclave would not. */
#include <string.h>
#include "calls_t.h"
#include "machine.h"

static uint64_t sum(const void* bytes, size_t length)
{
    uint64_t total = 0;
    for (size_t i = 0; bytes != NULL && i < length; i++) total += ((const uint8_t*)bytes)[i];
    return total;
}

uint64_t total(const uint8_t* bytes, size_t width, size_t number)
{
    record_bytes("in", "bytes", bytes, width * number);
    record_bytes("in", "width", &width, sizeof(width));
    record_bytes("in", "number", &number, sizeof(number));
    return sum(bytes, width * number);
}

void blank(uint8_t* bytes)
{
    if (bytes == NULL) record_bytes("in", "bytes", bytes, 8);
}

uint64_t letters(char* text)
{
    record_bytes("in", "text", text, text == NULL ? 0 : strlen(text) + 1);
    return sum(text, text == NULL ? 0 : strlen(text) + 1);
}

uint64_t digits(const struct pair* numbers)
{
    record_bytes("in", "numbers", numbers, sizeof(*numbers));
    return sum(numbers, sizeof(*numbers));
}

uint64_t cells(const uint16_t table[6])
{
    record_bytes("in", "table", table, 6 * sizeof(*table));
    return sum(table, 6 * sizeof(*table));
}

int32_t mark(void* where, int32_t change)
{
    record_bytes("in", "where", &where, sizeof(where));
    record_bytes("in", "change", &change, sizeof(change));
    return 0;
}
