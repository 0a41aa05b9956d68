/* The enclave's functions: one that calls out, one for the call back alone, and one that nobody may call back. */
#include <stdlib.h>
#include <string.h>
#include "machine.h"
#include "nested_t.h"

uint64_t outer(const char* text)
{
    record_bytes("in", "text", text, strlen(text) + 1);
    uint8_t* answer = malloc(4);
    if (answer == NULL) return 0;
    uint32_t result = 0;
    uint64_t sum = 0;
    if (ask(&result, text, answer) == SGX_SUCCESS)
        for (int i = 0; i < 4; i++) sum += answer[i];
    tell(sum);
    free(answer);
    return sum;
}

uint64_t inner(uint32_t number)
{
    record_bytes("in", "number", &number, sizeof(number));
    uint64_t twice = (uint64_t)number * 2;
    tell(twice);
    return twice;
}

void other(void)
{
}
