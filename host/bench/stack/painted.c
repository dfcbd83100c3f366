#include <string.h>

#include "painted.h"

#define IN_REGISTERS 6
#define BELOW (128 * 1024) /* octets that are painted */

/* below.S */
uint64_t call_below(uint64_t *top, void (*function)(void), const uint64_t *first);

static struct {
    _Alignas(16) uint8_t below[BELOW];
    _Alignas(16) uint64_t top[ARGUMENTS];
} stack;

size_t depth_of(const struct call *call, uint8_t paint, uint64_t *number)
{
    size_t k = 0;
    memset(stack.below, paint, BELOW);
    memcpy(stack.top, call->arguments + IN_REGISTERS, (ARGUMENTS - IN_REGISTERS) * sizeof call->arguments[0]);
    *number = call_below(stack.top, call->function, call->arguments);
    while (k < BELOW && stack.below[k] == paint)
        k++;
    return BELOW - k;
}
