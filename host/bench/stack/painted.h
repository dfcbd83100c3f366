/* How deep a call goes on a stack that was painted before. */
#ifndef PAINTED_H
#define PAINTED_H

#include <stddef.h>
#include <stdint.h>

#define ARGUMENTS 14 /* of a call, at most */

struct call {
    const char *name;
    void (*function)(void);
    uint64_t arguments[ARGUMENTS];
};

/* Makes the call with its own stack, painted with this octet. What it answers goes to `number`. Gives how far below the stack
 * pointer, as it is just before the call instruction, the lowest octet lies that then isn't this octet. */
size_t depth_of(const struct call *call, uint8_t paint, uint64_t *number);

#endif
