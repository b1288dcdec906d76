/* The stack of a call, measured: the call runs on a stack of its own that was painted before, and what is not paint any
 * more was used. The frame of the C function that makes the call is counted with it. */
#define _XOPEN_SOURCE 700
#include "calls.h"

#include <string.h>
#include <ucontext.h>

enum { ROOM = 65536, PAINT = 0x5a };

size_t on_stack(void (*call)(void))
{
#ifdef __SANITIZE_ADDRESS__ /* which has stacks of its own */
    call();
    return 0;
#else
    static uint8_t stack[ROOM];
    static ucontext_t here, there;
    size_t untouched = 0;
    memset(stack, PAINT, ROOM);
    if (getcontext(&there) != 0)
        return ROOM;
    there.uc_stack.ss_sp = stack;
    there.uc_stack.ss_size = ROOM;
    there.uc_link = &here;
    makecontext(&there, call, 0);
    if (swapcontext(&here, &there) != 0)
        return ROOM;
    while (untouched < ROOM && stack[untouched] == PAINT)
        untouched++;
    return ROOM - untouched;
#endif
}
