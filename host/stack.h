/* How many bytes of stack a call takes. */
#ifndef STACK_H
#define STACK_H

#include <stddef.h>

/* Makes the call on a stack of its own that was painted before, and sees how deep it was written; what a call of nothing writes is taken off, but
 * for the return address. `call` calls the library once, with nothing on its own stack. */
size_t stack_taken(void (*call)(void));

#endif
