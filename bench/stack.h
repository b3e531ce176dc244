/* The stack that a call takes. */
#ifndef STACK_H
#define STACK_H

#include <stddef.h>

/* Runs `work` on a thread whose stack was painted, and gives the bytes of it that were written below the caller. */
size_t stack_of(void (*work)(void *), void *argument);

#endif
