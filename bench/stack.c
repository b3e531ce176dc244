/* A thread on a painted stack. */
#define _DEFAULT_SOURCE
#include "stack.h"

#include <pthread.h>
#include <stdint.h>
#include <stdio.h>
#include <stdlib.h>
#include <string.h>
#include <sys/mman.h>

enum { STACK_BYTES = 16 << 20, PAINT = 0xc3, MARGIN = 256 };

struct painted {
    unsigned char *stack;
    void (*work)(void *);
    void *argument;
    size_t peak;
};

static __attribute__((noinline)) void *work_on(void *of)
{
    struct painted *painted = of;
    unsigned char here;
    unsigned char *top = (unsigned char *)((uintptr_t)&here & ~(uintptr_t)15) - MARGIN;
    memset(painted->stack, PAINT, (size_t)(top - painted->stack));
    painted->work(painted->argument);
    size_t untouched = 0;
    while (painted->stack + untouched < top && painted->stack[untouched] == PAINT)
        untouched++;
    painted->peak = (size_t)(top - painted->stack) - untouched + MARGIN;
    return NULL;
}

static _Noreturn void give_up(const char *what)
{
    perror(what);
    exit(2);
}

size_t stack_of(void (*work)(void *), void *argument)
{
    struct painted painted = { .work = work, .argument = argument };
    pthread_attr_t attributes;
    pthread_t thread;
    painted.stack = mmap(NULL, STACK_BYTES, PROT_READ | PROT_WRITE, MAP_PRIVATE | MAP_ANONYMOUS, -1, 0);
    if (painted.stack == MAP_FAILED)
        give_up("mmap");
    if (pthread_attr_init(&attributes) != 0 || pthread_attr_setstack(&attributes, painted.stack, STACK_BYTES) != 0
        || pthread_create(&thread, &attributes, work_on, &painted) != 0 || pthread_join(thread, NULL) != 0)
        give_up("thread");
    pthread_attr_destroy(&attributes);
    munmap(painted.stack, STACK_BYTES);
    return painted.peak;
}
