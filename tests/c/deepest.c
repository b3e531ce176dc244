/* The deepest deliveries on a small stack. */
#define _POSIX_C_SOURCE 200809L
#include "deepest.h"
#include "lent.h"

#include <pthread.h>
#include <stdio.h>
#include <stdlib.h>
#include <string.h>

static void *deliver_here(void *of)
{
    uint64_t *answer = of;
    *answer = deliver(ENGINE_BUDGET_MAX);
    return NULL;
}

/* By the code that the opening left, of a main of depth 0. */
static void *deliver_code_here(void *of)
{
    uint64_t *answer = of;
    *answer = deliver_code(0, ENGINE_BUDGET_MAX);
    return NULL;
}

static _Noreturn void give_up(const char *what)
{
    fprintf(stderr, "a deepest delivery: %s\n", what);
    exit(2);
}

/* Everything that is lent lies outside the thread's stack. */
static void lend_deepest(void (*write)(struct script *))
{
    static struct script script;
    write(&script);
    lend_file(script.length);
    memcpy(lent.file, script.file, script.length);
    lend_code(ENGINE_CODE_LINES_MAX, ENGINE_CODE_LINES_MAX);
    lend_store(ENGINE_SLOTS_LENGTH(ENGINE_CELLS_MAX), ENGINE_HEADS_LENGTH(ENGINE_CELLS_MAX));
    lend_readings(0);
}

uint64_t deliver_deepest(void (*script)(struct script *), bool by_code)
{
    uint64_t answer = 0;
    pthread_attr_t attributes;
    pthread_t thread;
    lend_deepest(script);
    if (engine_answer_number(open_store()) != ENGINE_DONE)
        give_up("its store does not open");
    if (pthread_attr_init(&attributes) != 0 || pthread_attr_setstacksize(&attributes, ENGINE_STACK_BYTES) != 0
        || pthread_create(&thread, &attributes, by_code ? deliver_code_here : deliver_here, &answer) != 0
        || pthread_join(thread, NULL) != 0)
        give_up("no thread");
    pthread_attr_destroy(&attributes);
    return answer;
}
