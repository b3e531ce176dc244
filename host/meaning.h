/* The meaning of a delivery: main worked on values, node by node as they are written. It knows nothing of code or
 * cells, and so it can say at which node a delivery stopped; the engine decides that it did. */
#ifndef MEANING_H
#define MEANING_H

#include "script.h"
#include "value.h"

/* A node as it takes its step, or as a delivery stops there. */
struct moment {
    size_t node;
    uint32_t step;             /* how many were taken, this one included if it was */
    const struct list *parts;  /* what its parts gave, but for bodies and branches */
    unsigned pass;             /* of a map, filter or reduce, from 1; 0 for the node itself */
    struct value first, second; /* what the names of a pass stand for */
    bool has_result;
    struct value result;       /* known here where nothing is worked below; a filter's guard where that stops it */
    unsigned calls;            /* in progress, main's aside */
};

struct outcome {
    unsigned number;      /* 0, or that of a stop */
    uint32_t steps;
    struct value result;  /* the new totals, where the number is 0 */
    struct moment last;   /* where it stopped, if it did; with 25 after no step at all there is none */
    size_t callers[ENGINE_CALL_DEPTH_MAX]; /* the nodes of the calls in progress there, outermost first */
};

#define NEVER_DRY UINT64_MAX

/* What is to be worked. */
struct task {
    const struct script *script; /* one that the engine accepts */
    struct value totals, readings;
    uint64_t budget;
    uint64_t dry_at;             /* after how many steps no cell was free, as the engine said; or NEVER_DRY */
    void (*watch)(const struct moment *moment, void *context); /* is told of each step; or null */
    void *context;
};

/* Works main. The result's arrays, and those of the moment, are the pool's. */
struct outcome work_main(const struct task *task, struct pool *pool);

#endif
