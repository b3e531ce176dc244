/* How many cells are free at each step of a delivery: its code worked beside the engine on counted cells. */
#ifndef LEVELS_H
#define LEVELS_H

#include "code.h"

/* What is to be worked: a delivery on a store as it was before. */
struct counted_task {
    const struct code *code;
    const int64_t *slots;
    const uint32_t *heads;
    size_t cells;
    const int64_t *readings;
    size_t count;
    uint64_t budget;
};

struct levels {
    unsigned number; /* 0, or that of a stop */
    uint32_t steps;
    unsigned lowest; /* level of all */
    uint16_t free[ENGINE_BUDGET_MAX]; /* cells, as each step is taken */
};

/* Works a delivery that the engine does not refuse. The store is only read. */
void work_code(const struct counted_task *task, struct levels *levels);

#endif
