/* Which node binds each name of a script, and what uses it. */
#ifndef SCRIPT_BINDINGS_H
#define SCRIPT_BINDINGS_H

#include "script.h"

#define NO_NODE SIZE_MAX

struct bindings {
    struct shape shape;
    size_t binder[ENGINE_NODES_MAX];       /* of a name: its parameter, let, map, filter or reduce */
    bool is_second[ENGINE_NODES_MAX];      /* of a name: whether it is a reduce's second */
    bool is_used[ENGINE_NODES_MAX];        /* of a parameter or let: whether there is such a name */
    bool is_called[ENGINE_FUNCTIONS_MAX];  /* from main, by whatever way; so is main */
};

/* Of a script that the engine accepts. */
void find_bindings(const struct script *script, struct bindings *found);

/* The function that a node is part of. */
size_t function_of(const struct script *script, const struct bindings *found, size_t node);

#endif
