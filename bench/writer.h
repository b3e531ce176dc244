/* A writer of scripts, node by node, as the script file has them: a node, then its children. */
#ifndef WRITER_H
#define WRITER_H

#include "scripts.h"

#include <assert.h>
#include <string.h>

/* Nodes in the order in which they are written. */
struct writer {
    uint8_t kinds[ENGINE_NODES_MAX];
    int64_t operands[ENGINE_NODES_MAX];
    unsigned nodes;
    unsigned functions;
};

static inline void node(struct writer *w, uint8_t kind, int64_t operand)
{
    assert(w->nodes < ENGINE_NODES_MAX);
    w->kinds[w->nodes] = kind;
    w->operands[w->nodes++] = operand;
    w->functions += kind == ENGINE_KIND_FUNCTION;
}

/* One function for each kind. */
static inline void function(struct writer *w, int parameters, int depth)
{
    node(w, ENGINE_KIND_FUNCTION, parameters + 256 * depth);
}
static inline void parameter(struct writer *w, int name, int depth)
{
    node(w, ENGINE_KIND_PARAMETER, name + 256 * depth);
}
static inline void number(struct writer *w, int64_t value) { node(w, ENGINE_KIND_NUMBER, value); }
static inline void name(struct writer *w, int which) { node(w, ENGINE_KIND_NAME, which); }
static inline void sum(struct writer *w) { node(w, ENGINE_KIND_SUM, 0); }
static inline void difference(struct writer *w) { node(w, ENGINE_KIND_DIFFERENCE, 0); }
static inline void less(struct writer *w) { node(w, ENGINE_KIND_LESS, 0); }
static inline void let(struct writer *w, int which) { node(w, ENGINE_KIND_LET, which); }
static inline void call(struct writer *w, int which, int arguments)
{
    node(w, ENGINE_KIND_CALL, which + 256 * arguments);
}
static inline void literal(struct writer *w, int length, int depth)
{
    node(w, ENGINE_KIND_LITERAL, length + 256 * depth);
}
static inline void index_of(struct writer *w) { node(w, ENGINE_KIND_INDEX, 0); }
static inline void length_of(struct writer *w) { node(w, ENGINE_KIND_LENGTH, 0); }
static inline void if_then_else(struct writer *w) { node(w, ENGINE_KIND_IF, 0); }
static inline void map(struct writer *w, int which) { node(w, ENGINE_KIND_MAP, which); }
static inline void iota(struct writer *w) { node(w, ENGINE_KIND_IOTA, 0); }
static inline void replicate(struct writer *w) { node(w, ENGINE_KIND_REPLICATE, 0); }
static inline void filter(struct writer *w, int which) { node(w, ENGINE_KIND_FILTER, which); }
static inline void reduce(struct writer *w, int first, int second)
{
    node(w, ENGINE_KIND_REDUCE, first + 256 * second);
}

/* The numbers from 0 on. */
static inline void counting_literal(struct writer *w, int length)
{
    literal(w, length, 0);
    for (int i = 0; i < length; i++)
        number(w, i);
}

/* The first reading, in main with parameters 0 and 1. */
static inline void first_reading(struct writer *w)
{
    index_of(w);
    name(w, 1);
    number(w, 0);
}

static inline void finish(const struct writer *w, struct script *script)
{
    const unsigned sizes[2] = { w->functions, w->nodes };
    script->length = ENGINE_FILE_LENGTH(w->nodes);
    for (unsigned i = 0; i < 4; i++)
        script->file[i] = (uint8_t)(sizes[i / 2] >> (8 * (i % 2)));
    memcpy(script->file + 4, w->kinds, w->nodes);
    for (unsigned i = 0; i < w->nodes; i++)
        for (unsigned byte = 0; byte < 8; byte++)
            script->file[4 + w->nodes + 8 * i + byte] = (uint8_t)((uint64_t)w->operands[i] >> (8 * byte));
}

/* Begins with main(totals, readings), both named so: 0 and 1. */
static inline struct writer main_of(int depth)
{
    struct writer w = { .nodes = 0 };
    function(&w, 2, depth);
    parameter(&w, 0, depth);
    parameter(&w, 1, 1);
    return w;
}

#endif
