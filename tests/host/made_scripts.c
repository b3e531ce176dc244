/* Scripts made at random: their names are known and their depths match. */
#include "made_scripts.h"

#include <stdbool.h>

enum { FUNCTIONS = 5, NODES = 60, LEVELS = 12, NAMES = 6, SCOPE = 64 };

struct signature {
    unsigned count;
    unsigned parameters[ENGINE_PARAMETERS_MAX]; /* depths */
    unsigned depth;
};

/* The names that are known at a place, innermost last. */
struct scope {
    unsigned count;
    struct {
        unsigned name, depth;
    } names[SCOPE];
};

struct maker {
    struct random *random;
    struct script *script;
    unsigned functions;
    struct signature signatures[FUNCTIONS];
    unsigned left; /* nodes that the present function may still have, about */
};

static void make_part(struct maker *m, unsigned depth, unsigned level, const struct scope *scope);

/* ---- Numbers (splitmix64) ---- */

static uint64_t next(struct random *random)
{
    uint64_t mixed = random->state += 0x9e3779b97f4a7c15u;
    mixed = (mixed ^ (mixed >> 30)) * 0xbf58476d1ce4e5b9u;
    mixed = (mixed ^ (mixed >> 27)) * 0x94d049bb133111ebu;
    return mixed ^ (mixed >> 31);
}

unsigned below(struct random *random, unsigned limit)
{
    return (unsigned)(next(random) % limit);
}

int64_t some_number(struct random *random)
{
    switch (below(random, 12)) {
    case 0: return INT64_MAX;
    case 1: return INT64_MIN;
    case 2: return -(int64_t)below(random, 300);
    default: return below(random, 5);
    }
}

static unsigned low_depth(struct random *random, unsigned most)
{
    unsigned one = below(random, most + 1), other = below(random, most + 1);
    return one < other ? one : other;
}

/* ---- Nodes ---- */

static void put(struct maker *m, uint8_t kind, int64_t operand)
{
    m->script->nodes[m->script->count++] = (struct node){ .kind = kind, .operand = operand };
    m->left -= m->left > 0;
}

static struct scope with_name(const struct scope *scope, unsigned name, unsigned depth)
{
    struct scope inner = *scope;
    inner.names[inner.count].name = name;
    inner.names[inner.count++].depth = depth;
    return inner;
}

static bool is_hidden(const struct scope *scope, unsigned place)
{
    for (unsigned i = place + 1; i < scope->count; i++)
        if (scope->names[i].name == scope->names[place].name)
            return true;
    return false;
}

/* A name in scope, a number, or an empty literal. */
static void make_leaf(struct maker *m, unsigned depth, const struct scope *scope)
{
    unsigned fitting[SCOPE], count = 0;
    for (unsigned i = 0; i < scope->count; i++)
        if (scope->names[i].depth == depth && !is_hidden(scope, i))
            fitting[count++] = scope->names[i].name;
    if (count > 0 && below(m->random, 4) > 0)
        put(m, ENGINE_KIND_NAME, fitting[below(m->random, count)]);
    else if (depth == 0)
        put(m, ENGINE_KIND_NUMBER, some_number(m->random));
    else
        put(m, ENGINE_KIND_LITERAL, 256 * (int64_t)(depth - 1));
}

/* Mostly a comparison, at times 1 or 0, and at times any number. */
static void make_guard(struct maker *m, unsigned level, const struct scope *scope)
{
    unsigned choice = below(m->random, 8);
    if (choice == 0) {
        make_part(m, 0, level, scope);
    } else if (choice == 1) {
        put(m, ENGINE_KIND_NUMBER, below(m->random, 2));
    } else {
        put(m, ENGINE_KIND_LESS, 0);
        make_part(m, 0, level + 1, scope);
        make_part(m, 0, level + 1, scope);
    }
}

/* Mostly a count that an array can have. */
static void make_count(struct maker *m, unsigned level, const struct scope *scope)
{
    unsigned choice = below(m->random, 8);
    if (choice == 0)
        make_part(m, 0, level, scope);
    else
        put(m, ENGINE_KIND_NUMBER, choice == 1 ? 15 + below(m->random, 3) : below(m->random, 5));
}

static void make_let(struct maker *m, unsigned depth, unsigned level, const struct scope *scope)
{
    unsigned name = below(m->random, NAMES), bound = low_depth(m->random, 3);
    put(m, ENGINE_KIND_LET, name);
    make_part(m, bound, level, scope);
    struct scope inner = with_name(scope, name, bound);
    make_part(m, depth, level, &inner);
}

static void make_call(struct maker *m, unsigned depth, unsigned level, const struct scope *scope)
{
    unsigned fitting[FUNCTIONS], count = 0;
    for (unsigned i = 0; i < m->functions; i++)
        if (m->signatures[i].depth == depth)
            fitting[count++] = i;
    if (count == 0) {
        make_leaf(m, depth, scope);
        return;
    }
    unsigned function = fitting[below(m->random, count)];
    const struct signature *called = &m->signatures[function];
    put(m, ENGINE_KIND_CALL, function + 256 * (int64_t)called->count);
    for (unsigned i = 0; i < called->count; i++)
        make_part(m, called->parameters[i], level, scope);
}

static void make_index(struct maker *m, unsigned depth, unsigned level, const struct scope *scope)
{
    put(m, ENGINE_KIND_INDEX, 0);
    make_part(m, depth + 1, level, scope);
    if (below(m->random, 3) == 0)
        make_part(m, 0, level, scope);
    else
        put(m, ENGINE_KIND_NUMBER, low_depth(m->random, 2));
}

/* A reduce; at times its two names are equal, and the second hides the first. */
static void make_reduce(struct maker *m, unsigned depth, unsigned level, const struct scope *scope)
{
    unsigned first = below(m->random, NAMES), second = below(m->random, NAMES), element = low_depth(m->random, 2);
    put(m, ENGINE_KIND_REDUCE, first + 256 * (int64_t)second);
    make_part(m, depth, level, scope);
    make_part(m, element + 1, level, scope);
    struct scope inner = with_name(scope, first, depth);
    inner = with_name(&inner, second, element);
    make_part(m, depth, level, &inner);
}

static void make_map(struct maker *m, unsigned depth, unsigned level, const struct scope *scope)
{
    unsigned name = below(m->random, NAMES), element = low_depth(m->random, 3);
    put(m, ENGINE_KIND_MAP, name);
    make_part(m, element + 1, level, scope);
    struct scope inner = with_name(scope, name, element);
    make_part(m, depth - 1, level, &inner);
}

static void make_filter(struct maker *m, unsigned depth, unsigned level, const struct scope *scope)
{
    unsigned name = below(m->random, NAMES);
    put(m, ENGINE_KIND_FILTER, name);
    make_part(m, depth, level, scope);
    struct scope inner = with_name(scope, name, depth - 1);
    make_guard(m, level, &inner);
}

static void make_literal(struct maker *m, unsigned depth, unsigned level, const struct scope *scope)
{
    unsigned length = below(m->random, 10) == 0 ? below(m->random, 17) : below(m->random, 4);
    put(m, ENGINE_KIND_LITERAL, length + 256 * (int64_t)(depth - 1));
    for (unsigned i = 0; i < length; i++)
        make_part(m, depth - 1, level, scope);
}

static void make_counted(struct maker *m, unsigned depth, unsigned level, const struct scope *scope)
{
    bool is_iota = depth == 1 && below(m->random, 2) == 0;
    put(m, is_iota ? ENGINE_KIND_IOTA : ENGINE_KIND_REPLICATE, 0);
    make_count(m, level, scope);
    if (!is_iota)
        make_part(m, depth - 1, level, scope);
}

/* A node that makes an array. */
static void make_array(struct maker *m, unsigned depth, unsigned level, const struct scope *scope)
{
    switch (below(m->random, 8)) {
    case 0:
    case 1: make_counted(m, depth, level, scope); break;
    case 2:
    case 3: make_filter(m, depth, level, scope); break;
    case 4:
    case 5: make_map(m, depth, level, scope); break;
    default: make_literal(m, depth, level, scope); break;
    }
}

/* A node that gives a number. */
static void make_number(struct maker *m, unsigned level, const struct scope *scope)
{
    if (below(m->random, 3) == 0) {
        put(m, ENGINE_KIND_LENGTH, 0);
        make_part(m, 1 + low_depth(m->random, 3), level, scope);
    } else {
        put(m, (uint8_t)(ENGINE_KIND_SUM + below(m->random, 3)), 0);
        make_part(m, 0, level, scope);
        make_part(m, 0, level, scope);
    }
}

static void make_if(struct maker *m, unsigned depth, unsigned level, const struct scope *scope)
{
    put(m, ENGINE_KIND_IF, 0);
    make_guard(m, level, scope);
    make_part(m, depth, level, scope);
    make_part(m, depth, level, scope);
}

static void make_part(struct maker *m, unsigned depth, unsigned level, const struct scope *scope)
{
    if (m->left == 0 || level >= LEVELS || below(m->random, 6) == 0) {
        make_leaf(m, depth, scope);
        return;
    }
    unsigned choice = below(m->random, 10), next_level = level + 1;
    if (choice < 2)
        make_let(m, depth, next_level, scope);
    else if (choice == 2)
        make_call(m, depth, next_level, scope);
    else if (choice < 5)
        make_if(m, depth, next_level, scope);
    else if (choice == 5 && depth < ENGINE_DEPTH_MAX)
        make_index(m, depth, next_level, scope);
    else if (choice == 6)
        make_reduce(m, depth, next_level, scope);
    else if (depth > 0)
        make_array(m, depth, next_level, scope);
    else
        make_number(m, next_level, scope);
}

/* ---- Functions ---- */

static void make_function(struct maker *m, const struct signature *signature)
{
    struct scope scope = { .count = 0 };
    unsigned first = below(m->random, NAMES);
    put(m, ENGINE_KIND_FUNCTION, signature->count + 256 * (int64_t)signature->depth);
    for (unsigned i = 0; i < signature->count; i++) {
        put(m, ENGINE_KIND_PARAMETER, first + i + 256 * (int64_t)signature->parameters[i]);
        scope = with_name(&scope, first + i, signature->parameters[i]);
    }
    m->left = NODES;
    make_part(m, signature->depth, 1, &scope);
}

void make_script(struct random *random, struct script *script)
{
    struct maker m = { .random = random, .script = script, .functions = 1 + below(random, FUNCTIONS) };
    unsigned depth = low_depth(random, ENGINE_DEPTH_MAX);
    m.signatures[0] = (struct signature){ 2, { depth, 1 }, depth };
    for (unsigned i = 1; i < m.functions; i++) {
        struct signature *signature = &m.signatures[i];
        signature->count = low_depth(random, ENGINE_PARAMETERS_MAX);
        signature->depth = low_depth(random, ENGINE_DEPTH_MAX);
        for (unsigned k = 0; k < signature->count; k++)
            signature->parameters[k] = low_depth(random, ENGINE_DEPTH_MAX);
    }
    script->count = 0;
    script->functions = m.functions;
    for (unsigned i = 0; i < m.functions; i++)
        make_function(&m, &m.signatures[i]);
}
