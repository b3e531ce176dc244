/* The fewest cells with which a delivery of a script can be done: a bound from below, as its nodes show it. */
#include "node_kinds.h"
#include "script.h"

/* Of a part: the cells that are taken at once at some time of its work, at least, not counting those that were taken
 * before it; and those of its result that the work itself has taken. A loop may have no pass, and a name shares its
 * array's cell, so both count for nothing. */
struct need {
    size_t most, kept;
};

struct reckoning {
    const struct script *script;
    struct shape shape;
    struct need functions[ENGINE_FUNCTIONS_MAX];
    bool is_known[ENGINE_FUNCTIONS_MAX]; /* or being worked: a call of it then counts for nothing */
};

static struct need part_need(struct reckoning *r, size_t node);

static size_t greater(size_t one, size_t other)
{
    return one > other ? one : other;
}

static size_t lesser(size_t one, size_t other)
{
    return one < other ? one : other;
}

/* Parts worked one after another, from `*at` on, all of whose results are kept. */
static struct need parts_need(struct reckoning *r, size_t *at, unsigned count)
{
    struct need need = { 0, 0 };
    for (; count > 0; count--, *at = r->shape.after[*at]) {
        struct need part = part_need(r, *at);
        need.most = greater(need.most, need.kept + part.most);
        need.kept += part.kept;
    }
    return need;
}

static struct need function_need(struct reckoning *r, size_t function)
{
    if (!r->is_known[function]) {
        size_t node = r->shape.functions[function];
        r->is_known[function] = true;
        r->functions[function] = part_need(r, node + 1 + (size_t)(r->script->nodes[node].operand % 256));
    }
    return r->functions[function];
}

/* A node that takes a cell beside what its parts keep; so many of these go into its result. */
static struct need with_cell(struct need parts, size_t kept)
{
    return (struct need){ greater(parts.most, parts.kept + 1), kept + 1 };
}

static struct need if_need(struct reckoning *r, size_t node)
{
    size_t at = node + 1;
    struct need guard = parts_need(r, &at, 1), one = parts_need(r, &at, 1), other = part_need(r, at);
    return (struct need){ greater(guard.most, lesser(one.most, other.most)), lesser(one.kept, other.kept) };
}

static struct need loop_need(struct reckoning *r, size_t node, uint8_t kind)
{
    size_t at = node + 1;
    struct need start = { 0, 0 };
    if (kind == ENGINE_KIND_REDUCE)
        start = parts_need(r, &at, 1);
    struct need array = part_need(r, at), body = part_need(r, r->shape.after[at]);
    switch (kind) {
    case ENGINE_KIND_FILTER: return with_cell(array, 0);
    case ENGINE_KIND_MAP: return (struct need){ greater(array.most, 1), 1 }; /* perhaps in its array's own cell */
    default: return (struct need){ greater(start.most, start.kept + array.most), lesser(start.kept, body.kept) };
    }
}

/* Whether a count is above 0 each time. */
static bool is_some_number(const struct node *count)
{
    return count->kind == ENGINE_KIND_NUMBER && count->operand > 0;
}

static struct need part_need(struct reckoning *r, size_t node)
{
    const struct node *n = &r->script->nodes[node];
    size_t at = node + 1;
    if (n->kind == ENGINE_KIND_IF)
        return if_need(r, node);
    if (pass_names_of(n->kind) > 0)
        return loop_need(r, node, n->kind);
    if (n->kind == ENGINE_KIND_LET) {
        struct need bound = parts_need(r, &at, 1), body = part_need(r, at);
        return (struct need){ greater(bound.most, body.most), body.kept };
    }
    struct need parts = parts_need(r, &at, children_of(n->kind, n->operand));
    switch (n->kind) {
    case ENGINE_KIND_LITERAL: return with_cell(parts, parts.kept);
    case ENGINE_KIND_IOTA: return with_cell(parts, 0);
    case ENGINE_KIND_REPLICATE: return with_cell(parts, is_some_number(n + 1) ? parts.kept : 0);
    case ENGINE_KIND_CALL: {
        struct need called = function_need(r, (size_t)(n->operand % 256));
        return (struct need){ greater(parts.most, called.most), called.kept };
    }
    default: return (struct need){ parts.most, 0 };
    }
}

size_t least_cells(const struct script *script)
{
    static struct reckoning r;
    r = (struct reckoning){ .script = script };
    find_shape(script, &r.shape);
    size_t totals = script->nodes[0].operand / 256 > 0; /* the old ones keep theirs */
    return totals + greater(1, function_need(&r, 0).most); /* the readings', or main's work */
}
