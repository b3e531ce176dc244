/* The meaning of a delivery: main worked on values, node by node as they are written. */
#include "meaning.h"
#include "node_kinds.h"

enum { NAMES = 256 };

struct work {
    const struct task *task;
    const struct node *nodes;
    struct pool *pool;
    struct outcome outcome;
    unsigned depth; /* of the call in progress: 0 is main's */
    struct value names[ENGINE_CALL_DEPTH_MAX][NAMES];
    struct shape shape;
};

static bool work_part(struct work *w, size_t node, struct value *result);

/* ---- Steps and stops: what gives a truth value gives false where the delivery stops ---- */

static bool stop(struct work *w, unsigned number, const struct moment *moment)
{
    w->outcome.number = number;
    w->outcome.last = *moment;
    w->outcome.last.step = w->outcome.steps;
    w->outcome.last.calls = w->depth;
    return false;
}

static bool take_step(struct work *w, struct moment *moment)
{
    if (w->outcome.steps == w->task->budget)
        return stop(w, ENGINE_OUT_OF_STEPS, moment);
    moment->step = ++w->outcome.steps;
    moment->calls = w->depth;
    return true;
}

static void watch(struct work *w, const struct moment *moment)
{
    if (w->task->watch != NULL)
        w->task->watch(moment, w->task->context);
}

/* A cell is wanted straight after a node's own step. */
static bool has_cell(const struct work *w)
{
    return w->outcome.steps != w->task->dry_at;
}

/* ---- Nodes below which nothing is worked after their step ---- */

static bool is_count(struct value count)
{
    return count.number >= 0 && count.number <= ENGINE_CELL_SLOTS;
}

static struct value repeated(struct work *w, int64_t count, const struct value *value)
{
    struct list *list = new_list(w->pool, (unsigned)count);
    for (unsigned i = 0; i < list->length; i++)
        list->elements[i] = value == NULL ? number_value(i) : *value;
    return list_value(list);
}

static unsigned work_index(struct value array, struct value position, struct value *result)
{
    if (position.number < 0 || position.number >= array.list->length)
        return ENGINE_INDEX_OUT_OF_RANGE;
    *result = array.list->elements[position.number];
    return ENGINE_DONE;
}

/* The result, or the number of a stop. */
static unsigned work_leaf(struct work *w, uint8_t kind, const struct list *parts, struct value *result)
{
    struct value one = parts->length > 0 ? parts->elements[0] : number_value(0);
    struct value two = parts->length > 1 ? parts->elements[1] : number_value(0);
    *result = number_value(0);
    switch (kind) {
    case ENGINE_KIND_SUM:
        return __builtin_add_overflow(one.number, two.number, &result->number) ? ENGINE_OVERFLOW : ENGINE_DONE;
    case ENGINE_KIND_DIFFERENCE:
        return __builtin_sub_overflow(one.number, two.number, &result->number) ? ENGINE_OVERFLOW : ENGINE_DONE;
    case ENGINE_KIND_LESS: result->number = one.number < two.number; return ENGINE_DONE;
    case ENGINE_KIND_INDEX: return work_index(one, two, result);
    case ENGINE_KIND_LENGTH: result->number = one.list->length; return ENGINE_DONE;
    case ENGINE_KIND_LITERAL: *result = list_value(parts); return has_cell(w) ? ENGINE_DONE : ENGINE_OUT_OF_CELLS;
    default: break; /* iota and replicate */
    }
    if (!is_count(one))
        return ENGINE_BAD_COUNT;
    *result = repeated(w, one.number, kind == ENGINE_KIND_IOTA ? NULL : &two);
    return has_cell(w) ? ENGINE_DONE : ENGINE_OUT_OF_CELLS;
}

/* ---- Nodes below which something is worked after their step ---- */

static bool work_call(struct work *w, const struct moment *m, struct value *result)
{
    size_t function = w->shape.functions[w->nodes[m->node].operand % 256];
    if (w->depth + 1 == ENGINE_CALL_DEPTH_MAX)
        return stop(w, ENGINE_CALL_TOO_DEEP, m);
    w->outcome.callers[w->depth++] = m->node;
    for (unsigned i = 0; i < m->parts->length; i++)
        w->names[w->depth][w->nodes[function + 1 + i].operand % 256] = m->parts->elements[i];
    bool goes_on = work_part(w, function + 1 + m->parts->length, result);
    w->depth--;
    return goes_on;
}

static bool work_if(struct work *w, struct moment *m, size_t then_part, struct value *result)
{
    int64_t guard = m->parts->elements[0].number;
    if (guard != 0 && guard != 1)
        return stop(w, ENGINE_BAD_GUARD, m);
    return work_part(w, guard == 1 ? then_part : w->shape.after[then_part], result);
}

/* A pass over a body with its names bound; they are put back after it. A reduce's second name hides an equal first. */
static bool work_pass(struct work *w, struct moment *m, size_t body, struct value *result)
{
    const struct node *node = &w->nodes[m->node];
    struct value *names = w->names[w->depth];
    bool has_two = pass_names_of(node->kind) == 2;
    int64_t first = node->operand % 256, second = has_two ? node->operand / 256 : first;
    struct value outer_first = names[first], outer_second = names[second];
    m->pass++;
    if (!take_step(w, m))
        return false;
    watch(w, m);
    names[first] = m->first;
    if (has_two)
        names[second] = m->second;
    bool goes_on = work_part(w, body, result);
    names[second] = outer_second;
    names[first] = outer_first;
    return goes_on;
}

static bool work_map(struct work *w, struct moment *m, size_t body, struct value *result)
{
    const struct list *array = m->parts->elements[0].list;
    struct list *results = new_list(w->pool, array->length);
    if (!has_cell(w))
        return stop(w, ENGINE_OUT_OF_CELLS, m);
    for (unsigned i = 0; i < array->length; i++) {
        m->first = array->elements[i];
        if (!work_pass(w, m, body, &results->elements[i]))
            return false;
    }
    *result = list_value(results);
    return true;
}

static bool work_filter(struct work *w, struct moment *m, size_t body, struct value *result)
{
    const struct list *array = m->parts->elements[0].list;
    struct list *kept = new_list(w->pool, array->length);
    if (!has_cell(w))
        return stop(w, ENGINE_OUT_OF_CELLS, m);
    kept->length = 0;
    for (unsigned i = 0; i < array->length; i++) {
        struct value guard;
        m->first = array->elements[i];
        if (!work_pass(w, m, body, &guard))
            return false;
        if (guard.number != 0 && guard.number != 1) {
            m->has_result = true;
            m->result = guard;
            return stop(w, ENGINE_BAD_GUARD, m);
        }
        if (guard.number == 1)
            kept->elements[kept->length++] = m->first;
    }
    *result = list_value(kept);
    return true;
}

static bool work_reduce(struct work *w, struct moment *m, size_t body, struct value *result)
{
    const struct list *array = m->parts->elements[1].list;
    m->first = m->parts->elements[0];
    for (unsigned i = 0; i < array->length; i++) {
        m->second = array->elements[i];
        if (!work_pass(w, m, body, result))
            return false;
        m->first = *result;
    }
    *result = m->first;
    return true;
}

/* ---- Parts ---- */

static bool work_compound(struct work *w, size_t node, struct value *result)
{
    uint8_t kind = w->nodes[node].kind;
    unsigned trees = trees_of(kind), count = children_of(kind, w->nodes[node].operand) - trees;
    struct list *parts = new_list(w->pool, count);
    size_t at = node + 1;
    for (unsigned i = 0; i < count; i++, at = w->shape.after[at])
        if (!work_part(w, at, &parts->elements[i]))
            return false;
    struct moment m = { .node = node, .parts = parts };
    if (!take_step(w, &m))
        return false;
    if (trees == 0 && kind != ENGINE_KIND_CALL) {
        unsigned number = work_leaf(w, kind, parts, &m.result);
        m.has_result = number == ENGINE_DONE;
        watch(w, &m);
        *result = m.result;
        return number == ENGINE_DONE || stop(w, number, &m);
    }
    watch(w, &m);
    switch (kind) {
    case ENGINE_KIND_CALL: return work_call(w, &m, result);
    case ENGINE_KIND_IF: return work_if(w, &m, at, result);
    case ENGINE_KIND_MAP: return work_map(w, &m, at, result);
    case ENGINE_KIND_FILTER: return work_filter(w, &m, at, result);
    default: return work_reduce(w, &m, at, result);
    }
}

static bool work_let(struct work *w, size_t node, struct value *result)
{
    struct value *name = &w->names[w->depth][w->nodes[node].operand], bound, outer = *name;
    if (!work_part(w, node + 1, &bound))
        return false;
    *name = bound;
    bool goes_on = work_part(w, w->shape.after[node + 1], result);
    *name = outer;
    return goes_on;
}

static bool work_part(struct work *w, size_t node, struct value *result)
{
    const struct node *n = &w->nodes[node];
    switch (n->kind) {
    case ENGINE_KIND_NUMBER: *result = number_value(n->operand); return true;
    case ENGINE_KIND_NAME: *result = w->names[w->depth][n->operand]; return true;
    case ENGINE_KIND_LET: return work_let(w, node, result);
    default: return work_compound(w, node, result);
    }
}

/* ---- Main ---- */

struct outcome work_main(const struct task *task, struct pool *pool)
{
    static struct work work;
    work = (struct work){ .task = task, .nodes = task->script->nodes, .pool = pool };
    find_shape(task->script, &work.shape);
    if (task->dry_at == 0) {
        work.outcome.number = ENGINE_OUT_OF_CELLS;
        return work.outcome;
    }
    work.names[0][work.nodes[1].operand % 256] = task->totals;
    work.names[0][work.nodes[2].operand % 256] = task->readings;
    work_part(&work, 3, &work.outcome.result);
    return work.outcome;
}
