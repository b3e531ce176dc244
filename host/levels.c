/* How many cells are free at each step of a delivery: its code worked beside the engine on counted cells. */
#include "levels.h"

#include <string.h>

enum { NAMES = ENGINE_NEW_NAMES_MAX };

/* A number, or a cell. */
struct item {
    bool is_cell;
    int64_t word;
};

struct cell {
    unsigned count;
    unsigned length;
    struct item elements[ENGINE_CELL_SLOTS];
};

struct machine {
    const struct counted_task *task;
    const struct code *code;
    struct levels *levels;
    struct cell cells[ENGINE_CELLS_MAX];
    unsigned free;
    unsigned depth; /* of the call in progress: 0 is main's */
    struct item names[ENGINE_CALL_DEPTH_MAX][NAMES];
};

/* A line at work: what its atoms stand for, and where its trees begin. */
struct line {
    uint8_t kind;
    int64_t operand;
    unsigned atoms;
    struct item atom[ENGINE_CELL_SLOTS];
    uint32_t trees;
};

static bool work_tree(struct machine *m, uint32_t line, struct item *result);

/* ---- Cells; what gives a truth value gives false where the delivery stops ---- */

static bool stop(struct machine *m, unsigned number)
{
    m->levels->number = number;
    return false;
}

static bool acquire(struct machine *m, struct item *item)
{
    size_t cell = 0;
    if (m->free == 0)
        return stop(m, ENGINE_OUT_OF_CELLS);
    while (m->cells[cell].count != 0)
        cell++;
    m->cells[cell] = (struct cell){ .count = 1 };
    m->free--;
    if (m->free < m->levels->lowest)
        m->levels->lowest = m->free;
    *item = (struct item){ true, (int64_t)cell };
    return true;
}

static void retain(struct machine *m, struct item item)
{
    if (item.is_cell)
        m->cells[item.word].count++;
}

/* As deep as the value. */
static void release(struct machine *m, struct item item)
{
    if (!item.is_cell || --m->cells[item.word].count > 0)
        return;
    m->free++;
    for (unsigned i = 0; i < m->cells[item.word].length; i++)
        release(m, m->cells[item.word].elements[i]);
}

static struct cell *cell_of(struct machine *m, struct item item)
{
    return &m->cells[item.word];
}

static void append(struct machine *m, struct item array, struct item element)
{
    struct cell *cell = cell_of(m, array);
    cell->elements[cell->length++] = element;
}

static bool take_step(struct machine *m)
{
    struct levels *levels = m->levels;
    if (levels->steps == m->task->budget)
        return stop(m, ENGINE_OUT_OF_STEPS);
    levels->free[levels->steps++] = (uint16_t)m->free;
    return true;
}

/* ---- Lines without trees ---- */

static struct item number_item(int64_t number)
{
    return (struct item){ false, number };
}

static bool work_arithmetic(struct machine *m, const struct line *l, struct item *result)
{
    int64_t one = l->atom[0].word, two = l->atom[1].word, number = one < two;
    bool overflows = l->kind == ENGINE_KIND_SUM          ? __builtin_add_overflow(one, two, &number)
                     : l->kind == ENGINE_KIND_DIFFERENCE ? __builtin_sub_overflow(one, two, &number)
                                                         : false;
    *result = number_item(number);
    return !overflows || stop(m, ENGINE_OVERFLOW);
}

static bool work_index(struct machine *m, const struct line *l, struct item *result)
{
    const struct cell *cell = cell_of(m, l->atom[0]);
    int64_t position = l->atom[1].word;
    if (position < 0 || position >= cell->length)
        return stop(m, ENGINE_INDEX_OUT_OF_RANGE);
    *result = cell->elements[position];
    return true;
}

static bool work_literal(struct machine *m, const struct line *l, struct item *result)
{
    if (!acquire(m, result))
        return false;
    for (unsigned i = 0; i < l->atoms; i++)
        append(m, *result, l->atom[i]);
    return true;
}

/* An iota or replicate. */
static bool work_counted(struct machine *m, const struct line *l, struct item *result)
{
    int64_t count = l->atom[0].word;
    if (count < 0 || count > ENGINE_CELL_SLOTS)
        return stop(m, ENGINE_BAD_COUNT);
    if (!acquire(m, result))
        return false;
    for (int64_t i = 0; i < count; i++) {
        struct item element = l->kind == ENGINE_KIND_IOTA ? number_item(i) : l->atom[1];
        retain(m, element);
        append(m, *result, element);
    }
    return true;
}

static bool work_call(struct machine *m, const struct line *l, struct item *result)
{
    size_t function = (size_t)(l->operand / 256);
    if (m->depth + 1 == ENGINE_CALL_DEPTH_MAX)
        return stop(m, ENGINE_CALL_TOO_DEEP);
    m->depth++;
    memcpy(m->names[m->depth], l->atom, l->atoms * sizeof l->atom[0]);
    bool goes_on = work_tree(m, m->code->functions[function] + 1 + l->atoms, result);
    m->depth--;
    return goes_on;
}

/* ---- Lines with trees ---- */

static bool work_if(struct machine *m, const struct line *l, struct item *result)
{
    int64_t guard = l->atom[0].word;
    if (guard != 0 && guard != 1)
        return stop(m, ENGINE_BAD_GUARD);
    return work_tree(m, guard == 1 ? l->trees : line_after_tree(m->code, l->trees), result);
}

/* A pass over the tree, with its first name bound. */
static bool work_pass(struct machine *m, const struct line *l, struct item first, struct item *result)
{
    if (!take_step(m))
        return false;
    m->names[m->depth][l->operand / 256 % 256] = first;
    return work_tree(m, l->trees, result);
}

/* A map of kind 21 in the cell of its array, if nothing else refers to it. */
static bool work_map(struct machine *m, const struct line *l, struct item *result)
{
    struct item array = l->atom[0], element;
    bool rewrites = l->kind == ENGINE_KIND_REWRITING_MAP, is_alone = rewrites && cell_of(m, array)->count == 1;
    *result = array;
    if (!is_alone && !acquire(m, result))
        return false;
    for (unsigned i = 0; i < cell_of(m, array)->length; i++) {
        if (!work_pass(m, l, cell_of(m, array)->elements[i], &element))
            return false;
        if (is_alone)
            cell_of(m, array)->elements[i] = element;
        else
            append(m, *result, element);
    }
    if (rewrites && !is_alone)
        release(m, array);
    return true;
}

static bool work_filter(struct machine *m, const struct line *l, struct item *result)
{
    struct item array = l->atom[0], guard;
    if (!acquire(m, result))
        return false;
    for (unsigned i = 0; i < cell_of(m, array)->length; i++) {
        struct item element = cell_of(m, array)->elements[i];
        if (!work_pass(m, l, element, &guard))
            return false;
        if (guard.word != 0 && guard.word != 1)
            return stop(m, ENGINE_BAD_GUARD);
        if (guard.word == 1) {
            retain(m, element);
            append(m, *result, element);
        }
    }
    return true;
}

static bool work_reduce(struct machine *m, const struct line *l, struct item *result)
{
    struct item array = l->atom[1];
    *result = l->atom[0];
    for (unsigned i = 0; i < cell_of(m, array)->length; i++) {
        m->names[m->depth][l->operand / 65536] = cell_of(m, array)->elements[i];
        if (!work_pass(m, l, *result, result))
            return false;
    }
    return true;
}

/* ---- Trees ---- */

static bool work_line(struct machine *m, const struct line *l, struct item *result)
{
    switch (l->kind) {
    case ENGINE_KIND_CALL: return work_call(m, l, result);
    case ENGINE_KIND_LITERAL: return work_literal(m, l, result);
    case ENGINE_KIND_INDEX: return work_index(m, l, result);
    case ENGINE_KIND_LENGTH: *result = number_item(cell_of(m, l->atom[0])->length); return true;
    case ENGINE_KIND_IF: return work_if(m, l, result);
    case ENGINE_KIND_IOTA:
    case ENGINE_KIND_REPLICATE: return work_counted(m, l, result);
    case ENGINE_KIND_MAP:
    case ENGINE_KIND_REWRITING_MAP: return work_map(m, l, result);
    case ENGINE_KIND_FILTER: return work_filter(m, l, result);
    case ENGINE_KIND_REDUCE: return work_reduce(m, l, result);
    default: return work_arithmetic(m, l, result);
    }
}

static struct item atom_at(const struct machine *m, uint32_t line)
{
    int64_t operand = m->code->operands[line];
    return m->code->kinds[line] == ENGINE_KIND_NAME ? m->names[m->depth][operand] : number_item(operand);
}

/* A compound line; gives the line after it and its trees. */
static bool work_compound(struct machine *m, uint32_t *at)
{
    const struct code *code = m->code;
    struct line l = { .kind = code->kinds[*at], .operand = code->operands[*at], .atoms = atoms_after(code, *at) };
    struct item result;
    for (unsigned i = 0; i < l.atoms; i++)
        l.atom[i] = atom_at(m, *at + 1 + i);
    l.trees = *at + 1 + l.atoms;
    *at = line_after_trees(code, *at);
    if (!take_step(m) || !work_line(m, &l, &result))
        return false;
    m->names[m->depth][l.operand % 256] = result;
    return true;
}

static bool work_tree(struct machine *m, uint32_t line, struct item *result)
{
    for (;;) {
        int64_t name = m->code->operands[line];
        switch (m->code->kinds[line]) {
        case ENGINE_KIND_END: *result = atom_at(m, line + 1); return true;
        case ENGINE_KIND_RETAIN: retain(m, m->names[m->depth][name]); line++; break;
        case ENGINE_KIND_RELEASE: release(m, m->names[m->depth][name]); line++; break;
        default:
            if (!work_compound(m, &line))
                return false;
        }
    }
}

/* ---- A delivery ---- */

static void take_store(struct machine *m)
{
    for (size_t i = 0; i < m->task->cells; i++) {
        const uint32_t *head = m->task->heads + ENGINE_HEADS_OF(i);
        const int64_t *slots = m->task->slots + ENGINE_SLOTS_OF(i);
        m->cells[i] = (struct cell){ .count = head[0], .length = head[1] };
        for (unsigned k = 0; k < head[1]; k++)
            m->cells[i].elements[k] = (struct item){ head[2] > 0, slots[k] };
        m->free += head[0] == 0;
    }
}

void work_code(const struct counted_task *task, struct levels *levels)
{
    static struct machine m;
    m = (struct machine){ .task = task, .code = task->code, .levels = levels };
    take_store(&m);
    levels->number = ENGINE_DONE;
    levels->steps = 0;
    levels->lowest = m.free;
    struct item totals = { task->code->operands[0] / 256 > 0, task->slots[0] }, readings, result;
    if (!acquire(&m, &readings))
        return;
    for (size_t i = 0; i < task->count; i++)
        append(&m, readings, number_item(task->readings[i]));
    retain(&m, totals);
    m.names[0][0] = totals;
    m.names[0][1] = readings;
    work_tree(&m, 3, &result);
}
