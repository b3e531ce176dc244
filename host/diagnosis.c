/* Which rules of a sound store some words break, and at which cells. */
#include "diagnosis.h"
#include "engine.h"

#include <inttypes.h>
#include <stdarg.h>
#include <stdbool.h>
#include <stdio.h>

struct diagnosis {
    void (*say)(const char *rule);
    const struct words *words;
    unsigned faults;
    uint32_t places[ENGINE_CELLS_MAX]; /* that name each cell */
    bool is_listed[ENGINE_CELLS_MAX];  /* on the free list */
};

struct head head_of(const struct words *words, size_t cell)
{
    const uint32_t *head = words->heads + ENGINE_HEADS_OF(cell);
    return (struct head){ head[0], head[1], head[2], head[3] };
}

const int64_t *elements_of(const struct words *words, size_t cell)
{
    return words->slots + ENGINE_SLOTS_OF(cell);
}

uint32_t elements_count(struct head head)
{
    return head.length < ENGINE_CELL_SLOTS ? head.length : ENGINE_CELL_SLOTS;
}

__attribute__((format(printf, 2, 3))) static void found(struct diagnosis *d, const char *format, ...)
{
    char rule[160];
    va_list arguments;
    va_start(arguments, format);
    vsnprintf(rule, sizeof rule, format, arguments);
    va_end(arguments);
    d->say(rule);
    d->faults++;
}

/* ---- The free list ---- */

static void follow_free_list(struct diagnosis *d)
{
    const struct words *w = d->words;
    uint32_t cell = w->heads[0];
    for (size_t i = 0; cell != w->cells; i++) {
        if (cell > w->cells) {
            found(d, "the free list: it goes on to cell %" PRIu32 ", which is not there", cell);
            return;
        }
        if (d->is_listed[cell]) {
            found(d, "cell %" PRIu32 ": it is twice on the free list", cell);
            return;
        }
        d->is_listed[cell] = true;
        if (head_of(w, cell).count != 0) {
            found(d, "cell %" PRIu32 ": it is on the free list, and its count is %" PRIu32, cell,
                  head_of(w, cell).count);
            return; /* its next free cell means nothing */
        }
        cell = head_of(w, cell).next;
    }
}

static void judge_free_cell(struct diagnosis *d, size_t cell)
{
    struct head head = head_of(d->words, cell);
    if (!d->is_listed[cell])
        found(d, "cell %zu: its count is 0, and it is not on the free list", cell);
    if (head.length != 0 || head.depth != 0)
        found(d, "cell %zu: it is free, and its length is %" PRIu32 " and its element depth %" PRIu32, cell,
              head.length, head.depth);
    for (size_t i = 0; i < ENGINE_CELL_SLOTS; i++)
        if (elements_of(d->words, cell)[i] != 0)
            found(d, "cell %zu: it is free, and its slot %zu is %" PRId64, cell, i, elements_of(d->words, cell)[i]);
}

/* ---- Cells in use ---- */

/* A place that names a cell of this element depth; `slot` is -1 for the totals. */
static void judge_name(struct diagnosis *d, size_t cell, int slot, int64_t word, uint32_t depth)
{
    char place[64];
    if (slot < 0)
        snprintf(place, sizeof place, "the totals: they name");
    else
        snprintf(place, sizeof place, "cell %zu: its slot %d names", cell, slot);
    if (word < 0 || (uint64_t)word >= d->words->cells) {
        found(d, "%s cell %" PRId64 ", which is not there", place, word);
        return;
    }
    struct head named = head_of(d->words, (size_t)word);
    d->places[word]++;
    if (named.count == 0)
        found(d, "%s cell %" PRId64 ", which is free", place, word);
    else if (named.depth != depth)
        found(d, "%s cell %" PRId64 " of element depth %" PRIu32 ", and %" PRIu32 " is wanted", place, word,
              named.depth, depth);
}

static void judge_taken_cell(struct diagnosis *d, size_t cell)
{
    struct head head = head_of(d->words, cell);
    const int64_t *elements = elements_of(d->words, cell);
    if (head.length > ENGINE_CELL_SLOTS)
        found(d, "cell %zu: its length is %" PRIu32 ", and %d is the greatest", cell, head.length, ENGINE_CELL_SLOTS);
    if (head.depth >= ENGINE_DEPTH_MAX)
        found(d, "cell %zu: its element depth is %" PRIu32 ", and %d is the greatest", cell, head.depth,
              ENGINE_DEPTH_MAX - 1);
    if (head.next != 0)
        found(d, "cell %zu: it is in use, and its next free cell is %" PRIu32 ", not 0", cell, head.next);
    for (size_t i = elements_count(head); i < ENGINE_CELL_SLOTS; i++)
        if (elements[i] != 0)
            found(d, "cell %zu: its slot %zu, past its length, is %" PRId64, cell, i, elements[i]);
    for (uint32_t i = 0; head.depth > 0 && i < elements_count(head); i++)
        judge_name(d, cell, (int)i, elements[i], head.depth - 1);
}

unsigned diagnose(void (*say)(const char *rule), const struct words *words)
{
    struct diagnosis d = { .say = say, .words = words };
    follow_free_list(&d);
    for (size_t cell = 0; cell < words->cells; cell++) {
        if (head_of(words, cell).count == 0)
            judge_free_cell(&d, cell);
        else
            judge_taken_cell(&d, cell);
    }
    if (words->depth > 0)
        judge_name(&d, 0, -1, words->slots[0], words->depth - 1);
    for (size_t cell = 0; cell < words->cells; cell++) {
        uint32_t count = head_of(words, cell).count;
        if (count != 0 && count != d.places[cell])
            found(&d, "cell %zu: its count is %" PRIu32 ", and %" PRIu32 " places name it", cell, count,
                  d.places[cell]);
    }
    return d.faults;
}
