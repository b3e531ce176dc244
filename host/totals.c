/* The totals as numbers at places, and what changed from one to another. */
#include "totals.h"

unsigned position_at(unsigned place, unsigned level, unsigned depth)
{
    return place >> 4 * (depth - 1 - level) & 0xf;
}

/* The recursion is as deep as the totals, at most ENGINE_DEPTH_MAX. */
static void gather(struct totals *totals, const struct engine_lent *lent, int64_t word, unsigned depth, unsigned place)
{
    if (depth == 0) {
        totals->list[totals->count++] = (struct total){ place, word };
        return;
    }
    if (word < 0 || ENGINE_HEADS_OF((uint64_t)word) + 1 >= lent->heads_length)
        return;
    uint32_t length = lent->heads[ENGINE_HEADS_OF(word) + 1];
    for (unsigned i = 0; i < length && i < ENGINE_CELL_SLOTS; i++)
        gather(totals, lent, lent->slots[ENGINE_SLOTS_OF(word) + i], depth - 1, 16 * place + i);
}

void gather_totals(struct totals *totals, const struct engine_lent *lent, unsigned depth)
{
    totals->depth = depth;
    totals->count = 0;
    gather(totals, lent, lent->slots[0], depth, 0);
}

/* The number that comes next in one of the two, taken where it stands at the lower place of both; else 0. */
static int64_t take(const struct totals *totals, size_t *next, unsigned place)
{
    if (*next == totals->count || totals->list[*next].place != place)
        return 0;
    return totals->list[(*next)++].number;
}

bool next_change(struct comparison *c, struct change *change)
{
    while (c->next_before < c->before->count || c->next_after < c->after->count) {
        unsigned before = c->next_before < c->before->count ? c->before->list[c->next_before].place : PLACES;
        unsigned after = c->next_after < c->after->count ? c->after->list[c->next_after].place : PLACES;
        change->place = before < after ? before : after;
        change->before = take(c->before, &c->next_before, change->place);
        change->after = take(c->after, &c->next_after, change->place);
        if (change->before != change->after)
            return true;
    }
    return false;
}
