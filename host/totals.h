/* The totals as numbers at places, and what changed from one to another. */
#ifndef TOTALS_H
#define TOTALS_H

#include "engine.h"

#include <stdbool.h>

/* A number's place in the totals: its position at each level, 4 bits each, the outermost highest. */
enum { PLACES = 1 << 16 };

struct total {
    unsigned place;
    int64_t number;
};

struct totals {
    unsigned depth;
    size_t count;
    struct total list[PLACES]; /* by rising places */
};

/* The position at a level, from 0 for the outermost, in totals of some depth. */
unsigned position_at(unsigned place, unsigned level, unsigned depth);

/* The numbers of a store's totals. A word that names no cell has none. */
void gather_totals(struct totals *totals, const struct engine_lent *lent, unsigned depth);

/* A number that is another one now; where none was, or is, it counts as 0. */
struct change {
    unsigned place;
    int64_t before;
    int64_t after;
};

/* A walk over two totals of one depth; begins with { before, after }. */
struct comparison {
    const struct totals *before;
    const struct totals *after;
    size_t next_before;
    size_t next_after;
};

/* The next number that changed; false where there is none. */
bool next_change(struct comparison *comparison, struct change *change);

#endif
