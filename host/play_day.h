/* A day with what is expected of it: deliveries as the controller reads them, and after '=>' the totals or the number
 * that each must give. */
#ifndef PLAY_DAY_H
#define PLAY_DAY_H

#include "day.h"
#include "value.h"

enum expected { EXPECTED_NOTHING, EXPECTED_TOTALS, EXPECTED_NUMBER };

struct expectation {
    enum expected what;
    struct value totals;
    unsigned number; /* 0 for whatever totals */
    const char *at;  /* where the text says it */
};

/* What the present line has, for totals of this depth. The arrays of an expectation are the pool's. Says what is wrong
 * with a faulty line, by its place. */
enum line_content expected_delivery_of(struct text *text, uint64_t budget, unsigned depth, struct pool *pool,
                                       struct delivery *delivery, struct expectation *expectation);

#endif
