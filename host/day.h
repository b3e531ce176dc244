/* The deliveries of a day as text, a line each: readings, or 'none', then 'budget N' if it has a budget of its own.
 * What is expected of a delivery may follow, after '=>'. */
#ifndef DAY_H
#define DAY_H

#include "text.h"

enum { LINE_READINGS_MAX = 64 }; /* more than a delivery may have, so that the engine can refuse it */

struct delivery {
    int64_t readings[LINE_READINGS_MAX];
    size_t count;
    uint64_t budget;
    bool has_own_budget;
    struct word comment; /* from '#' to the line's end; empty where there is none */
};

/* The '=>' of the present line, or null. A comment has none. */
const uint8_t *expectation_in(const struct text *text);

enum line_content { LINE_EMPTY, LINE_DELIVERY, LINE_FAULTY };

/* What the present line has, up to what is expected; a delivery without a budget of its own gets this one. Says what
 * is wrong with a faulty line, by its place. */
enum line_content delivery_of(struct text *text, uint64_t budget, struct delivery *delivery);

/* How many lines of a text that is not begun are faulty. Says what is wrong with each. */
unsigned judge_day(struct text text);

#endif
