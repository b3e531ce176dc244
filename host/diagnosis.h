/* Which rules of a sound store some words break, and at which cells. The engine decides whether a store is sound; this
 * says why it is not. */
#ifndef DIAGNOSIS_H
#define DIAGNOSIS_H

#include <stddef.h>
#include <stdint.h>

/* The words of a store, for a main of this depth. */
struct words {
    const int64_t *slots;
    const uint32_t *heads;
    size_t cells;
    unsigned depth;
};

/* The head of a cell. */
struct head {
    uint32_t count;
    uint32_t length;
    uint32_t depth; /* of an element */
    uint32_t next;  /* free cell */
};

struct head head_of(const struct words *words, size_t cell);
const int64_t *elements_of(const struct words *words, size_t cell);

/* How many of a cell's slots are within its length. */
uint32_t elements_count(struct head head);

/* Says each broken rule, and gives how many there are. */
unsigned diagnose(void (*say)(const char *rule), const struct words *words);

#endif
