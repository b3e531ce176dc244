/* What the service display would show of an answer and of the totals. */
#ifndef DISPLAY_H
#define DISPLAY_H

#include <stddef.h>
#include <stdint.h>
#include <stdio.h>

/* How arrays are written, "{{1, 2}, {}}" in text and "[[1, 2], []]" in JSON, and what stands for a word that names no
 * cell. */
struct brackets {
    char before, after;
    const char *unknown;
};
extern const struct brackets ARRAYS_OF_TEXT, ARRAYS_OF_JSON;

/* An array value of these many levels; a number for depth 0. */
void print_value(FILE *out, const struct brackets *brackets, const int64_t *slots, const uint32_t *heads, size_t cells,
                 int64_t word, unsigned depth);

/* "23 off the end", and the node or line for the refusals that name one. */
void print_number(FILE *out, uint64_t answer);

#endif
