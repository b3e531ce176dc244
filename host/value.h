/* Values of scripts: numbers, and arrays of values, which are never changed once they are made. */
#ifndef VALUE_H
#define VALUE_H

#include <stdbool.h>
#include <stddef.h>
#include <stdint.h>
#include <stdio.h>

struct value {
    const struct list *list; /* null where it is a number */
    int64_t number;
};

struct list {
    unsigned length;
    struct value elements[];
};

/* Memory for arrays, given back all at once. Begins as { NULL }. */
struct pool {
    struct chunk *chunks;
};

/* A new array of zeros, which its maker fills. Fails where there is no memory. */
struct list *new_list(struct pool *pool, unsigned length);

void empty_pool(struct pool *pool);

struct value number_value(int64_t number);
struct value list_value(const struct list *list);

/* The array of some numbers. */
struct value value_of_numbers(struct pool *pool, const int64_t *numbers, size_t count);

/* The value that a word of a sound store has at this depth. */
struct value value_in_store(struct pool *pool, const int64_t *slots, const uint32_t *heads, int64_t word,
                            unsigned depth);

bool same_value(struct value one, struct value other);

/* A value whole: "{{1, 2}, {}}". */
void write_value(FILE *out, struct value value);

/* The same, cut where it is longer. */
struct shown_value {
    char text[100];
};
struct shown_value show_value(struct value value);

#endif
