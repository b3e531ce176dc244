/* Values of scripts: their memory, their likeness, and their text. */
#include "value.h"
#include "engine.h"
#include "message.h"

#include <inttypes.h>
#include <stdarg.h>
#include <stdlib.h>
#include <string.h>

/* ---- Memory ---- */

enum { CHUNK_BYTES = 1 << 16 };

struct chunk {
    struct chunk *next;
    size_t used; /* of the values */
    struct value values[CHUNK_BYTES / sizeof(struct value)]; /* as which every array is aligned */
};

struct list *new_list(struct pool *pool, unsigned length)
{
    size_t head = (sizeof(struct list) + sizeof(struct value) - 1) / sizeof(struct value), wanted = head + length;
    struct chunk *chunk = pool->chunks;
    if (chunk == NULL || chunk->used + wanted > CHUNK_BYTES / sizeof(struct value)) {
        chunk = calloc(1, sizeof *chunk);
        if (chunk == NULL)
            fail(STATUS_UNUSABLE, "no memory for the arrays of a delivery");
        chunk->next = pool->chunks;
        pool->chunks = chunk;
    }
    struct list *list = (struct list *)(void *)&chunk->values[chunk->used];
    chunk->used += wanted;
    list->length = length;
    return list;
}

void empty_pool(struct pool *pool)
{
    while (pool->chunks != NULL) {
        struct chunk *next = pool->chunks->next;
        free(pool->chunks);
        pool->chunks = next;
    }
}

/* ---- Making ---- */

struct value number_value(int64_t number)
{
    return (struct value){ NULL, number };
}

struct value list_value(const struct list *list)
{
    return (struct value){ list, 0 };
}

struct value value_of_numbers(struct pool *pool, const int64_t *numbers, size_t count)
{
    struct list *list = new_list(pool, (unsigned)count);
    for (size_t i = 0; i < count; i++)
        list->elements[i] = number_value(numbers[i]);
    return list_value(list);
}

struct value value_in_store(struct pool *pool, const int64_t *slots, const uint32_t *heads, int64_t word,
                            unsigned depth)
{
    if (depth == 0)
        return number_value(word);
    uint32_t length = heads[ENGINE_HEADS_OF(word) + 1];
    struct list *list = new_list(pool, length);
    for (uint32_t i = 0; i < length; i++)
        list->elements[i] = value_in_store(pool, slots, heads, slots[ENGINE_SLOTS_OF(word) + i], depth - 1);
    return list_value(list);
}

bool same_value(struct value one, struct value other)
{
    if (one.list == other.list)
        return one.list != NULL || one.number == other.number;
    if (one.list == NULL || other.list == NULL || one.list->length != other.list->length)
        return false;
    for (unsigned i = 0; i < one.list->length; i++)
        if (!same_value(one.list->elements[i], other.list->elements[i]))
            return false;
    return true;
}

/* ---- Text ---- */

void write_value(FILE *out, struct value value)
{
    if (value.list == NULL) {
        fprintf(out, "%" PRId64, value.number);
        return;
    }
    fputc('{', out);
    for (unsigned i = 0; i < value.list->length; i++) {
        if (i > 0)
            fputs(", ", out);
        write_value(out, value.list->elements[i]);
    }
    fputc('}', out);
}

/* Text that is cut where it does not fit. */
struct writing {
    char *text;
    size_t capacity, length;
    bool is_full;
};

__attribute__((format(printf, 2, 3))) static void add(struct writing *w, const char *format, ...)
{
    va_list arguments;
    va_start(arguments, format);
    int length = vsnprintf(w->text + w->length, w->capacity - w->length, format, arguments);
    va_end(arguments);
    w->is_full = w->is_full || w->length + (size_t)length >= w->capacity;
    w->length = w->is_full ? strlen(w->text) : w->length + (size_t)length;
}

static void add_value(struct writing *w, struct value value)
{
    if (w->is_full)
        return;
    if (value.list == NULL) {
        add(w, "%" PRId64, value.number);
        return;
    }
    add(w, "{");
    for (unsigned i = 0; i < value.list->length && !w->is_full; i++) {
        add(w, "%s", i == 0 ? "" : ", ");
        add_value(w, value.list->elements[i]);
    }
    add(w, "}");
}

struct shown_value show_value(struct value value)
{
    static const char cut[] = " ..";
    struct shown_value shown = { "" };
    struct writing w = { shown.text, sizeof shown.text - strlen(cut), 0, false };
    add_value(&w, value);
    if (w.is_full)
        strcat(shown.text, cut);
    return shown;
}
