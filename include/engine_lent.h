/* What every host of the engine wants beside its calls: the arrays that are lent again and again as one struct, the
 * calls on it, lent code beside it, the totals by their parts, and a look at what is lent, for debug builds. Included
 * by engine.h. */
#ifndef ENGINE_LENT_H
#define ENGINE_LENT_H

#include "engine.h"

#ifdef __cplusplus
extern "C" {
#endif

/* ---- What is lent ---- */

/* The arrays of the calls; the store's may be null where only engine_translate_lent is called. */
struct engine_lent {
    const uint8_t *file;
    size_t file_length;
    uint8_t *kinds;
    size_t kinds_length;
    int64_t *operands;
    size_t operands_length;
    int64_t *slots;
    size_t slots_length;
    uint32_t *heads;
    size_t heads_length;
    unsigned depth; /* main's, kept from the last call below that was not refused: a refusal clears the code */
};

/* An initialiser of the struct. All but the file are the arrays themselves, not pointers: their lengths are counted. */
#define ENGINE_LENT(file, file_length, kinds, operands, slots, heads) \
    { (file), (file_length), (kinds), ENGINE_COUNT(kinds), (operands), ENGINE_COUNT(operands), \
      (slots), ENGINE_COUNT(slots), (heads), ENGINE_COUNT(heads), 0 }
#define ENGINE_COUNT(array) (sizeof(array) / sizeof *(array))

/* Lends another store, of so many cells. */
ENGINE_NONNULL
static inline void engine_lend_store(struct engine_lent *lent, int64_t *slots, uint32_t *heads, size_t cells)
{
    lent->slots = slots;
    lent->slots_length = ENGINE_SLOTS_LENGTH(cells);
    lent->heads = heads;
    lent->heads_length = ENGINE_HEADS_LENGTH(cells);
}

/* The cells of the store that is lent: 0 where its lengths are not those of a store. */
ENGINE_NONNULL
static inline size_t engine_cells(const struct engine_lent *lent)
{
    size_t cells = lent->slots_length / ENGINE_CELL_SLOTS;
    int is_store = cells <= ENGINE_CELLS_MAX && lent->slots_length == ENGINE_SLOTS_LENGTH(cells)
                   && lent->heads_length == ENGINE_HEADS_LENGTH(cells);
    return is_store ? cells : 0;
}

/* ---- The calls on it ---- */

/* Keeps main's depth where the code stands: line 0 is main, with its parameters + 256 x the depth of its result. */
static inline uint64_t engine_keep_depth(struct engine_lent *lent, uint64_t answer)
{
    if (!engine_is_refusal(engine_answer_number(answer)))
        lent->depth = (unsigned)(lent->operands[0] / 256);
    return answer;
}

ENGINE_NONNULL ENGINE_MUST_USE
static inline uint64_t engine_translate_lent(struct engine_lent *lent)
{
    return engine_keep_depth(lent, engine_translate(lent->file, lent->file_length, lent->kinds, lent->kinds_length,
                                                    lent->operands, lent->operands_length));
}

ENGINE_NONNULL ENGINE_MUST_USE
static inline uint64_t engine_open_lent(struct engine_lent *lent)
{
    return engine_keep_depth(lent, engine_open(lent->file, lent->file_length, lent->kinds, lent->kinds_length,
                                               lent->operands, lent->operands_length, lent->slots,
                                               lent->slots_length, lent->heads, lent->heads_length));
}

ENGINE_NONNULL ENGINE_MUST_USE
static inline uint64_t engine_check_lent(struct engine_lent *lent)
{
    return engine_keep_depth(lent, engine_check(lent->file, lent->file_length, lent->kinds, lent->kinds_length,
                                                lent->operands, lent->operands_length, lent->slots,
                                                lent->slots_length, lent->heads, lent->heads_length));
}

ENGINE_NONNULL ENGINE_MUST_USE
static inline uint64_t engine_deliver_lent(struct engine_lent *lent, const int64_t *readings, size_t readings_length,
                                           uint64_t budget)
{
    return engine_keep_depth(lent, engine_deliver(lent->file, lent->file_length, lent->kinds, lent->kinds_length,
                                                  lent->operands, lent->operands_length, lent->slots,
                                                  lent->slots_length, lent->heads, lent->heads_length, readings,
                                                  readings_length, budget));
}

/* This one keeps no depth, as it opens and takes over nothing. */
ENGINE_NONNULL ENGINE_MUST_USE
static inline uint64_t engine_save_lent(const struct engine_lent *lent, uint8_t *saved, size_t saved_length)
{
    return engine_save(lent->file, lent->file_length, lent->kinds, lent->kinds_length, lent->operands,
                       lent->operands_length, lent->slots, lent->slots_length, lent->heads, lent->heads_length, saved,
                       saved_length);
}

ENGINE_NONNULL ENGINE_MUST_USE
static inline uint64_t engine_restore_lent(struct engine_lent *lent, const uint8_t *saved, size_t saved_length)
{
    return engine_keep_depth(lent, engine_restore(lent->file, lent->file_length, lent->kinds, lent->kinds_length,
                                                  lent->operands, lent->operands_length, lent->slots,
                                                  lent->slots_length, lent->heads, lent->heads_length, saved,
                                                  saved_length));
}

/* ---- Lent code beside it ---- */

/* Code that is lent in place of a script, and never written. Code as engine_translate left it will do, too. */
struct engine_code {
    const uint8_t *kinds;
    size_t kinds_length;
    const int64_t *operands;
    size_t operands_length;
};

/* Both calls are for the depth that the struct keeps, and change nothing in it: check the store with its script once
 * before. */
ENGINE_NONNULL ENGINE_MUST_USE
static inline uint64_t engine_check_code_lent(const struct engine_lent *lent, const struct engine_code *code)
{
    return engine_check_code(code->kinds, code->kinds_length, code->operands, code->operands_length, lent->depth);
}

ENGINE_NONNULL ENGINE_MUST_USE
static inline uint64_t engine_deliver_code_lent(const struct engine_lent *lent, const struct engine_code *code,
                                                const int64_t *readings, size_t readings_length, uint64_t budget)
{
    return engine_deliver_code(code->kinds, code->kinds_length, code->operands, code->operands_length, lent->depth,
                               lent->slots, lent->slots_length, lent->heads, lent->heads_length, readings,
                               readings_length, budget);
}

/* ---- The totals, by their parts: right after a refusal and a stop too ----
 *
 * On words that are not sound nothing outside the store is read, and what is given is a guess. */

/* A value: a number where its depth is 0, and otherwise an array, whose word is the number of a cell. */
struct engine_value {
    int64_t word;
    unsigned depth;
};

ENGINE_NONNULL
static inline struct engine_value engine_totals(const struct engine_lent *lent)
{
    struct engine_value totals = { 0, 0 };
    if (engine_cells(lent) > 0) {
        totals.word = lent->slots[0];
        totals.depth = lent->depth;
    }
    return totals;
}

/* Whether a value's word names a cell of the store: in a sound store that of each array does, and of no number. */
ENGINE_NONNULL
static inline int engine_is_array(const struct engine_lent *lent, struct engine_value value)
{
    return value.depth > 0 && value.word >= 0 && (uint64_t)value.word < engine_cells(lent);
}

/* How many elements a value has: 0 where it is no array. */
ENGINE_NONNULL
static inline unsigned engine_length_of(const struct engine_lent *lent, struct engine_value value)
{
    uint32_t length = engine_is_array(lent, value) ? lent->heads[ENGINE_HEADS_OF(value.word) + ENGINE_HEAD_LENGTH] : 0;
    return length <= ENGINE_CELL_SLOTS ? (unsigned)length : ENGINE_CELL_SLOTS;
}

/* An element of a value, at a position below its length; at any other the number 0. */
ENGINE_NONNULL
static inline struct engine_value engine_element_of(const struct engine_lent *lent, struct engine_value value,
                                                    unsigned position)
{
    struct engine_value element = { 0, 0 };
    if (position < engine_length_of(lent, value)) {
        element.word = lent->slots[ENGINE_SLOTS_OF(value.word) + position];
        element.depth = value.depth - 1;
    }
    return element;
}

/* ---- A look at what is lent, for debug builds: the engine can test no pointer ---- */

struct engine_fault {
    const char *array; /* its name in the struct; null where nothing is wrong */
    const char *what;
    const char *other; /* the array that it overlaps, or "" */
};

/* An array as these functions look at it. */
struct engine_array {
    const char *name;
    const void *first;
    size_t length;
    size_t size; /* of an element, to which it is aligned */
};

static inline struct engine_fault engine_fault_of(const char *array, const char *what, const char *other)
{
    struct engine_fault fault;
    fault.array = array;
    fault.what = what;
    fault.other = other;
    return fault;
}

static inline struct engine_fault engine_array_fault(const struct engine_array *array)
{
    if (array->first == NULL)
        return engine_fault_of(array->name, "is null", "");
    if ((uintptr_t)array->first % array->size != 0)
        return engine_fault_of(array->name, "is not aligned", "");
    if (array->length > (UINTPTR_MAX - (uintptr_t)array->first) / array->size)
        return engine_fault_of(array->name, "is longer than the memory after it", "");
    return engine_fault_of(NULL, "", "");
}

/* Both are without fault on their own. */
static inline int engine_arrays_overlap(const struct engine_array *one, const struct engine_array *other)
{
    uintptr_t first = (uintptr_t)one->first, second = (uintptr_t)other->first;
    return one->length > 0 && other->length > 0 && first < second + other->length * other->size
           && second < first + one->length * one->size;
}

/* The first fault of some arrays, by themselves and beside each other. */
static inline struct engine_fault engine_arrays_fault(const struct engine_array *arrays, size_t count)
{
    for (size_t i = 0; i < count; i++) {
        struct engine_fault fault = engine_array_fault(&arrays[i]);
        if (fault.array != NULL)
            return fault;
        for (size_t j = 0; j < i; j++)
            if (engine_arrays_overlap(&arrays[i], &arrays[j]))
                return engine_fault_of(arrays[i].name, "overlaps", arrays[j].name);
    }
    return engine_fault_of(NULL, "", "");
}

/* The first fault of the five arrays and of one that is lent beside them, such as the readings: by its name, first
 * element, number of elements and size of each. */
ENGINE_NONNULL ENGINE_MUST_USE
static inline struct engine_fault engine_lent_fault_with(const struct engine_lent *lent, struct engine_array beside)
{
    const struct engine_array arrays[6] = {
        { "file", lent->file, lent->file_length, sizeof *lent->file },
        { "kinds", lent->kinds, lent->kinds_length, sizeof *lent->kinds },
        { "operands", lent->operands, lent->operands_length, sizeof *lent->operands },
        { "slots", lent->slots, lent->slots_length, sizeof *lent->slots },
        { "heads", lent->heads, lent->heads_length, sizeof *lent->heads },
        beside,
    };
    if (lent->kinds_length == 0 || lent->operands_length == 0)
        return engine_fault_of(lent->kinds_length == 0 ? "kinds" : "operands", "has no room for a line", "");
    if (engine_cells(lent) == 0)
        return engine_fault_of("slots", "has not the length of a store beside", "heads");
    return engine_arrays_fault(arrays, 6);
}

/* The first fault of the five arrays. */
ENGINE_NONNULL ENGINE_MUST_USE
static inline struct engine_fault engine_lent_fault(const struct engine_lent *lent)
{
    const struct engine_array none = { "none", "", 0, 1 };
    return engine_lent_fault_with(lent, none);
}

/* The first fault of what a delivery by lent code is lent: the code, the store, and one array beside them. */
ENGINE_NONNULL ENGINE_MUST_USE
static inline struct engine_fault engine_code_fault_with(const struct engine_lent *lent, const struct engine_code *code,
                                                         struct engine_array beside)
{
    const struct engine_array arrays[5] = {
        { "code kinds", code->kinds, code->kinds_length, sizeof *code->kinds },
        { "code operands", code->operands, code->operands_length, sizeof *code->operands },
        { "slots", lent->slots, lent->slots_length, sizeof *lent->slots },
        { "heads", lent->heads, lent->heads_length, sizeof *lent->heads },
        beside,
    };
    if (engine_cells(lent) == 0)
        return engine_fault_of("slots", "has not the length of a store beside", "heads");
    return engine_arrays_fault(arrays, 5);
}

#ifdef __cplusplus
}
#endif

#endif
