/* Saved totals in a file. */
#include "totals_file.h"
#include "place.h"
#include "store_file.h"
#include "text.h"

#include <inttypes.h>
#include <stdio.h>
#include <string.h>

enum { AT_COUNT = 1, AT_MARKS = 3, NUMBER_BYTES = 8 };

size_t read_totals(const char *path, uint8_t bytes[TOTALS_BYTES])
{
    size_t length = read_whole(path, bytes, TOTALS_BYTES);
    if (has_store_mark(bytes, length))
        fail(STATUS_UNUSABLE, "%s: a store, where saved totals are wanted; --save-totals saves those of a store", path);
    if (length > AT_MARKS && memchr(bytes, 0, length) == NULL) /* a depth of 0 is one, an array's number has 8 */
        fail(STATUS_UNUSABLE, "%s: a text, where saved totals are wanted; name what --save-totals wrote", path);
    return length;
}

static size_t count_in(const uint8_t *bytes)
{
    return (size_t)number_at(bytes + AT_COUNT, 2);
}

__attribute__((format(printf, 2, 3))) static bool faulty(struct totals_fault *fault, const char *format, ...)
{
    va_list arguments;
    va_start(arguments, format);
    vsnprintf(fault->text, sizeof fault->text, format, arguments);
    va_end(arguments);
    return true;
}

/* Sizes and depth; each test makes sense once those before it are passed. */
static bool explain_label(const uint8_t *bytes, size_t length, unsigned depth, struct totals_fault *fault)
{
    if (length < AT_MARKS)
        return faulty(fault, "cut off: %zu bytes, and the sizes alone take %d", length, AT_MARKS);
    size_t count = count_in(bytes), wanted = ENGINE_SAVED_LENGTH(count);
    if (bytes[0] != depth)
        return faulty(fault, "byte 0: totals of depth %u, and main's depth is %u in this script", bytes[0], depth);
    if (count == 0 || count > ENGINE_SAVED_ENTRIES_MAX)
        return faulty(fault, "bytes 1 and 2: %zu entries; there are 1 to %d", count, ENGINE_SAVED_ENTRIES_MAX);
    if (length != wanted)
        return faulty(fault, "%s: %zu entries take %zu bytes, and it has %zu", length < wanted ? "cut off" : "too long",
                      count, wanted, length);
    return false;
}

/* An entry at this depth, and after an array those of its elements. `next` is its number, and then the next one's. The
 * recursion is as deep as the totals, at most ENGINE_DEPTH_MAX. */
static bool explain_entry(const uint8_t *bytes, unsigned depth, size_t *next, struct totals_fault *fault)
{
    size_t entry = *next, count = count_in(bytes);
    if (entry == count)
        return faulty(fault, "entry %zu is missing: an array before it has more elements than follow", entry);
    size_t number_place = AT_MARKS + count + NUMBER_BYTES * entry;
    unsigned mark = bytes[AT_MARKS + entry];
    int64_t number = signed_of(number_at(bytes + number_place, NUMBER_BYTES));
    *next = entry + 1;
    if (depth == 0 && mark != 0)
        return faulty(fault, "entry %zu, byte %zu: the mark %u of an array, where a number is wanted", entry,
                      AT_MARKS + entry, mark);
    if (depth == 0)
        return false;
    if (mark == 0 || mark > ENGINE_CELL_SLOTS + 1)
        return faulty(fault, "entry %zu, byte %zu: the mark %u, where that of an array is wanted, 1 to %d", entry,
                      AT_MARKS + entry, mark, ENGINE_CELL_SLOTS + 1);
    if (number != 0)
        return faulty(fault, "entry %zu, byte %zu: the number of an array is %" PRId64 ", not 0", entry, number_place,
                      number);
    for (unsigned i = 1; i < mark; i++)
        if (explain_entry(bytes, depth - 1, next, fault))
            return true;
    return false;
}

/* What is wrong with saved totals, by its first place; false where nothing is. */
static bool explain_totals(const uint8_t *bytes, size_t length, unsigned depth, struct totals_fault *fault)
{
    size_t next = 0;
    if (explain_label(bytes, length, depth, fault) || explain_entry(bytes, depth, &next, fault))
        return true;
    if (next < count_in(bytes))
        return faulty(fault, "entry %zu, byte %zu: it is left over, the totals end before it", next, AT_MARKS + next);
    return false;
}

/* How many arrays saved totals have that nothing is wrong with: the cells that they take. */
static size_t arrays_in(const uint8_t *bytes)
{
    size_t arrays = 0;
    for (size_t i = 0; i < count_in(bytes); i++)
        arrays += bytes[AT_MARKS + i] != 0;
    return arrays;
}

struct totals_fault explain_restore(uint64_t answer, const uint8_t *bytes, size_t length, unsigned depth, size_t cells)
{
    struct totals_fault fault = { "look at the script and the store" };
    if (engine_answer_number(answer) == ENGINE_OUT_OF_CELLS) {
        size_t arrays = arrays_in(bytes);
        snprintf(fault.text, sizeof fault.text, "the saved totals have %zu arrays, and the store has %zu cells; give it"
                 " more with --cells", arrays, cells);
    } else if (engine_answer_number(answer) == ENGINE_BAD_LABEL && explain_totals(bytes, length, depth, &fault)) {
        size_t end = strlen(fault.text);
        snprintf(fault.text + end, sizeof fault.text - end, "; copy the file again, or save the totals again");
    }
    return fault;
}
