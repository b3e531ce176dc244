/* The script engine's C interface: eight calls, the sizes of what is lent to them, and the parts of their answers; at
 * its end it includes engine_lent.h, which has the same calls on one struct and the totals by their parts.
 *
 * Six calls take the script file and the two code arrays, and translate the script afresh; two take code that the host
 * lends, and check it afresh. Nothing is kept between calls but the store, in the host's two store arrays. The engine
 * has no global data, allocates nothing, calls no function of the host's but memcpy and memset, and always returns. It
 * believes nothing that is lent to it: any bytes may be a script file or saved totals, and any words code or a store.
 * The host sees to four things only:
 *   - a pointer is aligned and not null, and has at least the number of elements that follows it (so also for 0);
 *   - the arrays of one call lie apart in memory;
 *   - calls on one store, or on the same code arrays, come one after another, and nothing else writes to a lent array
 *     during a call;
 *   - the task that calls has the stack that it takes, ENGINE_STACK_BYTES at most.
 */
#ifndef ENGINE_H
#define ENGINE_H

#include <stddef.h>
#include <stdint.h>

#ifdef __cplusplus
extern "C" {
#endif

/* ---- What the compiler has ---- */

#if defined(__GNUC__)
#define ENGINE_RESTRICT __restrict
#define ENGINE_NONNULL __attribute__((nonnull))
#define ENGINE_MUST_USE __attribute__((warn_unused_result))
#elif defined(__STDC_VERSION__) && __STDC_VERSION__ >= 199901L
#define ENGINE_RESTRICT restrict
#endif
#ifndef ENGINE_RESTRICT
#define ENGINE_RESTRICT
#endif
#ifndef ENGINE_NONNULL
#define ENGINE_NONNULL
#define ENGINE_MUST_USE
#endif

/* ---- Version ---- */

/* Of this interface: the first number rises when a host must change, the second when something is added or an order
 * changes an answer. CHANGELOG.md says what each version brought. */
#define ENGINE_VERSION_MAJOR 3
#define ENGINE_VERSION_MINOR 1
#define ENGINE_VERSION (1000 * ENGINE_VERSION_MAJOR + ENGINE_VERSION_MINOR)

/* A function that does nothing and has the version in its name: engine_interface_3_1. Whoever makes a call by its name
 * refers to it, so that a host compiled with this header does not link with a library of another version; one that
 * calls by pointers alone refers to it by a call of its own. */
#define ENGINE_INTERFACE_NAME(major, minor) engine_interface_##major##_##minor
#define ENGINE_INTERFACE_OF(major, minor) ENGINE_INTERFACE_NAME(major, minor)
#define ENGINE_INTERFACE ENGINE_INTERFACE_OF(ENGINE_VERSION_MAJOR, ENGINE_VERSION_MINOR)
void ENGINE_INTERFACE(void);

/* Of the library: its ENGINE_VERSION, and the commit of the sources that it was made of, with a + where they were
 * changed since, or "unknown". */
uint32_t engine_library_version(void);
const char *engine_library_commit(void);

/* ---- Sizes; all can be used in #if ---- */

/* A script file: 4 bytes, then one byte and one operand of 8 bytes for each node. */
#define ENGINE_FUNCTIONS_MAX 32
#define ENGINE_NODES_MAX 1024
#define ENGINE_FILE_LENGTH(nodes) (4u + 9u * (nodes))
#define ENGINE_FILE_LENGTH_MAX ENGINE_FILE_LENGTH(ENGINE_NODES_MAX)
#define ENGINE_LEVELS_MAX 64       /* a function's body is at level 1 */
#define ENGINE_DEPTH_MAX 4         /* 0 is a number, d an array of depth d - 1 */
#define ENGINE_PARAMETERS_MAX 8    /* of a function */
#define ENGINE_NEW_NAMES_MAX 256   /* of a function, after translation */

/* The code arrays need never be longer: a script whose code has more lines is refused. */
#define ENGINE_CODE_LINES_MAX 4096

/* The store arrays: the totals and the slots of each cell; the first free cell and the head of each cell. */
#define ENGINE_CELLS_MIN 1
#define ENGINE_CELLS_MAX 256
#define ENGINE_CELL_SLOTS 16       /* words of a cell in the first array: the longest array that a script can make */
#define ENGINE_CELL_HEADS 4        /* words of a cell in the second: count, length, element depth, next free cell */
#define ENGINE_SLOTS_LENGTH(cells) (1u + ENGINE_CELL_SLOTS * (cells))
#define ENGINE_HEADS_LENGTH(cells) (1u + ENGINE_CELL_HEADS * (cells))
#define ENGINE_STORE_BYTES(cells) (8u * ENGINE_SLOTS_LENGTH(cells) + 4u * ENGINE_HEADS_LENGTH(cells)) /* of both */
#define ENGINE_SLOTS_OF(cell) (1 + ENGINE_CELL_SLOTS * (size_t)(cell)) /* where a cell's words begin: not in #if */
#define ENGINE_HEADS_OF(cell) (1 + ENGINE_CELL_HEADS * (size_t)(cell))
enum engine_head { /* the places of a cell's words in the second array, from there */
    ENGINE_HEAD_COUNT = 0,
    ENGINE_HEAD_LENGTH = 1,
    ENGINE_HEAD_ELEMENT_DEPTH = 2,
    ENGINE_HEAD_NEXT_FREE = 3
};

/* Saved totals: 3 bytes, then one byte and one number of 8 bytes for each of K entries, 1 to 4,096:
 *   byte 0               main's depth
 *   bytes 1 and 2        K, low byte first
 *   bytes 3 to 2 + K     the mark of each entry: 0 for a number, its length + 1 for an array
 *   the other 8 K bytes  the number of each entry, signed, low byte first; 0 for an array
 * The entries are the totals' value in prefix order: an array before its elements, the elements from first to last. An
 * array that several places name is written at each. */
#define ENGINE_SAVED_ENTRIES_MAX 4096
#define ENGINE_SAVED_LENGTH(entries) (3u + 9u * (entries))
#define ENGINE_SAVED_LENGTH_MAX ENGINE_SAVED_LENGTH(ENGINE_SAVED_ENTRIES_MAX) /* 36,867 */

/* A delivery. */
#define ENGINE_READINGS_MAX 16
#define ENGINE_BUDGET_MAX 1000000
#define ENGINE_CALL_DEPTH_MAX 32   /* main is at call depth 1 */

/* The stack of a task that calls. No theorem says it: the deepest delivery that there can be takes less where it was
 * measured, and is tested on a thread with just this (docs/PERFORMANCE.md, "Stack"). */
#define ENGINE_STACK_BYTES 1048576

/* ---- Kinds ---- */

/* The kind of a node of a script file and of a line of code. Four are of lines alone; let is the only kind of a node
 * that no line has. */
enum engine_kind {
    ENGINE_KIND_FUNCTION = 0,
    ENGINE_KIND_PARAMETER = 1,
    ENGINE_KIND_NUMBER = 2,
    ENGINE_KIND_NAME = 3,
    ENGINE_KIND_SUM = 4,
    ENGINE_KIND_DIFFERENCE = 5,
    ENGINE_KIND_LESS = 6,
    ENGINE_KIND_LET = 7,
    ENGINE_KIND_CALL = 8,
    ENGINE_KIND_LITERAL = 9,
    ENGINE_KIND_INDEX = 10,
    ENGINE_KIND_LENGTH = 11,
    ENGINE_KIND_IF = 12,
    ENGINE_KIND_MAP = 13,
    ENGINE_KIND_RETAIN = 14,  /* in code alone, as the next two; document 01: raise */
    ENGINE_KIND_RELEASE = 15, /* document 01: drop */
    ENGINE_KIND_END = 16,
    ENGINE_KIND_IOTA = 17,    /* the second edition's, as the next three */
    ENGINE_KIND_REPLICATE = 18,
    ENGINE_KIND_FILTER = 19,
    ENGINE_KIND_REDUCE = 20,
    ENGINE_KIND_REWRITING_MAP = 21 /* in code alone: a map in its array's own cell, where nothing else refers to it */
};
#define ENGINE_KINDS 22 /* every kind is below it */

/* Whether a kind is one of nodes. */
static inline int engine_is_node_kind(unsigned kind)
{
    return kind <= ENGINE_KIND_MAP || (kind >= ENGINE_KIND_IOTA && kind <= ENGINE_KIND_REDUCE);
}

/* ---- Numbers ---- */

/* The number in an answer. The words that the service display shows are beside each; engine_word gives them. */
enum engine_number {
    ENGINE_DONE = 0,                 /* done */

    /* Refusals: the code arrays are all zero, the store is unchanged. */
    ENGINE_TRUNCATED = 1,            /* torn: under 4 bytes, or not the length that the file's sizes ask for */
    ENGINE_SIZE_OUT_OF_RANGE = 2,    /* oversize: the number of functions or nodes */
    ENGINE_MALFORMED = 3,            /* misfit: a kind not allowed there, nodes missing, or nodes left over */
    ENGINE_OPERAND_OUT_OF_RANGE = 4, /* bad setting */
    ENGINE_TOO_DEEP = 5,             /* deep: level 65 */
    ENGINE_UNKNOWN_NAME = 6,         /* no such nozzle: a name or function not known, or a parameter's name repeated */
    ENGINE_TYPE_MISMATCH = 7,        /* wrong grade: a count or depth does not match, or main's shape */
    ENGINE_TOO_MANY_NAMES = 8,       /* crowded: a function with over 256 new names */
    ENGINE_CODE_TOO_LONG = 9,        /* long hose: more lines than the shorter code array has, or than 4,096 */
    ENGINE_BAD_REQUEST = 10,         /* bad ticket: over 16 readings, or a budget above 1,000,000 */
    ENGINE_UNSOUND_STORE = 11,       /* bad tank: the store is not sound (opening, restoring: the lengths do not fit) */

    /* Stops of a delivery: the code stands, the totals and their cells are as before, the other cells are clear. */
    ENGINE_OUT_OF_STEPS = 21,        /* spent: a step was due and none was left */
    ENGINE_CALL_TOO_DEEP = 22,       /* nested: a 33rd call depth */
    ENGINE_INDEX_OUT_OF_RANGE = 23,  /* off the end */
    ENGINE_OVERFLOW = 24,            /* overrun: a sum or difference does not fit 64 bits */
    ENGINE_OUT_OF_CELLS = 25,        /* tank dry: a cell was wanted and none was free (restoring: the store is zero) */
    ENGINE_BAD_COUNT = 26,           /* bad count: an iota's or replicate's count outside 0 to 16 */
    ENGINE_BAD_GUARD = 28,           /* doubtful switch: an if's or filter's guard that is neither 1 nor 0 */

    /* A refusal like 11, of engine_save and engine_restore alone. */
    ENGINE_BAD_LABEL = 27,           /* bad label: over 4,096 entries, a buffer too short for them, or saved totals that
                                        break their form or have not main's depth */

    /* A refusal of engine_check_code and engine_deliver_code alone: as after their 10 and 11, no lent word changes. */
    ENGINE_BAD_CODE = 29             /* bad conversion: lent code that breaks a rule, with the line at fault */
};

/* Whether a number is a refusal: nothing was done. */
static inline int engine_is_refusal(unsigned number)
{
    return (number >= ENGINE_TRUNCATED && number <= ENGINE_UNSOUND_STORE) || number == ENGINE_BAD_LABEL
           || number == ENGINE_BAD_CODE;
}

/* Whether a number is a stop: the delivery was begun and undone. A restore's 25 has no store to go back to. */
static inline int engine_is_stop(unsigned number)
{
    return (number >= ENGINE_OUT_OF_STEPS && number <= ENGINE_BAD_COUNT) || number == ENGINE_BAD_GUARD;
}

/* What the service display shows for a number: the one table of these words. */
static inline const char *engine_word(unsigned number)
{
    switch (number) {
    case ENGINE_DONE: return "done";
    case ENGINE_TRUNCATED: return "torn";
    case ENGINE_SIZE_OUT_OF_RANGE: return "oversize";
    case ENGINE_MALFORMED: return "misfit";
    case ENGINE_OPERAND_OUT_OF_RANGE: return "bad setting";
    case ENGINE_TOO_DEEP: return "deep";
    case ENGINE_UNKNOWN_NAME: return "no such nozzle";
    case ENGINE_TYPE_MISMATCH: return "wrong grade";
    case ENGINE_TOO_MANY_NAMES: return "crowded";
    case ENGINE_CODE_TOO_LONG: return "long hose";
    case ENGINE_BAD_REQUEST: return "bad ticket";
    case ENGINE_UNSOUND_STORE: return "bad tank";
    case ENGINE_OUT_OF_STEPS: return "spent";
    case ENGINE_CALL_TOO_DEEP: return "nested";
    case ENGINE_INDEX_OUT_OF_RANGE: return "off the end";
    case ENGINE_OVERFLOW: return "overrun";
    case ENGINE_OUT_OF_CELLS: return "tank dry";
    case ENGINE_BAD_COUNT: return "bad count";
    case ENGINE_BAD_LABEL: return "bad label";
    case ENGINE_BAD_GUARD: return "doubtful switch";
    case ENGINE_BAD_CODE: return "bad conversion";
    default: return "unknown number";
    }
}

/* ---- The parts of an answer; one that does not apply is 0 ---- */

static inline unsigned engine_answer_number(uint64_t answer)
{
    return (unsigned)(answer & 0xff);
}

/* The node that a refusal 3 to 8 names, for 6 and 7 the lowest that breaks the rule; for 3 it is the number of nodes
 * where nodes are missing. */
static inline unsigned engine_answer_node(uint64_t answer)
{
    return (unsigned)((answer >> 8) & 0xffff);
}

/* The line that a 29 names, in the node's place: the first at fault, counted from 0. It is the number of lines where a
 * line is missing at the end. */
static inline unsigned engine_answer_line(uint64_t answer)
{
    return (unsigned)((answer >> 8) & 0xffff);
}

/* The lowest level of a delivery that was not refused, in the node's place: the least number of free cells from before
 * its work to its end or its stop. A 25 has 0. */
static inline unsigned engine_answer_lowest(uint64_t answer)
{
    return (unsigned)((answer >> 8) & 0xffff);
}

/* The code lines after engine_translate and engine_check_code. */
static inline uint32_t engine_answer_lines(uint64_t answer)
{
    return (uint32_t)((answer >> 24) & 0xffffff);
}

/* The steps that a delivery took, also where it stopped. */
static inline uint32_t engine_answer_steps(uint64_t answer)
{
    return (uint32_t)((answer >> 24) & 0xffffff);
}

/* The cells taken as a call on a store ends. */
static inline unsigned engine_answer_cells(uint64_t answer)
{
    return (unsigned)(answer >> 48);
}

/* ---- The calls ----
 *
 * Each array is a pointer and its number of elements.
 *
 *   file       the script file; read only
 *   kinds      first code array: the kind of each line
 *   operands   second code array: the operand of each line
 *              Both are written over their whole lengths whatever they held: the code and then zeros, or, after a
 *              refusal, zeros alone. The code may take as many lines as the shorter has, and never more than 4,096.
 *   slots      first store array, of ENGINE_SLOTS_LENGTH(S) words for a store of S cells: word 0 the totals (a number,
 *              or the number of a cell where main's depth is 1 or more), words 1 + 16 c to 16 + 16 c the slots of
 *              cell c
 *   heads      second store array, of ENGINE_HEADS_LENGTH(S) words: word 0 the first free cell (S where none is), words
 *              1 + 4 c to 4 + 4 c the count, length, element depth and next free cell of cell c
 *   readings   the readings of one delivery, at most ENGINE_READINGS_MAX; read only
 *   budget     the steps that the delivery may take, at most ENGINE_BUDGET_MAX
 *   saved      saved totals, of ENGINE_SAVED_LENGTH(K) bytes for K entries
 *
 * The last two calls read kinds and operands, and write neither: the lent code is all before both arrays' closing
 * zeros. They take main's depth beside it, for which it must be.
 */

/* Translates a script. Numbers 0 to 9; the answer has the code's lines. */
uint64_t engine_translate(const uint8_t *ENGINE_RESTRICT file, size_t file_length,
                          uint8_t *ENGINE_RESTRICT kinds, size_t kinds_length,
                          int64_t *ENGINE_RESTRICT operands, size_t operands_length) ENGINE_NONNULL ENGINE_MUST_USE;

/* Opens a store for a script, whatever its words were: totals 0 or the empty array. Numbers 0 to 9 and 11; the answer
 * has the cells taken, 0 or 1. */
uint64_t engine_open(const uint8_t *ENGINE_RESTRICT file, size_t file_length,
                     uint8_t *ENGINE_RESTRICT kinds, size_t kinds_length,
                     int64_t *ENGINE_RESTRICT operands, size_t operands_length,
                     int64_t *ENGINE_RESTRICT slots, size_t slots_length,
                     uint32_t *ENGINE_RESTRICT heads, size_t heads_length) ENGINE_NONNULL ENGINE_MUST_USE;

/* Works one delivery: main on the totals and the readings gives the new totals. Numbers 0 to 11, 21 to 26 and 28;
 * after 0 and a stop the answer has the lowest level, the steps and the cells taken. */
uint64_t engine_deliver(const uint8_t *ENGINE_RESTRICT file, size_t file_length,
                        uint8_t *ENGINE_RESTRICT kinds, size_t kinds_length,
                        int64_t *ENGINE_RESTRICT operands, size_t operands_length,
                        int64_t *ENGINE_RESTRICT slots, size_t slots_length,
                        uint32_t *ENGINE_RESTRICT heads, size_t heads_length,
                        const int64_t *ENGINE_RESTRICT readings, size_t readings_length,
                        uint64_t budget) ENGINE_NONNULL ENGINE_MUST_USE;

/* Checks that a store is sound for a script, and changes none of its words. Numbers 0 to 9 and 11; the answer has the
 * cells taken. */
uint64_t engine_check(const uint8_t *ENGINE_RESTRICT file, size_t file_length,
                      uint8_t *ENGINE_RESTRICT kinds, size_t kinds_length,
                      int64_t *ENGINE_RESTRICT operands, size_t operands_length,
                      const int64_t *ENGINE_RESTRICT slots, size_t slots_length,
                      const uint32_t *ENGINE_RESTRICT heads, size_t heads_length) ENGINE_NONNULL ENGINE_MUST_USE;

/* Saves the totals of a sound store in a buffer: after 0 it begins with ENGINE_SAVED_LENGTH(K) bytes of saved totals
 * and is zero past them; after a refusal it is all zero. No word of the store changes. Numbers 0 to 9, 11 and 27; the
 * answer has the cells taken. A buffer of ENGINE_SAVED_LENGTH_MAX bytes is never too short. */
uint64_t engine_save(const uint8_t *ENGINE_RESTRICT file, size_t file_length,
                     uint8_t *ENGINE_RESTRICT kinds, size_t kinds_length,
                     int64_t *ENGINE_RESTRICT operands, size_t operands_length,
                     const int64_t *ENGINE_RESTRICT slots, size_t slots_length,
                     const uint32_t *ENGINE_RESTRICT heads, size_t heads_length,
                     uint8_t *ENGINE_RESTRICT saved, size_t saved_length) ENGINE_NONNULL ENGINE_MUST_USE;

/* Opens a store for a script, whatever its words were, with saved totals: cells 0, 1, .. are taken in the order of the
 * entries, one for each array. Numbers 0 to 9, 11, 27 and 25; the answer has the cells taken. After 25 (more arrays
 * than cells) every word of the store is zero and the code stands; after a refusal the store is unchanged. The length
 * must be just that of the saved totals, not the buffer's: of bytes that came from elsewhere lend as many as came, and
 * of a buffer that engine_save filled the first engine_saved_length bytes. */
uint64_t engine_restore(const uint8_t *ENGINE_RESTRICT file, size_t file_length,
                        uint8_t *ENGINE_RESTRICT kinds, size_t kinds_length,
                        int64_t *ENGINE_RESTRICT operands, size_t operands_length,
                        int64_t *ENGINE_RESTRICT slots, size_t slots_length,
                        uint32_t *ENGINE_RESTRICT heads, size_t heads_length,
                        const uint8_t *ENGINE_RESTRICT saved, size_t saved_length) ENGINE_NONNULL ENGINE_MUST_USE;

/* Checks lent code, such as an installer tuned, for main of this depth: that it is formed as code is, uses each name
 * in its scope and at its depth, and neither loses a reference nor uses one that it has not. Numbers 0, with the code's
 * lines, and 29, with the line at fault. All code that engine_translate leaves passes. */
uint64_t engine_check_code(const uint8_t *ENGINE_RESTRICT kinds, size_t kinds_length,
                           const int64_t *ENGINE_RESTRICT operands, size_t operands_length,
                           uint64_t depth) ENGINE_NONNULL ENGINE_MUST_USE;

/* Checks lent code in the same way, and works one delivery by it: on a store of a script of that depth, whichever calls
 * it had before. Numbers 29, 10 and 11, tested in this order, 0, 21 to 26 and 28; the answer is that of a delivery. */
uint64_t engine_deliver_code(const uint8_t *ENGINE_RESTRICT kinds, size_t kinds_length,
                             const int64_t *ENGINE_RESTRICT operands, size_t operands_length,
                             uint64_t depth,
                             int64_t *ENGINE_RESTRICT slots, size_t slots_length,
                             uint32_t *ENGINE_RESTRICT heads, size_t heads_length,
                             const int64_t *ENGINE_RESTRICT readings, size_t readings_length,
                             uint64_t budget) ENGINE_NONNULL ENGINE_MUST_USE;

/* Each of them refers to the interface's version as well. */
#define engine_translate(...) (ENGINE_INTERFACE(), engine_translate(__VA_ARGS__))
#define engine_open(...) (ENGINE_INTERFACE(), engine_open(__VA_ARGS__))
#define engine_deliver(...) (ENGINE_INTERFACE(), engine_deliver(__VA_ARGS__))
#define engine_check(...) (ENGINE_INTERFACE(), engine_check(__VA_ARGS__))
#define engine_save(...) (ENGINE_INTERFACE(), engine_save(__VA_ARGS__))
#define engine_restore(...) (ENGINE_INTERFACE(), engine_restore(__VA_ARGS__))
#define engine_check_code(...) (ENGINE_INTERFACE(), engine_check_code(__VA_ARGS__))
#define engine_deliver_code(...) (ENGINE_INTERFACE(), engine_deliver_code(__VA_ARGS__))

/* The length of the saved totals that a buffer begins with, as its bytes 1 and 2 tell it; 0, which a restore refuses,
 * where this does not fit the buffer's capacity. So no byte past the buffer is lent, whatever its bytes are. */
ENGINE_NONNULL ENGINE_MUST_USE
static inline size_t engine_saved_length(const uint8_t *saved, size_t capacity)
{
    size_t told = capacity < ENGINE_SAVED_LENGTH(0) ? 0 : ENGINE_SAVED_LENGTH(saved[1] + 256 * (size_t)saved[2]);
    return told <= capacity ? told : 0;
}

#ifdef __cplusplus
}
#endif

#include "engine_lent.h"

#endif
