/* Why the engine refuses lent code: document 02's three tests of it, each over the whole code before the next, with
 * what is wrong at the first line at fault in words. The engine decides whether code passes; its line and the one found
 * here must be the same. */
#ifndef CODE_JUDGE_H
#define CODE_JUDGE_H

#include "code.h"

/* What a test is about. */
enum code_test { TEST_OF_FORM, TEST_OF_SCOPE, TEST_OF_HOLDS };

struct code_fault {
    enum code_test test;
    uint32_t line; /* the first past the last, where one is missing */
    char text[200];
};

/* Code that is being judged. */
struct code_judge {
    const uint8_t *kinds;
    const int64_t *operands;
    uint32_t lines; /* up to the closing zeros; more than ENGINE_CODE_LINES_MAX are not looked at */
    uint32_t at;    /* the present line */
    struct code_fault *fault;
    struct code code; /* known once its form is passed */
    uint8_t depths[ENGINE_FUNCTIONS_MAX][ENGINE_NEW_NAMES_MAX]; /* of the functions' names, known after the second */
};

/* Finds the first line at fault of code for main of this depth; true where there is none. */
bool judge_code(const uint8_t *kinds, const int64_t *operands, uint32_t lines, uint64_t depth,
                struct code_fault *fault);

/* The tests, in order; each is for code that passed those before it. */
bool judge_form(struct code_judge *judge);
bool judge_scope(struct code_judge *judge, uint64_t depth);
bool judge_holds(struct code_judge *judge);

/* Says what is wrong at a line, and gives false. */
bool blame(struct code_judge *judge, uint32_t line, const char *format, ...) __attribute__((format(printf, 3, 4)));

/* Whether the atom at a place of a line is a name; then which. */
bool atom_name(const struct code_judge *judge, uint32_t line, unsigned place, uint8_t *name);

/* What the atom at a place is to its line: "array", "argument 2", "result". */
struct role role_in_code(const struct code *code, uint32_t line, unsigned place);

#endif
