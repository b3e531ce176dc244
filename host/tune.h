/* The text of code, as 'script_tool code' prints it and a person edits it, back to lines of code. A line has its
 * number, or 'new' where it was put in, its kind and its operand; what follows is passed over, and so are headings and
 * empty lines. '#' begins a comment. */
#ifndef TUNE_H
#define TUNE_H

#include "script.h"
#include "tuned_file.h"

enum { CODE_TEXT_LINES_MAX = 2 * ENGINE_CODE_LINES_MAX }; /* more than the engine takes, so that it can refuse them */

struct code_text {
    struct text text; /* its path and its bytes, for messages */
    uint8_t kinds[CODE_TEXT_LINES_MAX];
    int64_t operands[CODE_TEXT_LINES_MAX];
    struct spot spots[CODE_TEXT_LINES_MAX];
    uint32_t count;
};

/* Reads the text of code. Fails where it is none, or where a line is faulty, after saying so of each. */
void read_code_text(struct code_text *code, const char *path, uint8_t *bytes, size_t capacity);

/* Has the engine check code for the depth that its first line says. True where it passes, with the tuned code; else it
 * is said which line is at fault and why. */
bool check_code_text(const struct code_text *code, struct tuned *tuned);

#endif
