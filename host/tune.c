/* The text of code back to lines of code, checked by the engine. */
#include "tune.h"
#include "code_judge.h"
#include "place.h"

#include <inttypes.h>
#include <stdio.h>
#include <string.h>

/* ---- Reading ---- */

/* Whether a line that begins with this word is a heading. */
static bool is_heading(struct word word)
{
    return word_is(word, "line") || word_is(word, "then,") || word_is(word, "else,");
}

/* The next word of the present line as a number within these; false after saying what is wrong. */
static bool read_number(struct text *text, const char *what, int64_t least, int64_t greatest, int64_t *number)
{
    struct word word;
    if (!next_word(text, &word)) {
        complain_in(text, text->line, (const char *)text->at, "its %s is missing", what);
        return false;
    }
    enum numeral numeral = numeral_of(word, number);
    if (numeral == NUMERAL_NONE)
        complain_in(text, text->line, word.start, "%s is no %s: a number is wanted", quote_word(word).text, what);
    else if (numeral == NUMERAL_TOO_LARGE || *number < least || *number > greatest)
        complain_in(text, text->line, word.start, "the %s %s is not within %" PRId64 " to %" PRId64, what,
                    quote_word(word).text, least, greatest);
    return numeral == NUMERAL_FITS && *number >= least && *number <= greatest;
}

/* The present line; false where it is faulty. */
static bool read_line(struct code_text *code, struct text *text)
{
    struct word word;
    int64_t number, kind, operand;
    if (!next_word(text, &word) || is_heading(word))
        return true;
    if (!word_is(word, "new") && !number_of(word, &number)) {
        complain_in(text, text->line, word.start, "%s begins no line of code: its number is wanted, or 'new' where it"
                    " was put in", quote_word(word).text);
        return false;
    }
    if (!read_number(text, "kind", 0, 255, &kind) || !read_number(text, "operand", INT64_MIN, INT64_MAX, &operand))
        return false;
    if (code->count == CODE_TEXT_LINES_MAX)
        fail(STATUS_UNUSABLE, "%s: over %d lines of code; look whether it is the file that you mean", text->path,
             CODE_TEXT_LINES_MAX);
    code->kinds[code->count] = (uint8_t)kind;
    code->operands[code->count] = operand;
    code->spots[code->count++] = (struct spot){ text->line, word.start };
    return true;
}

void read_code_text(struct code_text *code, const char *path, uint8_t *bytes, size_t capacity)
{
    size_t length = read_whole(path, bytes, capacity);
    unsigned faults = 0;
    if (memchr(bytes, 0, length) != NULL)
        fail(STATUS_UNUSABLE, "%s: a script file or other data, where the text of code is wanted; 'script_tool code'"
             " prints it", path);
    struct text text = text_of(path, bytes, length);
    code->text = text;
    code->count = 0;
    while (next_line(&text))
        faults += !read_line(code, &text);
    if (faults > 0)
        fail(STATUS_UNUSABLE, "%s: %u faulty line%s; mend %s as 'script_tool code' prints lines", path, faults,
             faults == 1 ? "" : "s", faults == 1 ? "it" : "them");
    if (code->count == 0)
        fail(STATUS_UNUSABLE, "%s: there is no line of code in it; name what 'script_tool code' printed", path);
}

/* ---- The check ---- */

/* What to do about a fault that a test has found. */
static const char *advice_of(enum code_test test)
{
    switch (test) {
    case TEST_OF_FORM:
        return "move, put in and take out whole lines of kinds 14 and 15, and leave the others as they were printed";
    case TEST_OF_SCOPE:
        return "retain and release arrays alone, after the line that makes them and inside its tree";
    default:
        return "follow that name from where it is bound: a retain adds a reference, a release or hand-over spends one";
    }
}

/* Says which line is at fault. Why is said only where it is found at the same line. */
static void explain_fault(const struct code_text *code, uint64_t answer, uint64_t depth)
{
    struct code_fault fault = { .line = UINT32_MAX };
    uint32_t line = engine_answer_line(answer);
    bool is_past = line >= code->count;
    bool is_accepted = judge_code(code->kinds, code->operands, code->count, depth, &fault);
    struct spot spot = code->spots[is_past ? code->count - 1 : line];
    const char *word = engine_word(ENGINE_BAD_CODE), *after = is_past ? ", after the last" : "";
    if (is_accepted || fault.line != line) {
        complain_in(&code->text, spot.line, spot.at, "%d %s: line %" PRIu32 " of the code%s: it breaks a rule of form,"
                    " of depth and scope, or of holds", ENGINE_BAD_CODE, word, line, after);
        complain("  see 'Tuning code' in docs/INSTALLERS.md, and put the line back as it was printed");
        return;
    }
    complain_in(&code->text, spot.line, spot.at, "%d %s: line %" PRIu32 " of the code%s: %s", ENGINE_BAD_CODE, word,
                line, after, fault.text);
    complain("  %s", advice_of(fault.test));
}

bool check_code_text(const struct code_text *code, struct tuned *tuned)
{
    uint64_t depth = code->operands[0] < 0 ? 0 : (uint64_t)code->operands[0] / 256;
    uint64_t answer = engine_check_code(code->kinds, code->count, code->operands, code->count, depth);
    if (engine_answer_number(answer) != ENGINE_DONE) {
        explain_fault(code, answer, depth);
        return false;
    }
    tuned->lines = engine_answer_lines(answer);
    tuned->depth = (unsigned)depth;
    memcpy(tuned->kinds, code->kinds, tuned->lines);
    memcpy(tuned->operands, code->operands, tuned->lines * sizeof *tuned->operands);
    return true;
}
