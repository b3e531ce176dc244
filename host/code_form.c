/* The form of lent code, the first of its three tests: kinds, operands, the number of atoms, and nesting. */
#include "code_judge.h"
#include "node_kinds.h"

#include <inttypes.h>
#include <stdarg.h>
#include <stdio.h>

enum { ANY_ATOMS = -1, NO_FUNCTION = -2 };

bool blame(struct code_judge *j, uint32_t line, const char *format, ...)
{
    va_list arguments;
    va_start(arguments, format);
    vsnprintf(j->fault->text, sizeof j->fault->text, format, arguments);
    va_end(arguments);
    j->fault->line = line;
    return false;
}

bool judge_code(const uint8_t *kinds, const int64_t *operands, uint32_t lines, uint64_t depth, struct code_fault *fault)
{
    static struct code_judge judge;
    while (lines > 0 && kinds[lines - 1] == 0 && operands[lines - 1] == 0)
        lines--;
    judge = (struct code_judge){ .kinds = kinds, .operands = operands, .lines = lines, .fault = fault };
    fault->test = TEST_OF_FORM;
    if (!judge_form(&judge))
        return false;
    judge.code = code_of(kinds, operands, lines);
    fault->test = TEST_OF_SCOPE;
    if (!judge_scope(&judge, depth))
        return false;
    fault->test = TEST_OF_HOLDS;
    return judge_holds(&judge);
}

/* ---- Operands and atoms ---- */

/* The greatest parts of an operand, first + 256 x second + 65,536 x third. A number has any, and kind 7 is none. */
static const struct {
    uint8_t first, second, third;
} greatest[ENGINE_KINDS] = {
    [ENGINE_KIND_FUNCTION] = { 8, 4, 0 },      [ENGINE_KIND_PARAMETER] = { 255, 4, 0 },
    [ENGINE_KIND_NAME] = { 255, 0, 0 },        [ENGINE_KIND_SUM] = { 255, 0, 0 },
    [ENGINE_KIND_DIFFERENCE] = { 255, 0, 0 },  [ENGINE_KIND_LESS] = { 255, 0, 0 },
    [ENGINE_KIND_CALL] = { 255, 31, 0 },       [ENGINE_KIND_LITERAL] = { 255, 16, 3 },
    [ENGINE_KIND_INDEX] = { 255, 0, 0 },       [ENGINE_KIND_LENGTH] = { 255, 0, 0 },
    [ENGINE_KIND_IF] = { 255, 0, 0 },          [ENGINE_KIND_MAP] = { 255, 255, 0 },
    [ENGINE_KIND_RETAIN] = { 255, 0, 0 },      [ENGINE_KIND_RELEASE] = { 255, 0, 0 },
    [ENGINE_KIND_END] = { 0, 0, 0 },           [ENGINE_KIND_IOTA] = { 255, 0, 0 },
    [ENGINE_KIND_REPLICATE] = { 255, 0, 0 },   [ENGINE_KIND_FILTER] = { 255, 255, 0 },
    [ENGINE_KIND_REDUCE] = { 255, 255, 255 },  [ENGINE_KIND_REWRITING_MAP] = { 255, 255, 0 },
};

static bool is_in_range(uint8_t kind, int64_t operand)
{
    return operand >= 0 && operand % 256 <= greatest[kind].first && operand / 256 % 256 <= greatest[kind].second
           && operand / 65536 <= greatest[kind].third;
}

static bool is_atom(uint8_t kind)
{
    return kind == ENGINE_KIND_NUMBER || kind == ENGINE_KIND_NAME;
}

/* The lines that are looked at. */
static uint32_t lines_seen(const struct code_judge *j)
{
    return j->lines < ENGINE_CODE_LINES_MAX ? j->lines : ENGINE_CODE_LINES_MAX;
}

/* Passes the present line and its atoms, which are as many as are wanted. */
static bool pass_atoms(struct code_judge *j, int wanted)
{
    const uint32_t line = j->at, end = lines_seen(j);
    uint32_t next = line + 1;
    for (; next < end && is_atom(j->kinds[next]); next++)
        if (j->kinds[next] == ENGINE_KIND_NAME && !is_in_range(ENGINE_KIND_NAME, j->operands[next]))
            return blame(j, line, "its atom on line %" PRIu32 " is the name %" PRId64 ", and names go from 0 to 255",
                         next, j->operands[next]);
    int found = (int)(next - line - 1);
    bool is_cut = found < wanted && end < j->lines && next == end;
    j->at = next;
    if (is_cut)
        return blame(j, end, "code has at most %d lines", ENGINE_CODE_LINES_MAX);
    if (wanted != ANY_ATOMS && found != wanted)
        return blame(j, line, "%d atom%s after it, and kind %u wants %d", found, found == 1 ? " stands" : "s stand",
                     j->kinds[line], wanted);
    return true;
}

/* Whether there is a line; `what` is wanted there. */
static bool is_line(struct code_judge *j, const char *what)
{
    if (j->at < lines_seen(j))
        return true;
    if (j->at < j->lines)
        return blame(j, j->at, "code has at most %d lines", ENGINE_CODE_LINES_MAX);
    return blame(j, j->at, "the code ends before it, and %s is wanted", what);
}

static bool has_operand(struct code_judge *j)
{
    uint8_t kind = j->kinds[j->at];
    int64_t operand = j->operands[j->at];
    return is_in_range(kind, operand)
           || blame(j, j->at, "its operand %" PRId64 " is out of the range of kind %u", operand, kind);
}

/* ---- Trees ---- */

/* How many parameters a function says that it has; ANY_ATOMS where its operand is out of range. Function i has the ith
 * line of kind 0, wherever that stands. */
static int arity_of(const struct code_judge *j, int64_t function)
{
    for (uint32_t line = 0; line < lines_seen(j); line++)
        if (j->kinds[line] == ENGINE_KIND_FUNCTION && function-- == 0)
            return is_in_range(ENGINE_KIND_FUNCTION, j->operands[line]) ? (int)(j->operands[line] % 256) : ANY_ATOMS;
    return NO_FUNCTION;
}

/* The kind and operand of a line within a tree. */
static bool is_tree_line(struct code_judge *j)
{
    uint8_t kind = j->kinds[j->at];
    if (kind >= ENGINE_KINDS || kind == ENGINE_KIND_LET)
        return blame(j, j->at, "there is no line of kind %u", kind);
    if (kind == ENGINE_KIND_FUNCTION || kind == ENGINE_KIND_PARAMETER)
        return blame(j, j->at, "a line of kind %u stands where a function's tree has not ended", kind);
    if (is_atom(kind))
        return blame(j, j->at, "an atom stands where a line is wanted");
    if (!has_operand(j))
        return false;
    int64_t function = j->operands[j->at] / 256;
    return kind != ENGINE_KIND_CALL || arity_of(j, function) != NO_FUNCTION
           || blame(j, j->at, "it calls function %" PRId64 ", which is not there", function);
}

static int atoms_wanted(const struct code_judge *j)
{
    uint8_t kind = node_kind_of(j->kinds[j->at]);
    int64_t operand = j->operands[j->at];
    switch (kind) {
    case ENGINE_KIND_CALL: return arity_of(j, operand / 256);
    case ENGINE_KIND_LITERAL: return (int)(operand / 256 % 256);
    case ENGINE_KIND_END: return 1;
    default: return (int)(children_of(kind, 0) - trees_of(kind));
    }
}

/* A tree, with so many levels left. */
static bool form_tree(struct code_judge *j, int levels)
{
    uint8_t kind;
    do {
        if (levels == 0)
            return blame(j, j->at, "a tree begins here within %d others, and that is one too many", ENGINE_LEVELS_MAX);
        if (!is_line(j, "a line of its tree") || !is_tree_line(j))
            return false;
        kind = j->kinds[j->at];
        if (!pass_atoms(j, atoms_wanted(j)))
            return false;
        for (unsigned trees = trees_of(node_kind_of(kind)); trees > 0; trees--)
            if (!form_tree(j, levels - 1))
                return false;
    } while (kind != ENGINE_KIND_END);
    return true;
}

/* ---- Functions ---- */

/* A line of this kind, which has no atoms. */
static bool form_head(struct code_judge *j, uint8_t kind, const char *what)
{
    if (!is_line(j, what))
        return false;
    if (j->kinds[j->at] != kind)
        return blame(j, j->at, "a line of kind %u stands where %s is wanted", j->kinds[j->at], what);
    return has_operand(j) && pass_atoms(j, 0);
}

static bool form_function(struct code_judge *j)
{
    uint32_t line = j->at;
    if (!form_head(j, ENGINE_KIND_FUNCTION, "a function's line"))
        return false;
    for (int64_t left = j->operands[line] % 256; left > 0; left--)
        if (!form_head(j, ENGINE_KIND_PARAMETER, "a parameter's line"))
            return false;
    return form_tree(j, ENGINE_LEVELS_MAX);
}

bool judge_form(struct code_judge *j)
{
    j->at = 0;
    for (int functions = 0; functions == 0 || j->at < j->lines; functions++) {
        if (functions == ENGINE_FUNCTIONS_MAX)
            return blame(j, j->at, "it is past the last of %d functions, and there may be no more",
                         ENGINE_FUNCTIONS_MAX);
        if (!form_function(j))
            return false;
    }
    return true;
}
