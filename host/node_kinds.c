/* The node kinds of a script file. */
#include "node_kinds.h"

#include <stdio.h>

/* Operands without parts of their own, and the roles of two equal parts. */
#define NO_PARTS { NULL, 0 }, { NULL, 0 }
#define ONE_NAME { "name", 255 }, { NULL, 0 }
#define TWO_PARTS { "first part", "second part" }

const struct node_kind node_kinds[ENGINE_KINDS] = {
    [ENGINE_KIND_FUNCTION] = { "function", OPERAND_PAIR, { "parameters", 8 }, { "depth of the result", 4 }, 1,
                               { "body" } },
    [ENGINE_KIND_PARAMETER] = { "parameter", OPERAND_PAIR, { "name", 255 }, { "depth", 4 }, 0, { NULL } },
    [ENGINE_KIND_NUMBER] = { "number", OPERAND_VALUE, NO_PARTS, 0, { NULL } },
    [ENGINE_KIND_NAME] = { "name", OPERAND_NAME, ONE_NAME, 0, { NULL } },
    [ENGINE_KIND_SUM] = { "sum", OPERAND_NONE, NO_PARTS, 2, TWO_PARTS },
    [ENGINE_KIND_DIFFERENCE] = { "difference", OPERAND_NONE, NO_PARTS, 2, TWO_PARTS },
    [ENGINE_KIND_LESS] = { "less", OPERAND_NONE, NO_PARTS, 2, TWO_PARTS },
    [ENGINE_KIND_LET] = { "let", OPERAND_NAME, ONE_NAME, 2, { "bound part", "body" } },
    [ENGINE_KIND_CALL] = { "call", OPERAND_PAIR, { "function", 31 }, { "arguments", 8 }, 0, { NULL } },
    [ENGINE_KIND_LITERAL] = { "literal", OPERAND_PAIR, { "length", 16 }, { "depth of an element", 3 }, 0, { NULL } },
    [ENGINE_KIND_INDEX] = { "index", OPERAND_NONE, NO_PARTS, 2, { "array", "position" } },
    [ENGINE_KIND_LENGTH] = { "length", OPERAND_NONE, NO_PARTS, 1, { "array" } },
    [ENGINE_KIND_IF] = { "if", OPERAND_NONE, NO_PARTS, 3, { "guard", "then part", "else part" } },
    [ENGINE_KIND_MAP] = { "map", OPERAND_NAME, ONE_NAME, 2, { "array", "body" } },
    [ENGINE_KIND_IOTA] = { "iota", OPERAND_NONE, NO_PARTS, 1, { "count" } },
    [ENGINE_KIND_REPLICATE] = { "replicate", OPERAND_NONE, NO_PARTS, 2, { "count", "value" } },
    [ENGINE_KIND_FILTER] = { "filter", OPERAND_NAME, ONE_NAME, 2, { "array", "guard" } },
    [ENGINE_KIND_REDUCE] = { "reduce", OPERAND_PAIR, { "first name", 255 }, { "second name", 255 }, 3,
                             { "start", "array", "body" } },
};

/* The children that an operand asks for. */
static unsigned counted_children(uint8_t kind, int64_t operand)
{
    if (operand < 0)
        return 0;
    switch (kind) {
    case ENGINE_KIND_FUNCTION:
    case ENGINE_KIND_LITERAL: return (unsigned)(operand % 256);
    case ENGINE_KIND_CALL: return operand / 256 > ENGINE_PARAMETERS_MAX ? 0 : (unsigned)(operand / 256);
    default: return 0;
    }
}

unsigned children_of(uint8_t kind, int64_t operand)
{
    if (!engine_is_node_kind(kind))
        return 0;
    return counted_children(kind, operand) + (unsigned)node_kinds[kind].children;
}

struct role role_of(uint8_t kind, int64_t operand, unsigned child)
{
    struct role role;
    unsigned counted = counted_children(kind, operand);
    const char *word = kind == ENGINE_KIND_CALL ? "argument" : kind == ENGINE_KIND_LITERAL ? "element" : "parameter";
    if (child < counted)
        snprintf(role.text, sizeof role.text, "%s %u", word, child + 1);
    else
        snprintf(role.text, sizeof role.text, "%s", node_kinds[kind].roles[child - counted]);
    return role;
}

bool is_compound(uint8_t kind)
{
    return engine_is_node_kind(kind) && kind >= ENGINE_KIND_SUM && kind != ENGINE_KIND_LET;
}

unsigned pass_names_of(uint8_t kind)
{
    switch (kind) {
    case ENGINE_KIND_MAP:
    case ENGINE_KIND_FILTER: return 1;
    case ENGINE_KIND_REDUCE: return 2;
    default: return 0;
    }
}

unsigned trees_of(uint8_t kind)
{
    return kind == ENGINE_KIND_IF ? 2 : pass_names_of(kind) > 0 ? 1 : 0;
}
