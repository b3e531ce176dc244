/* Lines of code: where each function's stand, and what follows each line. */
#include "code.h"
#include "node_kinds.h"

struct code code_of(const uint8_t *kinds, const int64_t *operands, uint32_t lines)
{
    struct code code = { .kinds = kinds, .operands = operands, .lines = lines };
    for (uint32_t line = 0; line < lines; line++) {
        if (kinds[line] != ENGINE_KIND_FUNCTION)
            continue;
        code.functions[code.count] = line;
        code.parameters[code.count++] = (unsigned)(operands[line] % 256);
    }
    return code;
}

/* ---- What follows a line ---- */

uint8_t node_kind_of(uint8_t kind)
{
    return kind == ENGINE_KIND_REWRITING_MAP ? ENGINE_KIND_MAP : kind;
}

int64_t node_operand_of(const struct code *code, uint32_t line)
{
    int64_t operand = code->operands[line];
    switch (code->kinds[line]) {
    case ENGINE_KIND_CALL: return 256 * (int64_t)code->parameters[operand / 256];
    case ENGINE_KIND_LITERAL: return operand / 256 % 256;
    default: return 0;
    }
}

unsigned atoms_after(const struct code *code, uint32_t line)
{
    uint8_t kind = node_kind_of(code->kinds[line]);
    return kind == ENGINE_KIND_END ? 1 : children_of(kind, node_operand_of(code, line)) - trees_of(kind);
}

uint32_t line_after_trees(const struct code *code, uint32_t line)
{
    unsigned trees = trees_of(node_kind_of(code->kinds[line]));
    for (line += 1 + atoms_after(code, line); trees > 0; trees--)
        line = line_after_tree(code, line);
    return line;
}

/* As deep as the script's levels. */
uint32_t line_after_tree(const struct code *code, uint32_t line)
{
    while (code->kinds[line] != ENGINE_KIND_END)
        line = line_after_trees(code, line);
    return line + 2;
}

/* ---- Borrowed parameters ---- */

bool hands_over(const struct code *code, uint32_t line, unsigned place,
                bool is_borrowed[ENGINE_FUNCTIONS_MAX][ENGINE_PARAMETERS_MAX])
{
    switch (code->kinds[line]) {
    case ENGINE_KIND_CALL: return !is_borrowed[code->operands[line] / 256][place];
    case ENGINE_KIND_LITERAL:
    case ENGINE_KIND_END:
    case ENGINE_KIND_REWRITING_MAP: return true;
    case ENGINE_KIND_REDUCE: return place == 0;
    default: return false;
    }
}

/* Takes back the parameter that a name is, if it is one that is borrowed; whether it was. */
static bool take_back_name(const struct code *code, size_t function, int64_t name,
                           bool is_borrowed[ENGINE_FUNCTIONS_MAX][ENGINE_PARAMETERS_MAX])
{
    const int64_t *parameters = code->operands + code->functions[function] + 1;
    for (unsigned i = 0; i < code->parameters[function]; i++) {
        if (parameters[i] % 256 == name && is_borrowed[function][i]) {
            is_borrowed[function][i] = false;
            return true;
        }
    }
    return false;
}

/* Takes back what a function's lines hand over, retain or release; whether an entry changed. */
static bool take_back(const struct code *code, size_t function,
                      bool is_borrowed[ENGINE_FUNCTIONS_MAX][ENGINE_PARAMETERS_MAX])
{
    uint32_t end = function + 1 < code->count ? code->functions[function + 1] : code->lines;
    uint32_t line = code->functions[function] + 1 + code->parameters[function];
    bool changes = false;
    for (unsigned atoms; line < end; line += 1 + atoms) {
        uint8_t kind = code->kinds[line];
        atoms = atoms_after(code, line);
        if (kind == ENGINE_KIND_RETAIN || kind == ENGINE_KIND_RELEASE)
            changes |= take_back_name(code, function, code->operands[line], is_borrowed);
        for (unsigned i = 0; i < atoms; i++)
            if (code->kinds[line + 1 + i] == ENGINE_KIND_NAME && hands_over(code, line, i, is_borrowed))
                changes |= take_back_name(code, function, code->operands[line + 1 + i], is_borrowed);
    }
    return changes;
}

void find_borrowed(const struct code *code, bool is_borrowed[ENGINE_FUNCTIONS_MAX][ENGINE_PARAMETERS_MAX])
{
    bool changes = true;
    for (size_t f = 0; f < code->count; f++)
        for (unsigned i = 0; i < ENGINE_PARAMETERS_MAX; i++)
            is_borrowed[f][i] = f != 0 && i < code->parameters[f]
                                && code->operands[code->functions[f] + 1 + i] / 256 > 0;
    while (changes) {
        changes = false;
        for (size_t f = 0; f < code->count; f++)
            changes |= take_back(code, f, is_borrowed);
    }
}
