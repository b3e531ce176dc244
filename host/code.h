/* Lines of code: where each function's stand, and what follows each line. */
#ifndef CODE_H
#define CODE_H

#include "engine.h"

#include <stdbool.h>

/* Code of the form that engine_translate leaves. */
struct code {
    const uint8_t *kinds;
    const int64_t *operands;
    uint32_t lines;
    uint32_t functions[ENGINE_FUNCTIONS_MAX]; /* the line of each */
    unsigned parameters[ENGINE_FUNCTIONS_MAX];
    size_t count; /* of functions */
};

struct code code_of(const uint8_t *kinds, const int64_t *operands, uint32_t lines);

/* The kind of the node that a line comes from: another one only for a map in its array's own cell. */
uint8_t node_kind_of(uint8_t kind);

/* An operand with which a node of a line's kind has as many children as the line's has. */
int64_t node_operand_of(const struct code *code, uint32_t line);

/* How many atoms follow a line; a retain and a release have none. */
unsigned atoms_after(const struct code *code, uint32_t line);

/* The line after a line's atoms and trees. */
uint32_t line_after_trees(const struct code *code, uint32_t line);

/* The line after the tree that begins at one: past its end line and that one's atom. */
uint32_t line_after_tree(const struct code *code, uint32_t line);

/* Which parameters are borrowed: arrays that their functions only read, and neither retain nor release. Main's are
 * not. */
void find_borrowed(const struct code *code, bool is_borrowed[ENGINE_FUNCTIONS_MAX][ENGINE_PARAMETERS_MAX]);

/* Whether a line hands over the atom at this place, given which parameters are borrowed. */
bool hands_over(const struct code *code, uint32_t line, unsigned place,
                bool is_borrowed[ENGINE_FUNCTIONS_MAX][ENGINE_PARAMETERS_MAX]);

#endif
