/* The node kinds of a script file: the words that a script's text has for them, their operands and their children. */
#ifndef NODE_KINDS_H
#define NODE_KINDS_H

#include "engine.h"

#include <stdbool.h>

/* What an operand is made of. */
enum operand_parts {
    OPERAND_NONE,  /* it is 0 */
    OPERAND_VALUE, /* any number */
    OPERAND_NAME,  /* 0 to 255 */
    OPERAND_PAIR   /* low + 256 x high, low from 0 to 255 */
};

/* A part of an operand: what it is, and its greatest value. */
struct operand_part {
    const char *what;
    int greatest;
};

struct node_kind {
    const char *word;
    enum operand_parts parts;
    struct operand_part low, high; /* of a name, low alone */
    int children;                  /* besides those that an operand asks for */
    const char *roles[3];          /* of these children */
};

/* By kind; kinds that are of lines alone have no word. */
extern const struct node_kind node_kinds[ENGINE_KINDS];

/* How many nodes stand below a node of this kind and operand. */
unsigned children_of(uint8_t kind, int64_t operand);

/* What a child is to its node: "element 2", "guard". Places are counted from 1, as in "argument 1". */
struct role {
    char text[24];
};
struct role role_of(uint8_t kind, int64_t operand, unsigned child);

/* Whether a node or line of this kind is a compound one: it takes a step and a new name. */
bool is_compound(uint8_t kind);

/* How many names a pass over the tree of such a node binds: a map's or filter's element, a reduce's running value and
 * element. */
unsigned pass_names_of(uint8_t kind);

/* How many of such a node's children, the last ones, become trees of its line. */
unsigned trees_of(uint8_t kind);

#endif
