/* A script as nodes, with the places in a text that they stem from. */
#ifndef SCRIPT_H
#define SCRIPT_H

#include "engine.h"
#include "text.h"

enum {
    SCRIPT_NODES_MAX = 65535, /* that a script file's sizes can say */
    SCRIPT_FILE_BYTES_MAX = 4 + 9 * SCRIPT_NODES_MAX,
    DEFINITIONS_MAX = 512
};

struct node {
    uint8_t kind;
    int64_t operand;
    unsigned line;        /* of the text */
    unsigned indentation;
    struct word text;     /* the line's first word */
    struct word word;     /* that the text has for the first part of the operand; empty where it is a number */
    struct word second;   /* and for the second part */
};

struct definition {
    struct word word;
    int64_t number;
    unsigned line;
    bool is_used;
};

/* A place of a text. */
struct spot {
    unsigned line;
    const char *at;
};

struct script {
    struct text text;         /* its path and its bytes, for messages */
    struct node nodes[SCRIPT_NODES_MAX];
    size_t count;
    size_t functions;
    bool functions_are_given; /* by a line of their own */
    struct spot functions_spot; /* that line */
    struct spot names_spot;   /* the line that names the totals; its number is 0 where there is none */
    unsigned names_levels;    /* of the totals */
    struct spot last;         /* the last line that is not empty */
    struct definition definitions[DEFINITIONS_MAX];
    size_t defined;
};

/* What stands above a node: its parent, and as which child it stands there. Functions have none. */
#define NO_PARENT SIZE_MAX
struct parentage {
    size_t parent;
    unsigned child;
    unsigned level; /* parents up to the function */
};

/* The parentage of each node, and, after the last, of the node that would follow. Children are counted as the operands
 * say, whatever the nodes are. */
void find_parents(const struct script *script, struct parentage *parentage);

/* Of a script whose nodes fit (the engine does not refuse it with 1 to 5): the node that follows each one's last part,
 * and the node of each function. */
struct shape {
    size_t after[ENGINE_NODES_MAX];
    size_t functions[ENGINE_FUNCTIONS_MAX];
};
void find_shape(const struct script *script, struct shape *shape);

struct spot spot_of(const struct node *node);

/* Prints a message about a place of a script's text, and the line with a caret. */
void say_at(const struct script *script, struct spot spot, const char *format, ...)
    __attribute__((format(printf, 3, 4)));

/* The same as a warning: with 'warning: ' before it. */
void warn_at(const struct script *script, struct spot spot, const char *format, ...)
    __attribute__((format(printf, 3, 4)));

/* How many warnings there were. */
unsigned warnings_given(void);

/* Reads a text. Fails where it is none, or where a line is faulty, after saying so of each. The words point into
 * `bytes`. */
void read_text(struct script *script, const char *path, uint8_t *bytes, size_t capacity);

/* Reads the text that some bytes are. */
void parse_text(struct script *script, const char *path, const uint8_t *bytes, size_t length);

/* Reads a text or a script file, whichever is there; of a script file the text is its listing. */
void read_either(struct script *script, const char *path, uint8_t *bytes, size_t capacity);

/* Reads a script file of any nodes. Fails where it is none. */
void read_nodes(struct script *script, const char *path, uint8_t *bytes, size_t capacity);

/* The bytes of a script file; gives how many. */
size_t script_file_of(const struct script *script, uint8_t bytes[SCRIPT_FILE_BYTES_MAX]);

/* Writes a script's text anew: indented by its nesting, with its words and comments as they were. */
void write_formatted(const struct script *script, const char *path);

/* Writes the text of a script that was read from a file. */
void write_listing(const struct script *script, const char *path);

/* Says what is wrong with a script by places of its text: the engine's refusal, and warnings; of a store of so many
 * cells too, if this is not 0. True where the engine accepts it; then the two arrays, of ENGINE_CODE_LINES_MAX lines,
 * have the code, and *lines how many there are. */
bool check_script(const struct script *script, size_t cells, uint8_t *kinds, int64_t *operands, uint32_t *lines);

/* Warns of guards that are no comparisons, and of functions, parameters and lets that nothing uses, in a script that
 * the engine accepts. */
void warn_of_guards(const struct script *script);
void warn_of_unused_nodes(const struct script *script);

/* The fewest cells with which a delivery of a script that the engine accepts can be done. There may be none that can
 * be done with so few; with fewer none can. */
size_t least_cells(const struct script *script);

/* Says why the engine refused a script, with a line for each node that breaks the rule. */
void explain_refusal(const struct script *script, uint64_t answer);

/* Prints the code that check_script left, with each line's meaning. */
void print_code(const struct script *script, const uint8_t *kinds, const int64_t *operands, uint32_t lines);

#endif
