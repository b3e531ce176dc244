/* Names for the totals, as a line of a script's text gives them:
 *
 *   totals nozzle / grade / volume, money
 *
 * From the outermost array inwards, a part for each level, with '/' between. A part of one name is for all elements of
 * an array ("nozzle 0", "nozzle 1"), one of several for its elements in turn. A number alone has one name. */
#ifndef NAMES_H
#define NAMES_H

#include "engine.h"
#include "text.h"

enum { NAME_LENGTH_MAX = 24 };

struct names {
    unsigned levels; /* 0: there are no names */
    struct {
        unsigned count;
        struct word words[ENGINE_CELL_SLOTS];
    } level[ENGINE_DEPTH_MAX];
};

struct names_fault {
    const char *at; /* of the line */
    char text[120];
};

/* The names on the rest of a line, whose words stay in the text; false with what is wrong. */
bool names_in(struct text *text, struct names *names, struct names_fault *fault);

/* The names in a script's text for totals of this depth. Fails where there are none. A program reads them once. */
void read_names(struct names *names, const char *path, unsigned depth);

/* What a place of the totals is called at the levels from `first` to before `last`; empty where there are none. */
enum { LABEL_BYTES = 160 };
struct label {
    char text[LABEL_BYTES];
};
struct label label_of(const struct names *names, unsigned place, unsigned first, unsigned last, unsigned depth);

#endif
