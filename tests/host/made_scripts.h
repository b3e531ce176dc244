/* Scripts and readings made at random: each run of a test makes the same ones. */
#ifndef MADE_SCRIPTS_H
#define MADE_SCRIPTS_H

#include "../../host/script.h"

struct random {
    uint64_t state;
};

/* A number below a limit. */
unsigned below(struct random *random, unsigned limit);

/* A number of a script: mostly small, at times at the ends of the range. */
int64_t some_number(struct random *random);

/* A script whose names are known and whose depths match; the engine may still refuse it as too large. */
void make_script(struct random *random, struct script *script);

#endif
