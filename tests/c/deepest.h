/* The deepest deliveries that there can be. */
#ifndef DEEPEST_H
#define DEEPEST_H

#include "scripts.h"

#include <stdbool.h>

/* Works a script, or its code as lent code, without readings on a thread whose stack has ENGINE_STACK_BYTES, and gives
 * its answer. A delivery that takes more ends the program. */
uint64_t deliver_deepest(void (*script)(struct script *), bool by_code);

#endif
