/* The names and depths of a script's parts, followed to explain the refusals 6 and 7. */
#ifndef SCRIPT_DEPTHS_H
#define SCRIPT_DEPTHS_H

#include "script.h"

/* Prints "path:line:column: number word: what is wrong", and the line with a caret. */
void say_refusal(const struct script *script, unsigned number, struct spot spot, const char *format, ...)
    __attribute__((format(printf, 4, 5)));
void say_refusal_with(const struct script *script, unsigned number, struct spot spot, const char *format,
                      va_list arguments);

/* Names each node that breaks the rule of 6 or of 7, in a script that passes 1 to 5 (and 6, for 7). The engine gave
 * this one, the lowest of them. */
void explain_depths(const struct script *script, unsigned number, size_t node);

#endif
