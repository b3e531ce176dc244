/* A store as text or JSON: its cells, who names whom, and what is wrong with it. */
#ifndef SHOW_H
#define SHOW_H

#include "report.h"

/* Shows the store of a file, checked for its own script or, where none is given, for any of main's depth; its totals by
 * the names of a script's text, where one is given. Gives the exit status. */
int show_store(const struct form *form, const char *path, const char *script, const char *text);

#endif
