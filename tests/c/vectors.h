/* The test vectors: files of cases as plain text. */
#ifndef VECTORS_H
#define VECTORS_H

#include <stdbool.h>

/* Runs the cases of a file and prints how many there are and differ; false where one differs or there is none. */
bool run_vectors(const char *path);

#endif
