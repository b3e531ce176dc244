/* Saved totals in a file: the bytes that engine_save gives, and nothing else. The engine decides whether they have
 * their form; this says where they have not. */
#ifndef TOTALS_FILE_H
#define TOTALS_FILE_H

#include "engine.h"
#include "message.h"

/* Room for saved totals, and one byte more, so that a longer file is seen to be longer. */
enum { TOTALS_BYTES = 1 << 16 };

struct totals_fault {
    char text[240];
};

/* Reads the file of saved totals, and gives its length. Fails where it cannot be read, or is a store or a text. */
size_t read_totals(const char *path, uint8_t bytes[TOTALS_BYTES]);

/* Why the engine did not restore saved totals for a main of this depth in so many cells, and what to do. */
struct totals_fault explain_restore(uint64_t answer, const uint8_t *bytes, size_t length, unsigned depth, size_t cells);

#endif
