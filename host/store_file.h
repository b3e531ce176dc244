/* A store in a file. All numbers have their low byte first:
 *
 *   bytes 0 to 7     the mark RUSSTORE
 *   bytes 8, 9       the version of this form, 2
 *   bytes 10, 11     the number of cells, S
 *   bytes 12, 13     main's depth
 *   bytes 14, 15     zero
 *   bytes 16 to 19   the checksum of the script file
 *   bytes 20 to 23   the checksum of the words
 *   bytes 24 to 31   how many deliveries the store has had
 *   bytes 32 to 35   the checksum of bytes 0 to 31
 *   then the words: 1 + 16 x S slots of 8 bytes, 1 + 4 x S heads of 4 bytes
 *
 * Version 1 has no number of deliveries; the checksum of bytes 0 to 23 stands in its place. It is read, as of a store
 * that has had none.
 *
 * A checksum is the CRC-32 of zip files and Ethernet, which notices every change of one bit, and of any 32 in a row. */
#ifndef STORE_FILE_H
#define STORE_FILE_H

#include "engine.h"
#include "text.h"

enum { STORE_HEADER_BYTES = 36, SLOT_BYTES = 8, HEAD_BYTES = 4 };
#define STORE_BYTES(cells) \
    (STORE_HEADER_BYTES + SLOT_BYTES * ENGINE_SLOTS_LENGTH(cells) + HEAD_BYTES * ENGINE_HEADS_LENGTH(cells))
#define STORE_BYTES_MAX STORE_BYTES(ENGINE_CELLS_MAX)

/* What a store file says of itself. */
struct store_header {
    size_t cells;
    unsigned depth;     /* of main */
    uint32_t script;    /* checksum of the script file */
    uint64_t deliveries;
};

/* How a store file was read: as it was saved; its words are there, but not as they were saved; it cannot be read. */
enum store_reading { STORE_WHOLE, STORE_DAMAGED, STORE_UNREADABLE };

struct store_fault {
    char text[160];
};

/* Whether bytes begin as a store file does. */
bool has_store_mark(const uint8_t *bytes, size_t length);

/* Whether bytes could be of a damaged store: at least half of those that stand in the mark's place are the mark's. */
bool resembles_store(const uint8_t *bytes, size_t length);

/* The bytes of a store; gives how many. */
size_t encode_store(uint8_t *bytes, const struct store_header *header, const int64_t *slots, const uint32_t *heads);

/* The store of some bytes, and what is wrong where it is not whole. */
enum store_reading decode_store(const uint8_t *bytes, size_t length, struct store_header *header, int64_t *slots,
                                uint32_t *heads, struct store_fault *fault);

#endif
