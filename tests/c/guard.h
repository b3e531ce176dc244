/* Arrays that end where memory ends: a read or write past the last element, by anyone, ends the program. */
#ifndef GUARD_H
#define GUARD_H

#include <stddef.h>

/* Memory whose last byte is followed by a page that may not be touched. */
struct guarded {
    unsigned char *pages;
    size_t capacity;
};

/* Room for arrays of up to this many bytes. */
struct guarded guard(size_t capacity);

/* Room for `length` bytes that ends at the guard page. Of a length that is a multiple of 8 it is aligned. */
void *last_bytes(struct guarded guarded, size_t length);

#endif
