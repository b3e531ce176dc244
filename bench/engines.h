/* The libraries that are measured, each as a table of its calls. */
#ifndef ENGINES_H
#define ENGINES_H

#include "engine.h"

struct engine {
    const char *mark; /* what the names of its values begin with */
    uint64_t (*translate)(const uint8_t *, size_t, uint8_t *, size_t, int64_t *, size_t);
    uint64_t (*open)(const uint8_t *, size_t, uint8_t *, size_t, int64_t *, size_t, int64_t *, size_t, uint32_t *,
                     size_t);
    uint64_t (*check)(const uint8_t *, size_t, uint8_t *, size_t, int64_t *, size_t, const int64_t *, size_t,
                      const uint32_t *, size_t);
    uint64_t (*deliver)(const uint8_t *, size_t, uint8_t *, size_t, int64_t *, size_t, int64_t *, size_t, uint32_t *,
                        size_t, const int64_t *, size_t, uint64_t);
    uint64_t (*save)(const uint8_t *, size_t, uint8_t *, size_t, int64_t *, size_t, const int64_t *, size_t,
                     const uint32_t *, size_t, uint8_t *, size_t); /* null, as restore, in a base from before order 4 */
    uint64_t (*restore)(const uint8_t *, size_t, uint8_t *, size_t, int64_t *, size_t, int64_t *, size_t, uint32_t *,
                        size_t, const uint8_t *, size_t);
    uint64_t (*check_code)(const uint8_t *, size_t, const int64_t *, size_t, uint64_t); /* null, as the next, before
                                                                                           order 10 */
    uint64_t (*deliver_code)(const uint8_t *, size_t, const int64_t *, size_t, uint64_t, int64_t *, size_t, uint32_t *,
                             size_t, const int64_t *, size_t, uint64_t);
};

/* This library, and where the program was compiled with WITH_BASE the base, whose symbols begin with base_. */
#ifdef WITH_BASE
enum { ENGINES = 2 };
#else
enum { ENGINES = 1 };
#endif
extern const struct engine engines[ENGINES];

#endif
