/* The count of the tests. */
#include "expect.h"

#include <stdio.h>

unsigned passed, failed;

void expect(bool holds, const char *what)
{
    if (holds) {
        passed++;
    } else {
        failed++;
        printf("  failed: %s\n", what);
    }
}

uint64_t answer(unsigned number, unsigned node, uint32_t count, unsigned cells)
{
    return number + ((uint64_t)node << 8) + ((uint64_t)count << 24) + ((uint64_t)cells << 48);
}
