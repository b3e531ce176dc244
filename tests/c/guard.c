/* Memory with a guard page after it. */
#define _DEFAULT_SOURCE
#include "guard.h"

#include <stdio.h>
#include <stdlib.h>
#include <sys/mman.h>
#include <unistd.h>

struct guarded guard(size_t capacity)
{
    size_t page = (size_t)sysconf(_SC_PAGESIZE);
    size_t rounded = (capacity + page - 1) / page * page;
    unsigned char *pages = mmap(NULL, rounded + page, PROT_READ | PROT_WRITE, MAP_PRIVATE | MAP_ANONYMOUS, -1, 0);
    if (pages == MAP_FAILED || mprotect(pages + rounded, page, PROT_NONE) != 0) {
        perror("guard pages");
        exit(2);
    }
    return (struct guarded){ pages, rounded };
}

void *last_bytes(struct guarded guarded, size_t length)
{
    if (length > guarded.capacity) {
        fprintf(stderr, "a guarded array of %zu bytes is too long\n", length);
        exit(2);
    }
    return guarded.pages + guarded.capacity - length;
}
