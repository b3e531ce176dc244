/* A picture of a day: the totals that changed, the cells taken after each delivery, and the most taken at once. */
#ifndef PLOT_H
#define PLOT_H

#include "names.h"
#include "totals.h"

/* A number of the totals that a delivery changed. */
struct plotted_change {
    size_t delivery; /* of the day, from 1 */
    struct change change;
};

/* The answers of a day's deliveries, in order, and what they changed. */
struct plot {
    size_t cells;         /* of the store */
    unsigned opened;      /* cells taken before the first delivery */
    uint64_t before;      /* deliveries that the store had before the day */
    unsigned depth;       /* of the totals */
    uint64_t *answers;
    size_t count;
    size_t capacity;
    struct plotted_change *changes;
    size_t changed;
    size_t changed_capacity;
};

/* Begins a day with an opened store. */
void begin_plot(struct plot *plot, size_t cells, unsigned opened, uint64_t before, unsigned depth);

/* Notes the answer of the next delivery, and what it changed. */
void plot_delivery(struct plot *plot, uint64_t answer, struct comparison totals);

/* Writes the picture, an SVG file that needs nothing else. Fails where it cannot be written. */
void write_plot(const struct plot *plot, const char *path, const char *script, const char *day,
                const struct names *names);

void free_plot(struct plot *plot);

#endif
