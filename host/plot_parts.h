/* What the parts of a day's picture share. */
#ifndef PLOT_PARTS_H
#define PLOT_PARTS_H

#include "plot.h"

#include <stdio.h>

/* Sizes in the picture's units: both parts have the deliveries in the same columns. */
enum { PLOT_WIDTH = 1040, PLOT_LEFT = 220, PLOT_RIGHT = 860 };

/* Where a delivery of the day stands, from 0 for the opening. */
double across(const struct plot *plot, size_t delivery);

/* Text that may have any bytes. */
void put_text(FILE *out, const char *text);

/* The part of the totals that changed, from the top of the picture's part down, and how high it is. */
unsigned height_of_totals(const struct plot *plot);
void put_totals_part(FILE *out, const struct plot *plot, const struct names *names, unsigned top);

#endif
