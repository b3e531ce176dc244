/* The totals in the picture of a day: a strip for each number that changed, with a line through what it was after each
 * delivery, in a scale of its own from its lowest to its highest, and what it is at the end. */
#include "plot_parts.h"

#include <inttypes.h>
#include <stdlib.h>

enum { STRIPS_MAX = 16, STRIP = 34, LINE = 22, HEADING = 34 };

/* A number of the totals over the day. */
struct strip {
    size_t first; /* of its changes */
    int64_t lowest;
    int64_t highest;
    int64_t last;
};

static int64_t least(int64_t one, int64_t other)
{
    return one < other ? one : other;
}

static int64_t most(int64_t one, int64_t other)
{
    return one > other ? one : other;
}

/* What a number was over the day, by its first change. */
static struct strip strip_of(const struct plot *plot, size_t first)
{
    int64_t start = plot->changes[first].change.before;
    struct strip strip = { first, start, start, start };
    for (size_t i = first; i < plot->changed; i++) {
        if (plot->changes[i].change.place != plot->changes[first].change.place)
            continue;
        strip.last = plot->changes[i].change.after;
        strip.lowest = least(strip.lowest, strip.last);
        strip.highest = most(strip.highest, strip.last);
    }
    return strip;
}

/* Finds the strips of the lowest places, as many as are shown, and gives how many numbers changed. */
static size_t find_strips(const struct plot *plot, struct strip *strips)
{
    static size_t firsts[PLACES]; /* the first change of each place, from 1; 0: there is none */
    size_t count = 0;
    for (size_t i = plot->changed; i-- > 0;)
        firsts[plot->changes[i].change.place] = i + 1;
    for (unsigned place = 0; place < PLACES; place++)
        if (firsts[place] > 0 && count++ < STRIPS_MAX)
            strips[count - 1] = strip_of(plot, firsts[place] - 1);
    return count;
}

unsigned height_of_totals(const struct plot *plot)
{
    struct strip strips[STRIPS_MAX];
    size_t count = find_strips(plot, strips);
    return HEADING + (count == 0 ? STRIP : STRIP * (unsigned)(count < STRIPS_MAX ? count : STRIPS_MAX))
           + (count > STRIPS_MAX ? STRIP : 0);
}

/* Where a number stands above the strip's lower end. A strip's numbers differ. */
static double up(const struct strip *strip, int64_t number)
{
    return LINE * ((double)number - (double)strip->lowest) / ((double)strip->highest - (double)strip->lowest);
}

static void put_line(FILE *out, const struct plot *plot, const struct strip *strip, double bottom)
{
    const struct plotted_change *changes = plot->changes;
    fprintf(out, "<path fill=\"none\" stroke=\"#06c\" stroke-width=\"2\" d=\"M%d %.1f", PLOT_LEFT,
            bottom - up(strip, changes[strip->first].change.before));
    for (size_t i = strip->first; i < plot->changed; i++)
        if (changes[i].change.place == changes[strip->first].change.place)
            fprintf(out, "H%.1fV%.1f", across(plot, changes[i].delivery), bottom - up(strip, changes[i].change.after));
    fprintf(out, "H%d\"/>\n", PLOT_RIGHT);
}

static void put_strip(FILE *out, const struct plot *plot, const struct strip *strip, const struct names *names,
                      unsigned top)
{
    const struct change *first = &plot->changes[strip->first].change;
    double bottom = top + (STRIP + LINE) / 2.0;
    fprintf(out, "<rect x=\"%d\" y=\"%u\" width=\"%d\" height=\"%d\" fill=\"#f2f5f9\"/>", PLOT_LEFT, top + 3,
            PLOT_RIGHT - PLOT_LEFT, STRIP - 6);
    fprintf(out, "<text x=\"%d\" y=\"%u\" text-anchor=\"end\">", PLOT_LEFT - 10, top + STRIP / 2 + 5);
    put_text(out, label_of(names, first->place, 0, plot->depth == 0 ? 1 : plot->depth, plot->depth).text);
    fprintf(out, "</text><text x=\"%d\" y=\"%u\">%" PRId64 "</text>\n", PLOT_RIGHT + 10, top + STRIP / 2 + 5,
            strip->last);
    put_line(out, plot, strip, bottom);
}

void put_totals_part(FILE *out, const struct plot *plot, const struct names *names, unsigned top)
{
    struct strip strips[STRIPS_MAX];
    size_t count = find_strips(plot, strips), shown = count < STRIPS_MAX ? count : STRIPS_MAX;
    fprintf(out,
            "<text x=\"%d\" y=\"%u\" font-size=\"16\" font-weight=\"bold\">Totals that changed</text>"
            "<text x=\"%d\" y=\"%u\" fill=\"#555\" text-anchor=\"end\">each in a scale of its own;"
            " at the right, its end</text>\n",
            PLOT_LEFT, top + 16, PLOT_RIGHT, top + 16);
    for (size_t i = 0; i < shown; i++)
        put_strip(out, plot, &strips[i], names, top + HEADING - 6 + STRIP * (unsigned)i);
    if (count == 0)
        fprintf(out, "<text x=\"%d\" y=\"%u\" fill=\"#555\">none</text>\n", PLOT_LEFT, top + HEADING + STRIP / 2);
    if (count > STRIPS_MAX)
        fprintf(out, "<text x=\"%d\" y=\"%u\" fill=\"#555\">and %zu more</text>\n", PLOT_LEFT,
                top + HEADING + STRIP * STRIPS_MAX + STRIP / 2, count - STRIPS_MAX);
}
