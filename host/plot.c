/* A picture of a day as an SVG file: the totals that changed, and below them a line through the cells taken after each
 * delivery, and one through the most cells that each took at once, below a line for all the store's cells, with a mark
 * for each delivery that was done, stopped or refused. The lowest level of a delivery is what lies between the second
 * line and that for all cells. */
#define _POSIX_C_SOURCE 200809L /* open_memstream */
#include "plot.h"
#include "place.h"
#include "plot_parts.h"

#include <inttypes.h>
#include <stdio.h>
#include <stdlib.h>
#include <string.h>

/* Sizes in the picture's units; those of the part of the cells from its own top. */
enum {
    WIDTH = PLOT_WIDTH,
    HEAD = 76,        /* of the picture */
    HEIGHT = 460,     /* of the part of the cells */
    LEFT = PLOT_LEFT,
    RIGHT = PLOT_RIGHT,
    TOP = 30,
    BOTTOM = 340,
    MARKS_MAX = 120,  /* deliveries that are marked though they were done; more would run into each other */
    LABEL_WIDTH = 18, /* of the number that a stop or refusal is labelled with */
    TICKS_WIDE = 20,  /* most ticks below */
    TICKS_HIGH = 8    /* most ticks on the left */
};

static const char MOST_COLOUR[] = "#390"; /* of the line of the most cells taken at once */

void begin_plot(struct plot *plot, size_t cells, unsigned opened, uint64_t before, unsigned depth)
{
    *plot = (struct plot){ .cells = cells, .opened = opened, .before = before, .depth = depth };
}

/* A list with room for one more of this size. */
static void *with_room(void *list, size_t count, size_t *capacity, size_t size)
{
    if (count < *capacity)
        return list;
    *capacity = *capacity == 0 ? 256 : 2 * *capacity;
    list = realloc(list, *capacity * size);
    if (list == NULL)
        fail(STATUS_UNUSABLE, "no memory for the picture of so long a day; leave --plot out");
    return list;
}

void plot_delivery(struct plot *plot, uint64_t answer, struct comparison totals)
{
    struct change change;
    plot->answers = with_room(plot->answers, plot->count, &plot->capacity, sizeof *plot->answers);
    plot->answers[plot->count++] = answer;
    while (next_change(&totals, &change)) {
        plot->changes = with_room(plot->changes, plot->changed, &plot->changed_capacity, sizeof *plot->changes);
        plot->changes[plot->changed++] = (struct plotted_change){ plot->count, change };
    }
}

void free_plot(struct plot *plot)
{
    free(plot->answers);
    free(plot->changes);
}

/* ---- Where things stand ---- */

double across(const struct plot *plot, size_t delivery)
{
    return LEFT + (double)(RIGHT - LEFT) * (double)delivery / (plot->count == 0 ? 1 : (double)plot->count);
}

/* Of so many cells; the line for all cells is a little below the top. */
static double up(const struct plot *plot, unsigned cells)
{
    return BOTTOM - 0.92 * (BOTTOM - TOP) * (double)cells / (double)plot->cells;
}

/* The least of 1, 2, 5, 10, 20, .. that divides a range into at most so many steps. */
static size_t tick(size_t range, size_t most)
{
    size_t power = 1;
    for (;; power *= 10)
        for (size_t i = 0; i < 3; i++)
            if (range <= most * power * (size_t[]){ 1, 2, 5 }[i])
                return power * (size_t[]){ 1, 2, 5 }[i];
}

static bool is_refused(uint64_t answer)
{
    return engine_is_refusal(engine_answer_number(answer));
}

/* The cells taken after a delivery, given those before: a refusal carries no count, and changes nothing. */
static unsigned cells_after(uint64_t answer, unsigned before)
{
    return is_refused(answer) ? before : engine_answer_cells(answer);
}

/* The most cells that were taken at once in a delivery that was not refused. */
static unsigned most_taken(const struct plot *plot, uint64_t answer)
{
    unsigned lowest = engine_answer_lowest(answer);
    return lowest < plot->cells ? (unsigned)plot->cells - lowest : 0;
}

/* ---- Parts of the picture ---- */

void put_text(FILE *out, const char *text)
{
    for (; *text != '\0'; text++) {
        unsigned char byte = (unsigned char)*text;
        if (byte == '<' || byte == '&' || byte == '>' || byte < ' ' || byte > '~')
            fprintf(out, "&#%u;", byte < ' ' || byte > '~' ? '?' : byte);
        else
            fputc(byte, out);
    }
}

static void put_head(FILE *out, const struct plot *plot, const char *script, const char *day, unsigned height)
{
    fprintf(out,
            "<svg xmlns=\"http://www.w3.org/2000/svg\" viewBox=\"0 0 %d %u\" width=\"%d\" height=\"%u\""
            " font-family=\"sans-serif\" font-size=\"14\">\n"
            "<rect width=\"%d\" height=\"%u\" fill=\"white\"/>\n"
            "<text x=\"20\" y=\"32\" font-size=\"20\" font-weight=\"bold\">A day's totals and cells</text>\n"
            "<text x=\"20\" y=\"56\" fill=\"#555\">script ",
            WIDTH, height, WIDTH, height, WIDTH, height);
    put_text(out, script);
    fputs(", day ", out);
    put_text(out, strcmp(day, "-") == 0 ? "from standard input" : day);
    fprintf(out, ", %zu deliveries, a store of %zu cells</text>\n", plot->count, plot->cells);
}

static void put_axes(FILE *out, const struct plot *plot)
{
    size_t wide = tick(plot->count, TICKS_WIDE), high = tick(plot->cells, TICKS_HIGH);
    for (size_t cells = 0; cells <= plot->cells; cells += high) {
        double y = up(plot, (unsigned)cells);
        fprintf(out, "<path d=\"M%d %.1fH%d\" stroke=\"#ddd\"/>", LEFT, y, RIGHT);
        fprintf(out, "<text x=\"%d\" y=\"%.1f\" text-anchor=\"end\">%zu</text>\n", LEFT - 10, y + 5, cells);
    }
    for (size_t delivery = 0; delivery <= plot->count; delivery += wide) {
        double x = across(plot, delivery);
        fprintf(out, "<path d=\"M%.1f %dv6\" stroke=\"black\"/>", x, BOTTOM);
        fprintf(out, "<text x=\"%.1f\" y=\"%d\" text-anchor=\"middle\">%" PRIu64 "</text>\n", x, BOTTOM + 22,
                plot->before + delivery);
    }
    fprintf(out, "<path d=\"M%d %dV%dH%d\" fill=\"none\" stroke=\"black\"/>\n", LEFT, TOP, BOTTOM, RIGHT);
    fprintf(out, "<text x=\"%d\" y=\"%d\" text-anchor=\"middle\">delivery (%" PRIu64 ": before the first)</text>\n",
            (LEFT + RIGHT) / 2, BOTTOM + 46, plot->before);
    fprintf(out, "<text transform=\"translate(170 %d) rotate(-90)\" text-anchor=\"middle\">cells taken</text>\n",
            (TOP + BOTTOM) / 2);
    double full = up(plot, (unsigned)plot->cells);
    fprintf(out,
            "<path d=\"M%d %.1fH%d\" stroke=\"#c00\" stroke-width=\"1.5\" stroke-dasharray=\"8 4\"/>"
            "<text x=\"%d\" y=\"%.1f\" text-anchor=\"end\" fill=\"#c00\">"
            "all %zu cells taken: the store is full</text>\n",
            LEFT, full, RIGHT, RIGHT, full - 7, plot->cells);
}

static void put_level(FILE *out, const struct plot *plot)
{
    unsigned cells = plot->opened;
    fprintf(out, "<path fill=\"none\" stroke=\"#06c\" stroke-width=\"2\" d=\"M%.1f %.1f", across(plot, 0),
            up(plot, cells));
    for (size_t i = 0; i < plot->count; i++) {
        cells = cells_after(plot->answers[i], cells);
        fprintf(out, "%sL%.1f %.1f", i % 8 == 7 ? "\n" : "", across(plot, i + 1), up(plot, cells));
    }
    fputs("\"/>\n", out);
}

/* The line of the most cells taken at once. It passes over refusals, and is a dot where one delivery alone was not. */
static void put_most(FILE *out, const struct plot *plot)
{
    size_t count = 0;
    fprintf(out, "<path fill=\"none\" stroke=\"%s\" stroke-width=\"2\" stroke-linecap=\"round\" d=\"", MOST_COLOUR);
    for (size_t i = 0; i < plot->count; i++) {
        uint64_t answer = plot->answers[i];
        if (is_refused(answer))
            continue;
        double x = across(plot, i + 1), y = up(plot, most_taken(plot, answer));
        if (count == 0)
            fprintf(out, "M%.1f %.1fh0", x, y);
        else
            fprintf(out, "%sL%.1f %.1f", count % 8 == 7 ? "\n" : "", x, y);
        count++;
    }
    fputs("\"/>\n", out);
}

/* A mark by its kind: a dot for done, a cross for a stop, an open diamond for a refusal. */
static void put_mark(FILE *out, unsigned number, double x, double y)
{
    if (engine_is_stop(number))
        fprintf(out, "<path d=\"M%.1f %.1fl10 10m0 -10l-10 10\" stroke=\"#c00\" stroke-width=\"3\">", x - 5, y - 5);
    else if (engine_is_refusal(number))
        fprintf(out, "<path d=\"M%.1f %.1fl7 7l-7 7l-7 -7z\" fill=\"white\" stroke=\"#c60\" stroke-width=\"2\">", x,
                y - 7);
    else
        fprintf(out, "<path d=\"M%.1f %.1fm-4 0a4 4 0 1 0 8 0a4 4 0 1 0 -8 0\" fill=\"#06c\">", x, y);
}

/* The number above a stop and the line of the most cells, or above a refusal, where the last one leaves room. */
static void put_label(FILE *out, unsigned number, double x, double y, double *last)
{
    bool is_stop = engine_is_stop(number);
    if (x - last[is_stop] < LABEL_WIDTH)
        return;
    last[is_stop] = x;
    fprintf(out, "<text x=\"%.1f\" y=\"%.1f\" font-size=\"12\" text-anchor=\"middle\" fill=\"%s\">%u</text>\n", x,
            y - (is_stop ? 8 : 26), is_stop ? "#c00" : "#c60", number);
}

/* What a browser shows for the mark of a delivery, after which so many cells are taken; it ends the mark. */
static void put_title(FILE *out, const struct plot *plot, size_t i, unsigned cells)
{
    uint64_t answer = plot->answers[i];
    unsigned number = engine_answer_number(answer);
    fprintf(out, "<title>delivery %" PRIu64 ": %u %s, %" PRIu32 " steps, %u of %zu cells",
            plot->before + i + 1, number, engine_word(number), engine_answer_steps(answer), cells, plot->cells);
    if (!is_refused(answer))
        fprintf(out, ", lowest %u free", engine_answer_lowest(answer));
    fputs("</title></path>\n", out);
}

static void put_marks(FILE *out, const struct plot *plot)
{
    unsigned cells = plot->opened;
    double last[2] = { 0, 0 }; /* where labels of refusals and of stops stand */
    for (size_t i = 0; i < plot->count; i++) {
        unsigned number = engine_answer_number(plot->answers[i]);
        cells = cells_after(plot->answers[i], cells);
        double x = across(plot, i + 1), y = up(plot, cells);
        if (number == ENGINE_DONE && plot->count > MARKS_MAX)
            continue;
        put_mark(out, number, x, y);
        put_title(out, plot, i, cells);
        if (number != ENGINE_DONE)
            put_label(out, number, x, engine_is_stop(number) ? up(plot, most_taken(plot, plot->answers[i])) : y, last);
    }
}

/* One entry of the row below the picture. */
static void put_entry(FILE *out, unsigned number, int x, const char *label, size_t count)
{
    enum { ROW = HEIGHT - 44 };
    put_mark(out, number, x, ROW - 5);
    fprintf(out, "</path><text x=\"%d\" y=\"%d\">%s: %zu</text>\n", x + 14, ROW, label, count);
}

/* The entry of the line of the most cells taken at once, with the day's lowest level. */
static void put_most_entry(FILE *out, const struct plot *plot)
{
    enum { ROW = HEIGHT - 44, X = 560 };
    size_t lowest = plot->cells + 1; /* more than any delivery has */
    for (size_t i = 0; i < plot->count; i++)
        if (!is_refused(plot->answers[i]) && engine_answer_lowest(plot->answers[i]) < lowest)
            lowest = engine_answer_lowest(plot->answers[i]);
    fprintf(out,
            "<path d=\"M%d %dh20\" stroke=\"%s\" stroke-width=\"2\"/>"
            "<text x=\"%d\" y=\"%d\">most taken at once in a delivery",
            X, ROW - 5, MOST_COLOUR, X + 28, ROW);
    if (lowest <= plot->cells)
        fprintf(out, "; lowest: %zu free", lowest);
    fputs("</text>\n", out);
}

static void put_legend(FILE *out, const struct plot *plot)
{
    size_t counts[256] = { 0 }, stops = 0, refusals = 0;
    for (size_t i = 0; i < plot->count; i++)
        counts[engine_answer_number(plot->answers[i])]++;
    for (unsigned number = 0; number < 256; number++) {
        stops += engine_is_stop(number) ? counts[number] : 0;
        refusals += engine_is_refusal(number) ? counts[number] : 0;
    }
    put_entry(out, ENGINE_DONE, 30, "done", counts[ENGINE_DONE]);
    put_entry(out, ENGINE_OUT_OF_STEPS, 150, "stopped and undone", stops);
    put_entry(out, ENGINE_BAD_REQUEST, 390, "refused", refusals);
    put_most_entry(out, plot);
    fprintf(out, "<text x=\"24\" y=\"%d\" fill=\"#555\">", HEIGHT - 16);
    const char *before = "";
    for (unsigned number = ENGINE_TRUNCATED; number < 256; number++) {
        if (counts[number] > 0) {
            fprintf(out, "%s%u %s: %zu", before, number, engine_word(number), counts[number]);
            before = ", ";
        }
    }
    fputs("</text>\n", out);
}

/* The part of the cells. */
static void put_cells_part(FILE *out, const struct plot *plot, unsigned top)
{
    fprintf(out, "<g transform=\"translate(0 %u)\">\n<text x=\"%d\" y=\"16\" font-size=\"16\" font-weight=\"bold\">"
            "Cells taken after each delivery</text>\n", top, LEFT);
    put_axes(out, plot);
    put_most(out, plot);
    put_level(out, plot);
    put_marks(out, plot);
    put_legend(out, plot);
    fputs("</g>\n", out);
}

void write_plot(const struct plot *plot, const char *path, const char *script, const char *day,
                const struct names *names)
{
    char *picture = NULL;
    size_t length = 0;
    unsigned totals = height_of_totals(plot);
    FILE *out = open_memstream(&picture, &length);
    if (out == NULL)
        fail(STATUS_UNWRITTEN, "%s: no memory for the picture; leave --plot out", path);
    put_head(out, plot, script, day, HEAD + totals + HEIGHT);
    put_totals_part(out, plot, names, HEAD);
    put_cells_part(out, plot, HEAD + totals);
    fputs("</svg>\n", out);
    if (fclose(out) != 0)
        fail(STATUS_UNWRITTEN, "%s: no memory for the picture; leave --plot out", path);
    write_whole(path, picture, length);
    free(picture);
}
