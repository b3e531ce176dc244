/* What the controller prints as JSON, an object a line. Numbers have up to 64 bits and a sign. */
#include "report_json.h"
#include "display.h"

#include <inttypes.h>
#include <stdio.h>
#include <string.h>

/* Printable ASCII as it is, and other bytes by their number: a name need not be text in any encoding. */
static void print_string(const char *text, size_t length)
{
    putchar('"');
    for (size_t i = 0; i < length; i++) {
        unsigned char byte = (unsigned char)text[i];
        if (byte == '"' || byte == '\\')
            printf("\\%c", byte);
        else if (byte < ' ' || byte > '~')
            printf("\\u%04x", byte);
        else
            putchar(byte);
    }
    putchar('"');
}

/* ---- Members ---- */

void begin_object(const char *what)
{
    fputs("{\"what\": ", stdout);
    print_string(what, strlen(what));
}

void end_object(void)
{
    puts("}");
    flush_output();
}

void put_count(const char *key, uint64_t number)
{
    printf(", \"%s\": %" PRIu64, key, number);
}

void put_string(const char *key, const char *text, size_t length)
{
    printf(", \"%s\": ", key);
    print_string(text, length);
}

void put_truth(const char *key, bool truth)
{
    printf(", \"%s\": %s", key, truth ? "true" : "false");
}

void put_checksum(const char *key, uint32_t checksum)
{
    printf(", \"%s\": \"%08" PRIx32 "\"", key, checksum);
}

void put_totals(const struct site *site)
{
    fputs(", \"totals\": ", stdout);
    print_value(stdout, &ARRAYS_OF_JSON, site->slots, site->heads, site->header.cells, site->slots[0],
                site->header.depth);
}

void put_answer(uint64_t answer)
{
    unsigned number = engine_answer_number(answer);
    const char *word = engine_word(number);
    put_count("number", number);
    put_string("word", word, strlen(word));
    if (number >= ENGINE_MALFORMED && number <= ENGINE_TOO_MANY_NAMES)
        put_count("node", engine_answer_node(answer));
    if (number == ENGINE_BAD_CODE)
        put_count("line", engine_answer_line(answer));
}

void put_names(const struct names *names)
{
    if (names->levels == 0)
        return;
    for (unsigned level = 0; level < names->levels; level++) {
        fputs(level == 0 ? ", \"names\": [[" : ", [", stdout);
        for (unsigned i = 0; i < names->level[level].count; i++) {
            fputs(i == 0 ? "" : ", ", stdout);
            print_string(names->level[level].words[i].start, names->level[level].words[i].length);
        }
        putchar(']');
    }
    putchar(']');
}

/* ---- A delivery ---- */

static void put_readings(const struct delivery *delivery)
{
    fputs(", \"readings\": [", stdout);
    for (size_t i = 0; i < delivery->count; i++)
        printf("%s%" PRId64, i == 0 ? "" : ", ", delivery->readings[i]);
    putchar(']');
    put_count("budget", delivery->budget);
}

/* Each number that changed: its positions from the outermost array inwards, its name, and what it was and is. */
static void put_changes(const struct names *names, struct comparison totals)
{
    struct change change;
    unsigned depth = totals.after->depth;
    const char *before = "";
    fputs(", \"changes\": [", stdout);
    while (next_change(&totals, &change)) {
        printf("%s{\"place\": [", before);
        for (unsigned level = 0; level < depth; level++)
            printf("%s%u", level == 0 ? "" : ", ", position_at(change.place, level, depth));
        putchar(']');
        if (names->levels > 0) {
            struct label label = label_of(names, change.place, 0, names->levels, depth);
            put_string("name", label.text, strlen(label.text));
        }
        printf(", \"before\": %" PRId64 ", \"after\": %" PRId64 "}", change.before, change.after);
        before = ", ";
    }
    putchar(']');
}

void print_delivery_object(const struct form *form, const struct site *site, const struct played *played)
{
    begin_object("delivery");
    put_count("delivery", played->number);
    put_readings(played->delivery);
    put_answer(played->answer);
    if (!engine_is_refusal(engine_answer_number(played->answer))) {
        put_count("steps", engine_answer_steps(played->answer));
        put_count("cells_taken", engine_answer_cells(played->answer));
        put_count("lowest", engine_answer_lowest(played->answer));
    }
    put_count("cells", site->header.cells);
    put_totals(site);
    put_changes(form->names, played->totals);
    end_object();
}

void print_day_object(const struct site *site, const struct day_result *day)
{
    begin_object("day");
    put_count("deliveries", day->count);
    put_count("done", day->done);
    put_count("stopped", day->stopped);
    put_count("refused", day->count - day->done - day->stopped);
    put_count("faulty_lines", day->faulty);
    put_truth("checked", day->is_checked);
    put_count("cells", site->header.cells);
    if (day->done + day->stopped > 0) {
        put_count("lowest", day->lowest);
        put_count("cells_needed", site->header.cells - day->lowest);
    }
    if (day->signal != 0)
        put_count("signal", (uint64_t)day->signal);
    end_object();
}
