/* A small pump controller: it opens a store for a script, with saved totals if there are any, or goes on with one that
 * was kept, works a day's deliveries on it, by tuned code if that is given, and prints for each what the service
 * display would show. A delivery is saved before it is shown. At the end the totals can be saved for another
 * controller. */
#include "input.h"
#include "options.h"
#include "plot.h"
#include "report.h"
#include "show.h"
#include "totals_file.h"

#include <stdlib.h>
#include <string.h>

enum { DAY_BYTES_MAX = 1 << 22 };

/* A day that is being played. */
struct day {
    struct site *site;
    const struct options *options;
    struct form form;
    struct day_result result;
    unsigned now; /* which of the totals are those after the last delivery */
    struct plot plot;
};

/* Static, as on a controller: the site is about 180 KB. */
static struct site site;
static uint8_t day_bytes[DAY_BYTES_MAX];
static uint8_t totals_bytes[TOTALS_BYTES];
static struct totals totals[2]; /* before and after a delivery, in turn */
static struct names names;

static const char CHECK_ADVICE[] = "'script_tool check' says of its text what is wrong there";
static const char CODE_ADVICE[] = "'script_tool tune' says of its text what is wrong there, and makes it anew";
static const char ENTRIES_ADVICE[] = "the totals have over 4,096 entries; play a script that keeps fewer";
static const char STORE_ADVICE[] = "--show says where; put a copy of the store back, or restore saved totals";

/* ---- The store ---- */

/* Saves the store, or ends the program: what was shown before is in the file. */
static void save(const struct day *day)
{
    struct place_fault fault;
    if (save_store(day->site, &fault))
        return;
    if (day->result.count == 0)
        fail(STATUS_UNWRITTEN, "%s: %s; nothing was played; %s", day->options->store, fault.what, fault.advice);
    fail(STATUS_UNWRITTEN, "%s: %s; the day ends, and delivery %llu is not shown as done; %s", day->options->store,
         fault.what, (unsigned long long)day->site->header.deliveries, fault.advice);
}

static void check_after(const struct day *day)
{
    if (!day->options->checks)
        return;
    uint64_t answer = engine_check_lent(&day->site->lent);
    if (engine_answer_number(answer) != ENGINE_DONE)
        report_refusal(&day->form, "check", answer, STORE_ADVICE);
}

/* The store that was kept, if there is one. One whose totals are only to be saved must be there. */
static enum taking take(struct site *s, const struct options *options)
{
    bool is_restored = options->restored != NULL;
    const struct wanted wanted = { options->store, is_restored ? 0 : options->cells, options->takes_another_scripts,
                                   is_restored, options->keeps_previous };
    enum taking taking = options->store == NULL ? STORE_ABSENT : take_store(s, &wanted);
    if (taking == STORE_ABSENT && options->day == NULL && !is_restored)
        fail(STATUS_UNUSABLE, "%s: there is no store; nothing was saved; name the store's file", options->store);
    if (taking == STORE_ABSENT || s->header.cells == 0)
        lend_cells(s, options->cells == 0 ? DEFAULT_CELLS : options->cells);
    return taking;
}

/* Goes on with the store that was kept, which must be sound, or opens one. */
static enum taking take_or_open(struct day *day, uint64_t *answer)
{
    struct site *s = day->site;
    enum taking taking = take(s, day->options);
    *answer = taking == STORE_TAKEN ? engine_check_lent(&s->lent) : engine_open_lent(&s->lent);
    unsigned number = engine_answer_number(*answer);
    if (number == ENGINE_DONE)
        return taking;
    if (number != ENGINE_UNSOUND_STORE || taking != STORE_TAKEN || day->options->restored == NULL)
        report_refusal(&day->form, "store", *answer, STORE_ADVICE);
    mark_damaged(s, "it is not sound (11 bad tank)");
    return STORE_TO_REPLACE;
}

/* ---- Totals that move ---- */

/* Reads saved totals, and fails where they are not those that are expected. */
static size_t read_expected(const struct options *options, uint32_t *checksum)
{
    size_t length = read_totals(options->restored, totals_bytes);
    *checksum = checksum_of(totals_bytes, length);
    if (options->has_expected && *checksum != options->expected)
        fail(STATUS_UNUSABLE, "%s: its check value is %08lx, and --expect says %08lx; copy the file again",
             options->restored, (unsigned long)*checksum, (unsigned long)options->expected);
    return length;
}

/* Opens the store with saved totals. Where it is refused, the store's file is as it was. */
static uint64_t restore(struct day *day, size_t length)
{
    struct site *s = day->site;
    if (day->options->cells != 0)
        lend_cells(s, day->options->cells);
    uint64_t answer = engine_restore_lent(&s->lent, totals_bytes, length);
    if (engine_answer_number(answer) != ENGINE_DONE) {
        struct totals_fault fault = explain_restore(answer, totals_bytes, length, s->header.depth, s->header.cells);
        report_refusal(&day->form, "restore", answer, fault.text);
    }
    s->header.deliveries = 0; /* a new store's */
    return answer;
}

/* Saves the totals in their file, of which the old one or the new one is there. */
static void save_totals(const struct day *day, const char *path)
{
    uint64_t answer = engine_save_lent(&day->site->lent, totals_bytes, ENGINE_SAVED_LENGTH_MAX);
    unsigned number = engine_answer_number(answer);
    if (number != ENGINE_DONE)
        report_refusal(&day->form, "save", answer, number == ENGINE_BAD_LABEL ? ENTRIES_ADVICE : STORE_ADVICE);
    size_t length = engine_saved_length(totals_bytes, ENGINE_SAVED_LENGTH_MAX);
    uint32_t checksum = checksum_of(totals_bytes, length);
    write_whole(path, totals_bytes, length);
    report_store(&day->form, day->site, "saved", answer, &checksum);
}

/* ---- A day ---- */

/* Takes or opens the store. The first save tries its place before anything is played; a store whose totals are only to
 * be saved stays as it is. A store that is replaced is shown before. */
static void begin(struct day *day)
{
    const struct options *options = day->options;
    bool is_restored = options->restored != NULL;
    uint32_t checksum = 0;
    uint64_t answer;
    size_t length = is_restored ? read_expected(options, &checksum) : 0;
    enum taking taking = take_or_open(day, &answer);
    if (is_restored && taking == STORE_TAKEN)
        report_store(&day->form, day->site, "checked", answer, NULL);
    if (is_restored)
        answer = restore(day, length);
    if (is_restored || options->day != NULL)
        save(day);
    report_store(&day->form, day->site, is_restored ? "restored" : taking == STORE_TAKEN ? "checked" : "opened", answer,
                 is_restored ? &checksum : NULL);
    check_after(day);
    gather_totals(&totals[day->now], &day->site->lent, day->site->header.depth);
    begin_plot(&day->plot, day->site->header.cells, engine_answer_cells(answer), day->site->header.deliveries,
               day->site->header.depth);
}

/* Counts a delivery in the day's last line. */
static void count_delivery(struct day_result *result, uint64_t answer)
{
    unsigned number = engine_answer_number(answer), lowest = engine_answer_lowest(answer);
    if (engine_is_refusal(number))
        return;
    if (result->done + result->stopped == 0 || lowest < result->lowest)
        result->lowest = lowest;
    result->done += number == ENGINE_DONE;
    result->stopped += number != ENGINE_DONE;
}

/* The totals as they are now, and as they were, where somebody wants to know. */
static struct comparison compare(struct day *day)
{
    struct totals *before = &totals[day->now], *after = &totals[1 - day->now];
    if (!needs_totals(&day->form) && day->options->plot == NULL)
        return (struct comparison){ before, before, 0, 0 };
    gather_totals(after, &day->site->lent, day->site->header.depth);
    day->now = 1 - day->now;
    return (struct comparison){ before, after, 0, 0 };
}

static void play_delivery(struct day *day, const struct delivery *delivery)
{
    struct site *s = day->site;
    uint64_t answer = deliver(s, delivery->readings, delivery->count, delivery->budget);
    day->result.count++;
    s->header.deliveries++;
    if (engine_answer_number(answer) != ENGINE_UNSOUND_STORE)
        save(day); /* before its line is printed */
    struct played played = { s->header.deliveries, delivery, answer, compare(day) };
    report_delivery(&day->form, s, &played);
    if (engine_answer_number(answer) == ENGINE_UNSOUND_STORE)
        report_refusal(&day->form, "store", answer, STORE_ADVICE);
    check_after(day);
    count_delivery(&day->result, answer);
    if (day->options->plot != NULL)
        plot_delivery(&day->plot, answer, played.totals);
}

static void play_line(struct day *day, struct text *text)
{
    struct delivery delivery;
    switch (delivery_of(text, day->options->budget, &delivery)) {
    case LINE_EMPTY: break;
    case LINE_DELIVERY: play_delivery(day, &delivery); break;
    case LINE_FAULTY: day->result.faulty++; break;
    }
}

/* A day that was judged before. */
static void play_text(struct day *day, struct text text)
{
    while (signal_that_came() == 0 && next_line(&text))
        play_line(day, &text);
}

/* A line that may be cut off: what is left of a number is another number. */
static void name_cut_line(struct day *day, struct text text)
{
    struct word word;
    if (!next_word(&text, &word))
        return;
    complain_at(text.path, text.line, "the last line has no line end, so it may be cut off, and is not played; "
                "look what is missing, and send it whole");
    day->result.faulty++;
}

/* A faulty line is not played; the next one may be. */
static void play_standard_input(struct day *day)
{
    struct input_line line;
    for (unsigned number = 1; next_input_line(&line); number++) {
        struct text text = text_of("-", line.bytes, line.length);
        text.line = number;
        if (line.has_end)
            play_line(day, &text);
        else
            name_cut_line(day, text);
    }
}

/* The day's text, judged whole, where it is a file. */
static struct text day_of(const char *path)
{
    size_t length = read_whole(path, day_bytes, sizeof day_bytes);
    if (memchr(day_bytes, 0, length) != NULL)
        fail(STATUS_UNUSABLE, "%s: a script file or other data, where the text of a day is wanted; name a day's text",
             path);
    struct text text = text_of(path, day_bytes, length);
    unsigned faulty = judge_day(text);
    if (faulty > 0)
        fail(STATUS_UNUSABLE, "%s: %u faulty line%s; nothing was played; mend %s and play the day again", path, faulty,
             faulty == 1 ? "" : "s", faulty == 1 ? "it" : "them");
    return text;
}

/* Files are looked at, and places tried, before anything is done. */
static void play(struct day *day)
{
    const char *path = day->options->day;
    bool is_file = path != NULL && strcmp(path, "-") != 0;
    struct text text = is_file ? day_of(path) : text_of("-", day_bytes, 0);
    hold_signals();
    if (day->options->plot != NULL)
        try_whole(day->options->plot);
    if (day->options->saved != NULL)
        try_whole(day->options->saved);
    begin(day);
    if (is_file)
        play_text(day, text);
    else if (path != NULL)
        play_standard_input(day);
    day->result.signal = path != NULL ? signal_that_came() : 0;
    if (path != NULL)
        report_day(&day->form, day->site, &day->result);
    if (day->options->saved != NULL)
        save_totals(day, day->options->saved);
    if (day->options->plot != NULL)
        write_plot(&day->plot, day->options->plot, day->options->script, day->options->day, &names);
}

static int status_of(const struct day_result *result)
{
    if (result->signal != 0)
        return 128 + result->signal;
    if (result->faulty > 0)
        return STATUS_UNUSABLE;
    return result->count > 0 && result->done + result->stopped == 0 ? STATUS_REFUSED : 0;
}

/* Takes the script, and tuned code for it if that is given. */
static void take_program(struct day *day)
{
    const struct options *options = day->options;
    uint64_t answer = take_script(&site, options->script);
    uint32_t lines = engine_answer_lines(answer);
    if (engine_answer_number(answer) != ENGINE_DONE)
        report_refusal(&day->form, "script", answer, CHECK_ADVICE);
    if (options->code != NULL)
        answer = take_code(&site, options->code, lines);
    if (engine_answer_number(answer) != ENGINE_DONE)
        report_refusal(&day->form, "code", answer, CODE_ADVICE);
    if (options->names != NULL)
        read_names(&names, options->names, site.header.depth);
    report_script(&day->form, &site, lines);
    if (options->code != NULL)
        report_code(&day->form, &site);
}

int main(int count, char **arguments)
{
    prepare_streams();
    struct options options = options_of(count, arguments);
    struct form form = { options.is_json, options.shows_changes, &names };
    if (options.shown != NULL)
        return show_store(&form, options.shown, options.script, options.names);
    struct day day = { .site = &site, .options = &options, .form = form };
    day.result.is_checked = options.checks;
    take_program(&day);
    play(&day);
    free_plot(&day.plot);
    return status_of(&day.result);
}
