/* The controller's arguments. */
#include "options.h"
#include "engine.h"
#include "place.h"
#include "text.h"

#include <stdio.h>
#include <stdlib.h>
#include <string.h>

static const char usage[] =
    "usage: controller [OPTION..] SCRIPT [DAY]     play a day\n"
    "       controller --show STORE [SCRIPT]       show a store\n"
    "       controller --store STORE --save-totals FILE SCRIPT       save the totals of a store\n"
    "       controller --store STORE --restore-totals FILE SCRIPT    open a store with saved totals\n"
    "  SCRIPT        a script file\n"
    "  DAY           the deliveries, a line each: readings, then 'budget N' if it has a budget of its\n"
    "                own; 'none' is for no readings, and '#' begins a comment. What is expected, after '=>',\n"
    "                is for script_tool and passed over. A file is read and judged whole before anything is\n"
    "                played. Without DAY, or for '-', standard input is played line by line as it comes, and\n"
    "                a last line without its line end is not played; where totals are saved or restored and\n"
    "                there is no DAY, nothing is played\n"
    "  --store FILE  keep the store in this file: it is saved after each delivery, before its line is\n"
    "                printed\n"
    "  --keep-previous  keep the store before the last save too, as FILE.previous\n"
    "  --new-script  go on with the store of another script, if main's depth is the same\n"
    "  --restore-totals FILE  open the store with the totals that were saved in this file. A store that is\n"
    "                there is replaced, with as many cells unless --cells says others; where it was\n"
    "                damaged or of another depth, it is kept as STORE.damaged\n"
    "  --expect VALUE         restore only saved totals of this check value, as 'saved' printed it\n"
    "  --save-totals FILE     save the totals in this file, at the end of the day if there is one\n"
    "  --cells N     cells of a new store, 1 to 256 (default 64)\n"
    "  --budget N    steps that a delivery may take, up to 1000000 (default 10000)\n"
    "  --check       check the store after opening and after each delivery\n"
    "  --changes     print each delivery's readings and what changed in the totals, and not all totals\n"
    "  --code FILE   work the deliveries by this tuned code of SCRIPT, as 'script_tool tune' wrote it\n"
    "  --names TEXT  name the totals as the line 'totals ..' of this script's text does\n"
    "  --json        print an object of JSON a line\n"
    "  --plot FILE   draw the totals and the cells taken over the day, as an SVG picture\n"
    "  --show STORE  its cells, their counts and who names whom; where it is not sound, the rules that\n"
    "                are broken\n"
    "  --help, --version  this text; the version of the engine's interface\n"
    "An option and its argument may be one word, as '--store=FILE'. SIGINT and SIGTERM end the day after\n"
    "the delivery in work.\n"
    "Exit status: 0 the day was played, or the store is sound; 1 the engine refused the script, its tuned\n"
    "code, the store, the totals or every delivery; 2 bad usage, or a file or line that cannot be used; 3\n"
    "something could not be written; 130 or 143 the day was ended by SIGINT or SIGTERM\n";

static _Noreturn void fail_with_usage(void)
{
    fail(STATUS_UNUSABLE, "%.*s", (int)sizeof usage - 2, usage);
}

static _Noreturn void print_and_end(const char *text)
{
    fputs(text, stdout);
    flush_output();
    exit(0);
}

static _Noreturn void print_version(void)
{
    printf("controller, engine interface %d.%d\n", ENGINE_VERSION_MAJOR, ENGINE_VERSION_MINOR);
    print_and_end("");
}

/* ---- One option ---- */

/* Options that are files, and those that are words alone, by where they stand in the options. */
struct known {
    const char *word;
    size_t at;
};
#define AT(member) offsetof(struct options, member)
static const struct known files[] = { { "--store", AT(store) },          { "--plot", AT(plot) },
                                      { "--show", AT(shown) },           { "--save-totals", AT(saved) },
                                      { "--restore-totals", AT(restored) }, { "--names", AT(names) },
                                      { "--code", AT(code) } };
static const struct known truths[] = { { "--check", AT(checks) },
                                       { "--new-script", AT(takes_another_scripts) },
                                       { "--keep-previous", AT(keeps_previous) },
                                       { "--changes", AT(shows_changes) },
                                       { "--json", AT(is_json) } };

/* The known option that a word is; null where it is none of these. */
static const struct known *find(const struct known *known, size_t count, const char *word)
{
    for (size_t i = 0; i < count; i++)
        if (strcmp(known[i].word, word) == 0)
            return &known[i];
    return NULL;
}

static const char *path_after(const char *option, const char *argument)
{
    if (argument == NULL || *argument == '\0')
        fail(STATUS_UNUSABLE, "%s: a file is wanted; name it after the option", option);
    if (strcmp(argument, "-") == 0)
        fail(STATUS_UNUSABLE, "%s: '-' is no file; name one that stays", option);
    return argument;
}

static uint32_t checksum_after(const char *option, const char *argument)
{
    enum { DIGITS = 8 };
    if (argument == NULL || strlen(argument) != DIGITS || strspn(argument, "0123456789abcdefABCDEF") != DIGITS)
        fail(STATUS_UNUSABLE, "%s: a check value is wanted; give the 8 digits that 'saved' printed", option);
    return (uint32_t)strtoul(argument, NULL, 16);
}

/* An option that has an argument; false where it is none. */
static bool take_valued(struct options *options, const char *word, const char *argument)
{
    const struct known *file = find(files, sizeof files / sizeof *files, word);
    if (file != NULL)
        *(const char **)((char *)options + file->at) = path_after(word, argument);
    else if (strcmp(word, "--cells") == 0)
        options->cells = option_number(word, argument, ENGINE_CELLS_MIN, ENGINE_CELLS_MAX);
    else if (strcmp(word, "--budget") == 0)
        options->budget = option_number(word, argument, 0, ENGINE_BUDGET_MAX);
    else if (strcmp(word, "--expect") == 0)
        options->expected = checksum_after(word, argument);
    else
        return false;
    options->has_expected |= strcmp(word, "--expect") == 0;
    return true;
}

/* A word that begins with '--', and the argument after it; gives how many of these it took. */
static int take_option(struct options *options, const char *word, const char *argument)
{
    enum { OPTION_BYTES = 32 };
    char option[OPTION_BYTES];
    size_t length = strcspn(word, "=");
    bool has_value = word[length] == '=';
    snprintf(option, sizeof option, "%.*s", (int)length, word);
    const struct known *truth = find(truths, sizeof truths / sizeof *truths, option);
    if (strcmp(word, "--help") == 0)
        print_and_end(usage);
    if (strcmp(word, "--version") == 0)
        print_version();
    if (truth != NULL && has_value)
        fail(STATUS_UNUSABLE, "%s: it has no argument; leave out what follows '='", option);
    if (truth != NULL) {
        *(bool *)((char *)options + truth->at) = true;
        return 1;
    }
    if (!take_valued(options, option, has_value ? word + length + 1 : argument))
        fail(STATUS_UNUSABLE, "%s is no option; 'controller --help' has them", quote(word, strlen(word)).text);
    return has_value ? 1 : 2;
}

/* ---- All of them ---- */

enum { PREVIOUS_BYTES = 4096 + sizeof PREVIOUS_ENDING };

/* A file of the arguments, by what it is to them. */
struct named {
    const char *path, *name, *what;
};

/* Whether two are one file, or would become one. */
static bool are_one(const struct named *one, const struct named *other)
{
    return one->path != NULL && other->path != NULL
           && (strcmp(one->path, other->path) == 0 || is_same_file(one->path, other->path));
}

static void keep_apart(const struct named *written, const struct named *other)
{
    if (are_one(written, other))
        fail(STATUS_UNUSABLE, "%s: %s is %s; name another file", written->name, written->path, other->what);
}

/* Files that are written may not be files that are read, nor one another; but totals may be saved where they were
 * restored from. */
static void keep_all_apart(const struct options *options)
{
    const struct named read[] = { { options->script, "", "the script itself" },
                                  { options->day, "", "the day itself" },
                                  { options->names, "", "the script's text itself" },
                                  { options->code, "", "the tuned code itself" } };
    const struct named restored = { options->restored, "", "the saved totals themselves" };
    char path[PREVIOUS_BYTES] = "";
    if (options->keeps_previous)
        snprintf(path, sizeof path, "%s" PREVIOUS_ENDING, options->store);
    const struct named previous = { path, "", "the store before the last save" };
    const struct named written[] = { { options->store, "--store", "the store itself" },
                                     { options->plot, "--plot", "the picture itself" },
                                     { options->saved, "--save-totals", "the saved totals themselves" } };
    for (int w = 0; w < 3; w++) {
        for (int r = 0; r < 4; r++)
            keep_apart(&written[w], &read[r]);
        if (w < 2)
            keep_apart(&written[w], &restored);
        if (w > 0) /* a run that was ended may have left one file with both names */
            keep_apart(&written[w], &previous);
        for (int before = 0; before < w; before++)
            keep_apart(&written[w], &written[before]);
    }
}

/* Without a day only totals are moved, if that is asked for; else standard input is the day. */
static void settle_day(struct options *options)
{
    if (options->day != NULL)
        return;
    if (options->saved == NULL && options->restored == NULL) {
        options->day = "-";
        return;
    }
    if (options->store == NULL)
        fail(STATUS_UNUSABLE, "%s: the totals of which store? name it with --store FILE, or give a day to play",
             options->restored != NULL ? "--restore-totals" : "--save-totals");
    if (options->plot != NULL)
        fail(STATUS_UNUSABLE, "--plot: there is no day that could be drawn; give one, or leave --plot out");
    if (options->code != NULL)
        fail(STATUS_UNUSABLE, "--code: there is no delivery that it could work; give a day, or leave --code out");
}

/* Options that need another one. */
static void settle_needs(const struct options *options)
{
    if (options->has_expected && options->restored == NULL)
        fail(STATUS_UNUSABLE, "--expect: of which saved totals? name them with --restore-totals FILE");
    if (options->keeps_previous && options->store == NULL)
        fail(STATUS_UNUSABLE, "--keep-previous: of which store? name it with --store FILE");
}

struct options options_of(int count, char **arguments)
{
    struct options options = { .budget = DEFAULT_BUDGET };
    for (int i = 1; i < count;) { /* the argument after the last is null */
        const char *word = arguments[i];
        if (strncmp(word, "--", 2) == 0) {
            i += take_option(&options, word, arguments[i + 1]);
            continue;
        }
        i++;
        if (options.script == NULL)
            options.script = word;
        else if (options.day == NULL && options.shown == NULL)
            options.day = word;
        else
            fail_with_usage();
    }
    bool plays = options.day != NULL || options.saved != NULL || options.restored != NULL || options.code != NULL;
    if (options.shown != NULL && plays)
        fail_with_usage();
    if (options.shown == NULL) {
        if (options.script == NULL)
            fail_with_usage();
        settle_day(&options);
        settle_needs(&options);
        keep_all_apart(&options);
    }
    return options;
}
