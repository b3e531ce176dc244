/* Turns a script's text into a script file and back, checks and formats a text, plays a day on it, explains its code,
 * and takes tuned code back. */
#include "options.h"
#include "place.h"
#include "play.h"
#include "script.h"
#include "tune.h"

#include <inttypes.h>
#include <stdio.h>
#include <string.h>
#include <sys/stat.h>

static const char usage[] =
    "usage: script_tool check [--strict] [--cells N] TEXT   say what is wrong with a script, by lines of its text\n"
    "       script_tool play [OPTION..] TEXT DAY            play a day, and say where and why a delivery stops\n"
    "       script_tool assemble [--unchecked] TEXT FILE    make a script file from its text, if it passes the check\n"
    "       script_tool list [--force] FILE TEXT            write the text of a script file\n"
    "       script_tool fmt TEXT NEW                        write a text anew, indented as it is nested\n"
    "       script_tool code TEXT                           print a script's code and what each line does\n"
    "       script_tool tune CODE [FILE]                    check such code after it was tuned; write it to a file\n"
    "  --strict     a warning too is a fault: status 1\n"
    "  --cells N    cells of the store, 1 to 256 (play: 64 where nothing is said)\n"
    "  --budget N   steps that a delivery may take, unless its line says it (default 10000)\n"
    "  --trace      each step: the cells that are free, its line, and what the parts of its node gave\n"
    "  --unchecked  write also what the engine refuses\n"
    "  --force      replace a text that is there\n"
    "  --help, --version  this text; the version of the engine's interface\n"
    "'-' stands for standard input or output. Where check, play and code want a text, a script file will do: its\n"
    "lines are then those of its listing. A line of text is a node: its word and the parts of its operand;\n"
    "docs/INSTALLERS.md has them all. A line of a day is a delivery: its readings, and after '=>' what is expected:\n"
    "the totals, or the number of a stop. Exit status: 0; 1 the engine refuses the script or the code, or what is\n"
    "expected is not what is found; 2 bad usage, or a file or line that cannot be used; 3 something could not be\n"
    "written\n";

enum { TEXT_BYTES_MAX = 1 << 23 };

/* The options that a command may have. */
enum { STRICT = 1, CELLS = 2, BUDGET = 4, TRACE = 8, UNCHECKED = 16, FORCE = 32 };

struct arguments {
    unsigned options; /* that are there */
    size_t cells;     /* 0 where nothing is said */
    uint64_t budget;
    const char *paths[2];
    unsigned count;   /* of paths */
};

static struct script script;
static uint8_t bytes[TEXT_BYTES_MAX];
static uint8_t file[SCRIPT_FILE_BYTES_MAX];
static uint8_t kinds[ENGINE_CODE_LINES_MAX];
static int64_t operands[ENGINE_CODE_LINES_MAX];
static struct code_text code_text;
static struct tuned tuned;

/* ---- Commands: each gives the exit status ---- */

/* Checks the script that was read. */
static int checked(size_t cells, uint32_t *lines)
{
    return check_script(&script, cells, kinds, operands, lines) ? 0 : STATUS_REFUSED;
}

static int check(const struct arguments *a)
{
    uint32_t lines;
    read_either(&script, a->paths[0], bytes, sizeof bytes);
    int status = checked(a->cells, &lines);
    if (status == 0)
        printf("%s: accepted: %zu functions, %zu nodes, %" PRIu32 " lines of code\n", a->paths[0], script.functions,
               script.count, lines);
    flush_output();
    return a->options & STRICT && warnings_given() > 0 ? STATUS_REFUSED : status;
}

static int code(const struct arguments *a)
{
    uint32_t lines;
    read_either(&script, a->paths[0], bytes, sizeof bytes);
    int status = checked(0, &lines);
    if (status == 0)
        print_code(&script, kinds, operands, lines);
    flush_output();
    return status;
}

static int play(const struct arguments *a)
{
    uint32_t lines;
    struct play_options options = {
        .day = a->paths[1],
        .cells = a->cells == 0 ? DEFAULT_CELLS : a->cells,
        .budget = a->budget,
        .traces = a->options & TRACE,
    };
    if (strcmp(a->paths[0], "-") == 0 && strcmp(a->paths[1], "-") == 0)
        fail(STATUS_UNUSABLE, "standard input can be the script or the day, and not both");
    read_either(&script, a->paths[0], bytes, sizeof bytes);
    int status = checked(0, &lines);
    if (status == 0)
        status = play_day(&script, kinds, operands, &options);
    flush_output();
    return status;
}

/* What is read is not to be written. */
static void keep_apart(const char *from, const char *to)
{
    if (is_same_file(from, to))
        fail(STATUS_UNUSABLE, "%s and %s are one file; nothing was written", from, to);
}

static int assemble(const struct arguments *a)
{
    uint32_t lines;
    const char *from = a->paths[0], *to = a->paths[1];
    keep_apart(from, to);
    read_text(&script, from, bytes, sizeof bytes);
    int status = a->options & UNCHECKED ? 0 : checked(0, &lines);
    if (status != 0)
        fail(status, "%s: nothing was written; 'assemble --unchecked' writes also what the engine refuses", to);
    write_whole(to, file, script_file_of(&script, file));
    return 0;
}

/* A text that is there may have words and comments, which a listing has not. */
static void keep_text(const char *path)
{
    struct stat status;
    if (strcmp(path, "-") != 0 && stat(path, &status) == 0 && S_ISREG(status.st_mode))
        fail(STATUS_UNUSABLE, "%s: is there, and nothing was written: a listing has neither its words nor its comments."
             " 'list --force' replaces it all the same, and 'fmt' only indents a text", path);
}

static int list(const struct arguments *a)
{
    keep_apart(a->paths[0], a->paths[1]);
    if (!(a->options & FORCE))
        keep_text(a->paths[1]);
    read_nodes(&script, a->paths[0], bytes, SCRIPT_FILE_BYTES_MAX);
    write_listing(&script, a->paths[1]);
    return 0;
}

static int fmt(const struct arguments *a)
{
    read_text(&script, a->paths[0], bytes, sizeof bytes);
    write_formatted(&script, a->paths[1]);
    return 0;
}

/* Without a file the code is only checked. */
static int tune(const struct arguments *a)
{
    static uint8_t tuned_bytes[TUNED_BYTES_MAX];
    const char *from = a->paths[0], *to = a->paths[1];
    if (to != NULL)
        keep_apart(from, to);
    read_code_text(&code_text, from, bytes, sizeof bytes);
    if (!check_code_text(&code_text, &tuned)) {
        if (to != NULL)
            complain("%s: nothing was written; mend the code, and tune it again", to);
        return STATUS_REFUSED;
    }
    if (to != NULL)
        write_whole(to, tuned_bytes, encode_tuned(tuned_bytes, &tuned));
    if (to == NULL || strcmp(to, "-") != 0)
        printf("%s: accepted: %" PRIu32 " lines of code for main's depth %u, %" PRIu32 " retains and %" PRIu32
               " releases\n", from, tuned.lines, tuned.depth, lines_of(&tuned, ENGINE_KIND_RETAIN),
               lines_of(&tuned, ENGINE_KIND_RELEASE));
    flush_output();
    return 0;
}

/* ---- Arguments ---- */

static const struct command {
    const char *word;
    unsigned paths, least; /* at most and at least so many */
    unsigned options;
    int (*run)(const struct arguments *);
} commands[] = {
    { "check", 1, 1, STRICT | CELLS, check },
    { "play", 2, 2, CELLS | BUDGET | TRACE, play },
    { "assemble", 2, 2, UNCHECKED, assemble },
    { "list", 2, 2, FORCE, list },
    { "fmt", 2, 2, 0, fmt },
    { "code", 1, 1, 0, code },
    { "tune", 2, 1, 0, tune },
};
enum { COMMANDS = sizeof commands / sizeof commands[0] };

static const struct option {
    const char *word;
    unsigned option;
} options[] = {
    { "--strict", STRICT }, { "--cells", CELLS }, { "--budget", BUDGET },
    { "--trace", TRACE }, { "--unchecked", UNCHECKED }, { "--force", FORCE },
};
enum { OPTIONS = sizeof options / sizeof options[0] };

static _Noreturn void fail_with_usage(void)
{
    fail(STATUS_UNUSABLE, "%.*s", (int)sizeof usage - 2, usage);
}

/* The option that an argument is, also as '--cells=N'; 0 where it is none. */
static unsigned option_of(const char *argument)
{
    size_t length = strcspn(argument, "=");
    for (size_t i = 0; i < OPTIONS; i++)
        if (strlen(options[i].word) == length && strncmp(options[i].word, argument, length) == 0)
            return options[i].option;
    return 0;
}

/* An option, and the number after it; gives how many arguments it took. */
static int take_option(const struct command *command, struct arguments *a, char **argument)
{
    unsigned option = option_of(argument[0]);
    const char *equal = strchr(argument[0], '='), *number = equal == NULL ? argument[1] : equal + 1;
    bool has_number = option == CELLS || option == BUDGET;
    if (option == 0 || !(command->options & option) || (equal != NULL && !has_number))
        fail(STATUS_UNUSABLE, "'%s' has no option %s; 'script_tool --help' lists them", command->word,
             quote(argument[0], strlen(argument[0])).text);
    a->options |= option;
    if (option == CELLS)
        a->cells = option_number("--cells", number, ENGINE_CELLS_MIN, ENGINE_CELLS_MAX);
    if (option == BUDGET)
        a->budget = option_number("--budget", number, 0, ENGINE_BUDGET_MAX);
    return has_number && equal == NULL ? 2 : 1;
}

static int run(const struct command *command, char **argument)
{
    struct arguments a = { .budget = DEFAULT_BUDGET };
    while (*argument != NULL) {
        if (strncmp(*argument, "--", 2) == 0) {
            argument += take_option(command, &a, argument);
        } else if (a.count < command->paths) {
            a.paths[a.count++] = *argument++;
        } else {
            fail_with_usage();
        }
    }
    if (a.count < command->least)
        fail_with_usage();
    return command->run(&a);
}

/* Ends the program where an argument is no command. */
static _Noreturn void refuse_command(const char *argument)
{
    struct word words[COMMANDS], word = { argument, strlen(argument) };
    for (size_t i = 0; i < COMMANDS; i++)
        words[i] = (struct word){ commands[i].word, strlen(commands[i].word) };
    struct word nearest = nearest_word(word, words, COMMANDS);
    if (nearest.length > 0)
        fail(STATUS_UNUSABLE, "%s is no command; did you mean %s?", quote_word(word).text, quote_word(nearest).text);
    fail_with_usage();
}

int main(int count, char **arguments)
{
    prepare_streams();
    if (count == 2 && (strcmp(arguments[1], "--help") == 0 || strcmp(arguments[1], "--version") == 0)) {
        if (arguments[1][2] == 'h')
            fputs(usage, stdout);
        else
            printf("script_tool, engine interface %d.%d\n", ENGINE_VERSION_MAJOR, ENGINE_VERSION_MINOR);
        flush_output();
        return 0;
    }
    if (count < 2)
        fail_with_usage();
    for (size_t i = 0; i < COMMANDS; i++)
        if (strcmp(arguments[1], commands[i].word) == 0)
            return run(&commands[i], arguments + 2);
    refuse_command(arguments[1]);
}
