/* Standard input line by line as it comes, and signals that ask the program to end. */
#define _POSIX_C_SOURCE 200809L /* sigaction, pselect */
#include "input.h"
#include "message.h"

#include <errno.h>
#include <signal.h>
#include <stdlib.h>
#include <string.h>
#include <sys/select.h>
#include <unistd.h>

/* ---- Signals ---- */

static volatile sig_atomic_t came; /* while the program waited for a line */
static sigset_t waiting;           /* what is held back while it waits: as at the beginning */
static sigset_t held;

static void note(int signal)
{
    came = signal;
}

void hold_signals(void)
{
    const int ending[] = { SIGINT, SIGTERM };
    sigemptyset(&held);
    for (int i = 0; i < 2; i++) {
        struct sigaction action = { .sa_handler = note }, before;
        sigaction(ending[i], NULL, &before);
        if (before.sa_handler == SIG_IGN)
            continue;
        sigaction(ending[i], &action, NULL);
        sigaddset(&held, ending[i]);
    }
    sigprocmask(SIG_BLOCK, &held, &waiting);
}

int signal_that_came(void)
{
    sigset_t pending;
    if (came != 0 || sigpending(&pending) != 0)
        return came;
    return sigismember(&pending, SIGTERM) && sigismember(&held, SIGTERM) ? SIGTERM
           : sigismember(&pending, SIGINT) && sigismember(&held, SIGINT) ? SIGINT : 0;
}

/* ---- Lines ---- */

static struct {
    uint8_t *bytes;
    size_t capacity;
    size_t length;
    size_t given; /* of these, as lines */
    bool has_ended;
} input;

/* Makes room for more, in front of which only what was not given stands. */
static void make_room(void)
{
    enum { FIRST_CAPACITY = 4096 };
    input.length -= input.given;
    if (input.given > 0)
        memmove(input.bytes, input.bytes + input.given, input.length);
    input.given = 0;
    if (input.length < input.capacity)
        return;
    input.capacity = input.capacity == 0 ? FIRST_CAPACITY : 2 * input.capacity;
    input.bytes = realloc(input.bytes, input.capacity);
    if (input.bytes == NULL)
        fail(STATUS_UNUSABLE, "standard input: no memory for a line of %zu bytes; send shorter lines", input.length);
}

/* Waits for more bytes; false where a signal came. */
static bool read_more(void)
{
    fd_set set;
    FD_ZERO(&set);
    FD_SET(STDIN_FILENO, &set);
    make_room();
    if (pselect(STDIN_FILENO + 1, &set, NULL, NULL, NULL, &waiting) < 0 && errno == EINTR)
        return signal_that_came() == 0;
    ssize_t length = read(STDIN_FILENO, input.bytes + input.length, input.capacity - input.length);
    if (length < 0 && errno != EINTR && errno != EAGAIN)
        fail(STATUS_UNUSABLE, "standard input: cannot be read: %s; name a file, or send lines", strerror(errno));
    input.length += length > 0 ? (size_t)length : 0;
    input.has_ended = length == 0;
    return true;
}

bool next_input_line(struct input_line *line)
{
    size_t searched = 0; /* of what was not given */
    while (signal_that_came() == 0) {
        const uint8_t *start = input.bytes + input.given;
        size_t left = input.length - input.given;
        const uint8_t *end = left > searched ? memchr(start + searched, '\n', left - searched) : NULL;
        if (end == NULL && input.has_ended && left == 0)
            return false;
        if (end != NULL || input.has_ended) {
            *line = (struct input_line){ start, end == NULL ? left : (size_t)(end - start) + 1, end != NULL };
            input.given += line->length;
            return true;
        }
        searched = left;
        if (!read_more())
            return false;
    }
    return false;
}
