/* Messages on standard error, exit statuses, and words of a file made fit to be shown. */
#define _POSIX_C_SOURCE 200809L
#include "message.h"

#include <errno.h>
#include <fcntl.h>
#include <signal.h>
#include <stdio.h>
#include <stdlib.h>
#include <string.h>

/* What was printed before stands before the message; that it could be is flush_output's matter. */
static void print_message(const char *format, va_list arguments)
{
    fflush(stdout);
    vfprintf(stderr, format, arguments);
    fputc('\n', stderr);
}

void complain(const char *format, ...)
{
    va_list arguments;
    va_start(arguments, format);
    print_message(format, arguments);
    va_end(arguments);
}

void complain_at_with(const char *path, unsigned line, const char *format, va_list arguments)
{
    fflush(stdout);
    fprintf(stderr, "%s:%u: ", path, line);
    print_message(format, arguments);
}

void complain_at(const char *path, unsigned line, const char *format, ...)
{
    va_list arguments;
    va_start(arguments, format);
    complain_at_with(path, line, format, arguments);
    va_end(arguments);
}

void fail(int status, const char *format, ...)
{
    va_list arguments;
    va_start(arguments, format);
    print_message(format, arguments);
    va_end(arguments);
    exit(status);
}

void prepare_streams(void)
{
    signal(SIGPIPE, SIG_IGN);
    signal(SIGXFSZ, SIG_IGN);
    for (int stream = 0; stream <= 2; stream++) {
        if (fcntl(stream, F_GETFD) >= 0)
            continue;
        /* the lowest that is free is this one; what may not be done with it is an error as before */
        int opened = open("/dev/null", stream == 0 ? O_WRONLY : O_RDONLY);
        if (opened != stream)
            exit(STATUS_UNUSABLE);
    }
}

void flush_output(void)
{
    errno = 0;
    if (fflush(stdout) != 0 || ferror(stdout))
        fail(STATUS_UNWRITTEN, "standard output: %s; let it go where it can be written",
             errno == 0 ? "cannot be written" : strerror(errno));
}

struct quote quote(const char *bytes, size_t length)
{
    struct quote quote;
    size_t at = 0;
    quote.text[at++] = '\'';
    for (size_t i = 0; i < length && i < QUOTE_BYTES_MAX; i++) {
        unsigned char byte = (unsigned char)bytes[i];
        if (byte >= ' ' && byte <= '~')
            quote.text[at++] = (char)byte;
        else
            at += (size_t)sprintf(quote.text + at, "\\x%02x", byte);
    }
    quote.text[at++] = '\'';
    if (length > QUOTE_BYTES_MAX) {
        quote.text[at++] = '.';
        quote.text[at++] = '.';
    }
    quote.text[at] = '\0';
    return quote;
}
