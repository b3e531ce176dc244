/* Messages on standard error, exit statuses, and words of a file made fit to be shown. */
#ifndef MESSAGE_H
#define MESSAGE_H

#include <stdarg.h>
#include <stdbool.h>
#include <stddef.h>

/* Exit statuses: the engine refused; the arguments or a file cannot be used; something could not be written. */
enum { STATUS_REFUSED = 1, STATUS_UNUSABLE = 2, STATUS_UNWRITTEN = 3 };

/* Prints a message on a line of its own. */
void complain(const char *format, ...) __attribute__((format(printf, 1, 2)));

/* Prints a message about a line of a file: "path:line: message". */
void complain_at(const char *path, unsigned line, const char *format, ...) __attribute__((format(printf, 3, 4)));
void complain_at_with(const char *path, unsigned line, const char *format, va_list arguments);

/* Prints a message and ends the program. */
_Noreturn void fail(int status, const char *format, ...) __attribute__((format(printf, 2, 3)));

/* Sees to it that no file is opened in the place of a standard stream that was closed, and that writing where nobody
 * reads, or past a limit, is an error and no signal. Every program calls it first. */
void prepare_streams(void);

/* Brings out what was printed. Fails where that cannot be done. */
void flush_output(void);

/* Bytes in single quotes: cut after QUOTE_BYTES_MAX, other characters than printable ASCII as '\xNN'. */
enum { QUOTE_BYTES_MAX = 24 };
struct quote {
    char text[4 * QUOTE_BYTES_MAX + 5];
};
struct quote quote(const char *bytes, size_t length);

#endif
