/* What is said of a script: messages, refusals and warnings by the places of its text. */
#include "script_depths.h"

#include <stdio.h>

static unsigned warnings;

struct spot spot_of(const struct node *node)
{
    return (struct spot){ node->line, node->text.start };
}

void say_at(const struct script *script, struct spot spot, const char *format, ...)
{
    va_list arguments;
    va_start(arguments, format);
    complain_in_with(&script->text, spot.line, spot.at, format, arguments);
    va_end(arguments);
}

void warn_at(const struct script *script, struct spot spot, const char *format, ...)
{
    char what[320];
    va_list arguments;
    va_start(arguments, format);
    vsnprintf(what, sizeof what, format, arguments);
    va_end(arguments);
    say_at(script, spot, "warning: %s", what);
    warnings++;
}

unsigned warnings_given(void)
{
    return warnings;
}

void say_refusal_with(const struct script *s, unsigned number, struct spot spot, const char *format, va_list arguments)
{
    char what[320];
    vsnprintf(what, sizeof what, format, arguments);
    say_at(s, spot, "%u %s: %s", number, engine_word(number), what);
}

void say_refusal(const struct script *s, unsigned number, struct spot spot, const char *format, ...)
{
    va_list arguments;
    va_start(arguments, format);
    say_refusal_with(s, number, spot, format, arguments);
    va_end(arguments);
}
