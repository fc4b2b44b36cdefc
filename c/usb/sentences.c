/* Sentences for a person, put together in parts. */
#include "bus.h"

#include <stdarg.h>
#include <stdio.h>

void append(struct sentence *it, const char *format, ...)
{
    va_list rest;
    size_t room = sizeof it->text - it->length;
    va_start(rest, format);
    int count = vsnprintf(it->text + it->length, room, format, rest);
    va_end(rest);
    it->length += count < 0 ? 0 : (size_t)count < room ? (size_t)count : room - 1;
}

const char *plural(uint64_t count)
{
    return count == 1 ? "" : "s";
}
