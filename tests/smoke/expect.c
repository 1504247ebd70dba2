#include "expect.h"

#include <stdarg.h>
#include <stdlib.h>

unsigned checks, failures;

void expect(bool holds, const char *what, const char *file, int line)
{
    expect_row(holds, "%s:%d: not so: %s", file, line, what);
}

void expect_row(bool holds, const char *format, ...)
{
    va_list said;
    checks++;
    if (holds)
        return;
    failures++;
    va_start(said, format);
    vprintf(format, said);
    va_end(said);
    printf("\n");
}

size_t bytes_of(const char *text, uint8_t *bytes)
{
    size_t n = 0;
    for (char *end; *text != '\0'; text = end)
        bytes[n++] = (uint8_t)strtoul(text, &end, 16);
    return n;
}

bool unwritten(const uint8_t *bytes, size_t length)
{
    size_t n = 0;
    while (n < length && bytes[n] == UNWRITTEN)
        n++;
    return n == length;
}
