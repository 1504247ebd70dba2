/* What the smoke test counts and says, bytes written as text ("2B C8 38"), and buffers that a call has to leave. */
#ifndef EXPECT_H
#define EXPECT_H

#include <stdbool.h>
#include <stddef.h>
#include <stdint.h>
#include <stdio.h>

extern unsigned checks, failures;

void expect(bool holds, const char *what, const char *file, int line);
#define EXPECT(what) expect((what), #what, __FILE__, __LINE__)

/* A row of a table, which says by itself what came instead. */
void expect_row(bool holds, const char *format, ...);

size_t bytes_of(const char *text, uint8_t *bytes);

/* What a lent buffer is filled with, and whether it still is. */
enum { UNWRITTEN = 0xA5 };
bool unwritten(const uint8_t *bytes, size_t length);

#endif
