/*
 * Lists the variables of a gate by the names that its tables give, over its service port: list_names PATH. It reads them out by the
 * steps of source document 000 and knows nothing else of the gate.
 */
#include "line.h"

#include <errno.h>
#include <stdarg.h>
#include <stdio.h>
#include <stdlib.h>
#include <string.h>

static struct line line;

static _Noreturn void fail(const char *format, ...)
{
    va_list words;
    va_start(words, format);
    fprintf(stderr, "names: ");
    vfprintf(stderr, format, words);
    fprintf(stderr, "\n");
    va_end(words);
    exit(1);
}

/* ---- commands and answers */

/* The data of the answer, so many as are expected. */
static const uint8_t *ask(uint8_t command, const uint8_t *body, size_t length, size_t expected)
{
    int status = line_ask(&line, command, body, length, expected);
    if (status < 0)
        fail("no right answer comes to command %02X", command);
    if (status == LOG_GATE_NOT_SERVED)
        fail("this gate has no names: it does not serve command %02X", command);
    if (status != LOG_GATE_DONE)
        fail("command %02X is answered with status %02X", command, (unsigned)status);
    return line.data;
}

static unsigned word(const uint8_t *bytes)
{
    return bytes[0] + 256u * bytes[1];
}

static const uint8_t *ask_with_word(uint8_t command, unsigned value, size_t expected)
{
    const uint8_t body[] = {(uint8_t)value, (uint8_t)(value >> 8)};
    return ask(command, body, sizeof body, expected);
}

/* In pieces, as long as an answer can hold. */
static void read_bytes(unsigned address, size_t size, void *to)
{
    size_t piece;
    for (size_t done = 0; done < size; done += piece) {
        unsigned from = address + (unsigned)done;
        piece = size - done < LOG_GATE_DATA_ROOM ? size - done : LOG_GATE_DATA_ROOM;
        const uint8_t body[] = {(uint8_t)piece, (uint8_t)from, (uint8_t)(from >> 8)};
        memcpy((uint8_t *)to + done, ask(LOG_GATE_READ_BYTES, body, sizeof body, piece), piece);
    }
}

/* Room for every length that 2 bytes can give, and a zero. */
typedef char text[UINT16_MAX + 1];

static void read_string(unsigned address, text to)
{
    unsigned length = word(ask_with_word(LOG_GATE_STRING_LENGTH, address, 2));
    read_bytes(address, length, to);
    to[length] = '\0';
}

/* ---- what is printed of a variable */

static const struct {
    const char *string, *words;
} base_types[] = {
    {"\xE0", "unsigned 1 byte"},  {"\xE1", "unsigned 2 bytes"},          {"\xE2", "unsigned 4 bytes"},
    {"\xE3", "unsigned 8 bytes"}, {"\xE5", "unsigned fraction 2 bytes"}, {"\xE6", "unsigned fraction 4 bytes"},
    {"\xF0", "signed 1 byte"},    {"\xF1", "signed 2 bytes"},            {"\xF2", "signed 4 bytes"},
    {"\xF3", "signed 8 bytes"},   {"\xF5", "signed fraction 2 bytes"},   {"\xF6", "signed fraction 4 bytes"},
    {"\xFA", "float 4 bytes"},    {"\xFB", "float 8 bytes"},
};

/* A terminal obeys some bytes; a name must not make use of that. */
static const char *printable(char *string)
{
    for (char *c = string; *c != '\0'; c++)
        if (*c < ' ' || '~' < *c)
            *c = '?';
    return string;
}

/* A type that is no base type is called by its own name. */
static const char *type_in_words(char *type)
{
    for (size_t i = 0; i < sizeof base_types / sizeof base_types[0]; i++)
        if (strcmp(type, base_types[i].string) == 0)
            return base_types[i].words;
    return printable(type);
}

static void print_heading(void)
{
    printf("%-16s  %-25s  %7s  %5s  %s\n", "Name", "type", "address", "bytes", "access (read only is not kept yet: a write is carried out)");
}

/* An entry's info is its size times 4, and one of these four. */
enum { STRUCTURE = 0, READ_ONLY = 1, MEMBER = 2, WRITABLE = 3, KINDS = 4 };

/* Structures and their members are no variables: they have no address of their own. */
static void print_entry(const uint8_t *entry)
{
    static text name, type;
    unsigned info = word(entry + 6), kind = info % KINDS;
    if (kind == STRUCTURE || kind == MEMBER)
        return;
    read_string(word(entry), name);
    read_string(word(entry + 2), type);
    printf("%-16s  %-25s  %7u  %5u  %s\n", printable(name), type_in_words(type), word(entry + 4), info / KINDS,
           kind == WRITABLE ? "may be written" : "read only");
}

/* ---- the tables */

/* Version 2 of the tables. Any flag beside it stands for entries or addresses of another kind. */
enum { FLAGS = 2, ENTRY_SIZE = 8 };

/* Returns 0 where no table has this index. */
static int print_table(unsigned index)
{
    const uint8_t *found = ask_with_word(LOG_GATE_QUERY_TABLE, index, 6);
    unsigned flags = word(found), size = word(found + 2), address = word(found + 4);
    if (index == 0)
        print_heading();
    if (size == 0 && address == 0)
        return 0;
    if (flags != FLAGS)
        fail("table %u has the flags %04X, and only %04X is understood", index, flags, FLAGS);
    for (unsigned at = 0; at + ENTRY_SIZE <= size; at += ENTRY_SIZE) {
        uint8_t entry[ENTRY_SIZE];
        read_bytes(address + at, sizeof entry, entry);
        print_entry(entry);
    }
    return 1;
}

int main(int argc, char **argv)
{
    if (argc != 2) {
        fprintf(stderr, "names: one word is taken, the path of a gate's service port\n");
        return 2;
    }
    if (!line_open(&line, argv[1]))
        fail("%s cannot be opened as a port: %s", argv[1], strerror(errno));
    for (unsigned index = 0; index <= UINT16_MAX && print_table(index); index++)
        continue;
    return 0;
}
