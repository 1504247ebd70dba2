#include "play.h"

#include <stdlib.h>
#include <string.h>

enum { FILLING = 0xEE };

uint8_t bytes[MOST_LINE], lent[MOST_UNLIMITED];

void fail(const char *what)
{
    fprintf(stderr, "play: %s\n", what);
    exit(1);
}

unsigned long next_number(char **text, int base)
{
    char *end;
    unsigned long number = strtoul(*text, &end, base);
    if (end == *text)
        fail("a number is missing");
    *text = end;
    return number;
}

int more_follows(const char *text)
{
    return text[strspn(text, " \t\r\n")] != '\0';
}

size_t next_bytes(char *text)
{
    size_t count = 0;
    while (more_follows(text))
        bytes[count++] = (uint8_t)next_number(&text, 16);
    return count;
}

size_t next_room(char **text, size_t most)
{
    size_t room = next_number(text, 10);
    if (room > most)
        fail("a room above what a line may lend");
    return room;
}

void fill_lent(size_t room)
{
    memset(lent, FILLING, room);
}

void print_bytes(const uint8_t *shown, size_t length)
{
    for (size_t i = 0; i < length; i++)
        printf(" %02X", shown[i]);
    printf("\n");
}

void print_taken(const char *word, log_gate_taken taken, size_t room)
{
    printf("%s %u %zu", word, taken.refusal, taken.length);
    print_bytes(lent, room);
}
