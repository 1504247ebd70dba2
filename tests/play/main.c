/*
 * Plays a script from standard input through the calls of the header, so that the archive can be compared with the
 * independent implementation of second/, whose README says what a script is. It is for scripts that can be read.
 */
#include "play.h"

#include <string.h>

static const struct {
    const char *word;
    void (*play)(char *text);
    int concerns_memory;
} lines[] = {
#define LINE(word, name, concerns_memory) {word, play_##name, concerns_memory},
#include "lines.h"
};

enum { LINES = sizeof lines / sizeof lines[0] };

static const char blank[] = " \t\r\n";

/* Whether the line concerns the memory. */
static int play(char *text)
{
    size_t i = 0, length = strcspn(text, blank);
    while (i < LINES && (strlen(lines[i].word) != length || memcmp(lines[i].word, text, length) != 0))
        i++;
    if (i == LINES)
        fail("no operation");
    lines[i].play(text + length);
    return lines[i].concerns_memory;
}

static unsigned adler32(void)
{
    unsigned low = 1, high = 0;
    for (size_t i = 0; i < sizeof memory; i++) {
        low = (low + memory[i]) % 65521;
        high = (high + low) % 65521;
    }
    return high << 16 | low;
}

int main(void)
{
    static char line[MOST_LINE];
    int memory_concerned = 0;
    log_gate_reset(state, sizeof state);
    log_gate_reader_begin(reader, sizeof reader, 0);
    while (fgets(line, sizeof line, stdin) != NULL) {
        char *text = line + strspn(line, blank);
        if (*text != '\0' && *text != '#')
            memory_concerned |= play(text);
    }
    if (memory_concerned)
        printf("D adler32 %08X\n", adler32());
    return 0;
}
