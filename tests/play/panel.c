/* The front panel. */
#include "play.h"

enum { MOST_SETUP = 255 };

static void print_said(char letter, log_gate_said said)
{
    if (said.refusal != LOG_GATE_TAKEN)
        fail("the gate refuses its panel");
    printf("%c %02X\n", letter, said.status);
}

void play_prepare(char *text)
{
    size_t count = next_bytes(text);
    if (count > MOST_SETUP)
        fail("more bytes than an F line may give");
    print_said('F', log_gate_prepare(state, sizeof state, bytes, count));
}

void play_start(char *text)
{
    if (more_follows(text))
        fail("an S line with more");
    print_said('S', log_gate_start(state, sizeof state));
}
