/* The second port. */
#include "play.h"

enum { MOST_FRAME = 600 };

void play_give_frame(char *text)
{
    unsigned long station = next_number(&text, 10);
    size_t room = next_room(&text, MOST_ROOM), count = next_bytes(text);
    if (station > UINT16_MAX || count > MOST_FRAME)
        fail("a station or a frame above what a U line may give");
    fill_lent(room);
    print_taken("U", log_gate_modbus((uint16_t)station, bytes, count, memory, sizeof memory, lent, room), room);
}
