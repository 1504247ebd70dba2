/* The other end of the line: writers and a reader. */
#include "play.h"

uint8_t reader[LOG_GATE_READER];

static unsigned long bytes_read;

static void write_message(const char *word, char *text,
                          log_gate_taken (*write)(uint8_t, const uint8_t *, size_t, uint8_t *, size_t))
{
    uint8_t code = (uint8_t)next_number(&text, 16);
    size_t room = next_room(&text, MOST_ROOM), count = next_bytes(text);
    fill_lent(room);
    print_taken(word, write(code, bytes, count, lent, room), room);
}

void play_write_command(char *text)
{
    write_message("W", text, log_gate_write_command);
}

void play_write_answer(char *text)
{
    write_message("V", text, log_gate_write_answer);
}

void play_begin(char *text)
{
    printf("E %u\n", log_gate_reader_begin(reader, sizeof reader, next_number(&text, 10)));
}

void play_read(char *text)
{
    size_t room = next_room(&text, MOST_ROOM), count = next_bytes(text);
    for (size_t i = 0; i < count; i++, bytes_read++) {
        fill_lent(room);
        log_gate_read came = log_gate_reader_byte(reader, sizeof reader, bytes[i], lent, room);
        if (came.refusal != LOG_GATE_TAKEN)
            printf("R %lu %u\n", bytes_read, came.refusal);
        if (came.whole) {
            printf("R %lu 0 %02X %u", bytes_read, came.status, came.length);
            print_bytes(lent, room);
        }
    }
}
