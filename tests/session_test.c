/*
 * A new user at the virtual gate: session_test SAID READINGS. Each line for a shell that the gate has printed into the file SAID is run
 * as it is printed, that of the reading so many times. What a line shows must be one whole right answer and nothing else. Prints how many
 * readings had a byte that is doubled on the wire.
 */
#define _XOPEN_SOURCE 700
#include "../gate/map.h"
#include "../gate/panel.h"
#include "../gate/tools/line.h"
#include "expect.h"

#include <stdio.h>
#include <stdlib.h>
#include <string.h>
#include <time.h>
#include <unistd.h>

/* The lines in the order in which they are printed. */
enum { READING, START, RESULT, PRESS, LINES };

enum { LINE_ROOM = 256, SHOWN_ROOM = 2 * LOG_GATE_ANSWER_ROOM };

static char lines[LINES][LINE_ROOM], path[LINE_ROOM];

static void read_said(const char *name)
{
    char text[LINE_ROOM];
    int found = 0;
    FILE *said = fopen(name, "r");
    expect(said != NULL, "what the gate said can be read");
    while (fgets(text, sizeof text, said) != NULL) {
        sscanf(text, "The service port is %255s", path);
        if (strncmp(text, "  (printf", 9) != 0)
            continue;
        expect(found < LINES, "the gate prints no more lines for a shell than are tried here");
        strcpy(lines[found++], text);
    }
    fclose(said);
    expect(found == LINES, "the gate prints as many lines for a shell as are tried here");
}

/* ---- a line is run, and its answer read */

static size_t bytes_shown(const char *line, uint8_t shown[SHOWN_ROOM])
{
    size_t count = 0;
    unsigned byte;
    FILE *out = popen(line, "r");
    expect(out != NULL, "a shell can be started");
    for (; count < SHOWN_ROOM && fscanf(out, "%x", &byte) == 1; count++)
        shown[count] = (uint8_t)byte;
    expect(pclose(out) == 0, "a printed line ends well");
    return count;
}

/* The data of the answer, so many as are expected; gives how many bytes were shown. */
static size_t run(const char *line, size_t expected, uint8_t data[LOG_GATE_DATA_ROOM])
{
    uint8_t shown[SHOWN_ROOM], reader[LOG_GATE_READER];
    log_gate_read came = {0, 0, 0, 0};
    size_t count = bytes_shown(line, shown), read = 0;
    log_gate_reader_begin(reader, sizeof reader, expected);
    for (; read < count && !came.whole; read++)
        came = log_gate_reader_byte(reader, sizeof reader, shown[read], data, LOG_GATE_DATA_ROOM);
    expect(came.whole && came.refusal == LOG_GATE_TAKEN, "a printed line shows a whole right answer");
    expect(came.status == LOG_GATE_DONE && came.length == expected, "the answer is the one that the line is for");
    expect(read == count, "a printed line shows one answer");
    return count;
}

/* ---- the gate in air, so that a reading's sum byte is 0x2B once in 32 */

static void pause_a_little(void)
{
    nanosleep(&(struct timespec){.tv_nsec = 50 * 1000 * 1000}, NULL);
}

static void write_belt(struct line *line, uint8_t stopped)
{
    const uint8_t body[] = {BELT_STOPPED, 0, stopped, 0};
    expect(line_ask(line, LOG_GATE_WRITE_1, body, sizeof body, 0) == LOG_GATE_DONE, "the belt can be stopped");
}

static int is_log_inside(struct line *line)
{
    const uint8_t body[] = {LOG_INSIDE, 0};
    expect(line_ask(line, LOG_GATE_READ_1, body, sizeof body, 1) == LOG_GATE_DONE, "it can be seen whether a log is inside");
    return line->data[0];
}

static void stop_in_air(void)
{
    struct line line;
    expect(line_open(&line, path), "the port can be opened");
    for (write_belt(&line, 1); is_log_inside(&line); write_belt(&line, 1)) {
        write_belt(&line, 0);
        pause_a_little();
    }
    close(line.port);
}

int main(int argc, char **argv)
{
    uint8_t data[LOG_GATE_DATA_ROOM];
    int doubled = 0;
    expect(argc == 3, "two words are given, what the gate said and a number of readings");
    read_said(argv[1]);
    stop_in_air();
    for (int left = atoi(argv[2]); left > 0; left--)
        doubled += run(lines[READING], 2, data) > 5;
    run(lines[START], 0, data);
    run(lines[RESULT], 1, data);
    expect(data[0] == LOG_GATE_RESULT_DUE || data[0] == 0, "the self-test runs, or has ended well");
    run(lines[PRESS], 0, data);
    printf("%d\n", doubled);
    return 0;
}
