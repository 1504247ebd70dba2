/*
 * A technician at the virtual gate's service port: port_test PATH. Commands are written and answers read with the header's other
 * end of the line. It looks that commands sent in one go are all answered, that the coils are live, that a recorder triggers on
 * one, that a written threshold counts, that the self-test finds a coil whose wire is cut, that the panel's button prepares
 * a trace of the next log, and that who comes anew finds no answers to another's commands.
 */
#define _XOPEN_SOURCE 700
#include "../gate/gate.h"
#include "../gate/map.h"
#include "../gate/tools/line.h"
#include "expect.h"

#include <fcntl.h>
#include <stdio.h>
#include <string.h>
#include <time.h>
#include <unistd.h>

enum { TRIES = 2000 /* of ten milliseconds each, for the scene */ };

static struct line line;
static const uint8_t *const data = line.data;

static void pause_a_little(void)
{
    nanosleep(&(struct timespec){.tv_nsec = 10 * 1000 * 1000}, NULL);
}

static void test_staple(void)
{
    const uint8_t asked[] = {0x2B, 0xC8, 0x38}, due[] = {0x2B, 0x00, 0x03, 0x00, 0x01, 0x01, 0x00, 0x40, 0xBB};
    expect(write(line.port, asked, sizeof asked) == sizeof asked, "bytes can be sent");
    for (size_t i = 0; i < sizeof due; i++)
        expect(line_byte(&line) == due[i], "2B C8 38 gives 2B 00 03 00 01 01 00 40 BB");
}

/* ---- commands and answers */

/* The status of the answer to a command; its data, so many as are expected, stand in `data`. */
static uint8_t ask(uint8_t command, const uint8_t *body, size_t length, size_t expected)
{
    int status = line_ask(&line, command, body, length, expected);
    expect(status >= 0, "an answer comes in time, and its sum is right");
    return (uint8_t)status;
}

static unsigned word(const uint8_t *bytes)
{
    return bytes[0] + 256u * bytes[1];
}

static unsigned read_word(unsigned address)
{
    const uint8_t body[] = {(uint8_t)address, (uint8_t)(address >> 8)};
    expect(ask(LOG_GATE_READ_2, body, sizeof body, 2) == LOG_GATE_DONE, "two bytes can be read");
    return word(data);
}

static unsigned read_byte(unsigned address)
{
    return read_word(address) % 256;
}

static void write_word(unsigned address, unsigned value)
{
    const uint8_t body[] = {(uint8_t)address, (uint8_t)(address >> 8), (uint8_t)value, (uint8_t)(value >> 8)};
    expect(ask(LOG_GATE_WRITE_2, body, sizeof body, 0) == LOG_GATE_DONE, "two bytes can be written");
}

/* ---- more commands in one go than the gate has room to answer at once: it takes the rest when the answers are sent */

enum { IN_ONE_GO = 12, CALIBRATION = 8192, PART = 64 };

static size_t form_reads(uint8_t *out, size_t room)
{
    size_t length = 0;
    for (unsigned i = 0; i < IN_ONE_GO; i++) {
        unsigned address = CALIBRATION + i;
        const uint8_t body[] = {PART, (uint8_t)address, (uint8_t)(address >> 8)};
        length += log_gate_write_command(LOG_GATE_READ_BYTES, body, sizeof body, out + length, room - length).length;
    }
    return length;
}

static void read_part(uint8_t part[PART])
{
    uint8_t reader[LOG_GATE_READER];
    log_gate_read came = {0, 0, 0, 0};
    log_gate_reader_begin(reader, sizeof reader, PART);
    while (!came.whole) {
        int byte = line_byte(&line);
        expect(byte >= 0, "every one of the commands in one go is answered");
        came = log_gate_reader_byte(reader, sizeof reader, (uint8_t)byte, part, PART);
        expect(came.refusal == LOG_GATE_TAKEN, "the answers come one behind another");
    }
    expect(came.status == LOG_GATE_DONE && came.length == PART, "64 bytes can be read");
}

/* Parts of the calibration area, where nobody writes, each a byte further on: two answers in a row tell whether one was lost. */
static void test_in_one_go(void)
{
    uint8_t wire[256], parts[2][PART];
    size_t length = form_reads(wire, sizeof wire);
    expect(write(line.port, wire, length) == (ssize_t)length, "commands can be sent in one go");
    read_part(parts[0]);
    for (unsigned i = 1; i < IN_ONE_GO; i++) {
        read_part(parts[i % 2]);
        expect(memcmp(parts[(i - 1) % 2] + 1, parts[i % 2], PART - 1) == 0, "the answers come in the order of the commands");
    }
}

/* ---- the scene */

static void test_live(void)
{
    unsigned first = read_word(COIL_1);
    for (int i = 0; i < TRIES; i++) {
        if (read_word(COIL_1) != first)
            return;
        pause_a_little();
    }
    expect(0, "coil 1 is live");
}

static void test_alarm(void)
{
    write_word(THRESHOLD, 0);
    for (int i = 0; i < TRIES && read_byte(ALARM) == 0; i++)
        pause_a_little();
    expect(read_byte(ALARM) == 1, "with a threshold of 0 there is an alarm");
    write_word(THRESHOLD, 0xFFFF);
    for (int i = 0; i < TRIES && read_byte(ALARM) == 1; i++)
        pause_a_little();
    expect(read_byte(ALARM) == 0, "with the highest threshold there is none once the log has left");
    write_word(THRESHOLD, 1000);
}

/* ---- the recorder: coil 1 rising over EDGE, which metal alone reaches */

enum { SAMPLES = 32, POST_TRIGGER = 10, EDGE = 1000, BUFFER = 12288 };

static void test_recorder(void)
{
    const uint8_t setup[] = {1, SAMPLES, 0, POST_TRIGGER, 0, 0, 0, COIL_1, 0, 2, 0, EDGE % 256, EDGE / 256, 0, 0, 1, 2, COIL_1, 0};
    const uint8_t whole_buffer[] = {SAMPLES * 2, BUFFER % 256, BUFFER / 256};
    expect(ask(LOG_GATE_SET_UP_RECORDER, setup, sizeof setup, 0) == LOG_GATE_DONE, "the recorder can be set up");
    int tries = 0;
    while (ask(LOG_GATE_RECORDER_STATUS, setup, 0, 0) == LOG_GATE_RECORDER_RUNS && tries++ < TRIES)
        pause_a_little();
    uint8_t queried = ask(LOG_GATE_QUERY_BUFFER, setup, 0, 4);
    expect(queried == LOG_GATE_DONE && word(data) == BUFFER, "the recorder has stopped at metal");
    unsigned start = word(data + 2);
    expect(ask(LOG_GATE_READ_BYTES, whole_buffer, sizeof whole_buffer, SAMPLES * 2) == LOG_GATE_DONE, "the buffer can be read");
    unsigned readings[SAMPLES];
    for (unsigned i = 0; i < SAMPLES; i++)
        readings[i] = word(data + 2 * ((start + i) % SAMPLES));
    unsigned edge = SAMPLES - 1 - POST_TRIGGER;
    expect(readings[edge - 1] < EDGE && EDGE <= readings[edge], "the trigger stands ten sets before the last");
    printf("port_test: the trigger came between readings of %u and %u\n", readings[edge - 1], readings[edge]);
}

/* ---- the self-test */

static void write_byte(unsigned address, uint8_t value)
{
    const uint8_t body[] = {(uint8_t)address, (uint8_t)(address >> 8), value, 0};
    expect(ask(LOG_GATE_WRITE_1, body, sizeof body, 0) == LOG_GATE_DONE, "a byte can be written");
}

static uint8_t send_code(uint8_t code)
{
    return ask(LOG_GATE_SEND_COMMAND, &code, 1, 0);
}

static uint8_t result_now(void)
{
    expect(ask(LOG_GATE_COMMAND_RESULT, data, 0, 1) == LOG_GATE_DONE, "the result can be asked for");
    return data[0];
}

static uint8_t result_in_time(void)
{
    for (int i = 0; i < TRIES && result_now() == LOG_GATE_RESULT_DUE; i++)
        pause_a_little();
    return result_now();
}

static void test_self_test(void)
{
    expect(result_now() == LOG_GATE_NO_COMMAND, "there was no command");
    expect(send_code(SELF_TEST_CODE) == LOG_GATE_DONE, "the self-test can be started");
    expect(result_now() == LOG_GATE_RESULT_DUE, "it takes its time");
    expect(send_code(SELF_TEST_CODE) == LOG_GATE_BUSY, "one command at a time");
    expect(result_in_time() == 0, "all coils are good");
    write_byte(CUT_COIL, 3);
    expect(send_code(SELF_TEST_CODE) == LOG_GATE_DONE && result_in_time() == 3, "coil 3 is bad");
    write_byte(CUT_COIL, 0);
    expect(send_code(0x2B) == LOG_GATE_DONE && result_in_time() == UNKNOWN_CODE, "a code that the gate does not know");
}

/* ---- the front panel: pressed over the port, it shows in its variable how far it has come */

enum { WOOD_AT_LEAST = 350 };

static uint8_t panel_in_time(void)
{
    for (int i = 0; i < TRIES && (read_byte(PANEL) == PANEL_PRESSED || read_byte(PANEL) == PANEL_WAITS); i++)
        pause_a_little();
    return (uint8_t)read_byte(PANEL);
}

static void test_panel(void)
{
    const uint8_t first[] = {2, BUFFER % 256, BUFFER / 256};
    write_byte(PANEL, PANEL_PRESSED);
    expect(panel_in_time() == PANEL_IDLE, "the recorder is prepared, and starts with the next log");
    int tries = 0;
    while (ask(LOG_GATE_RECORDER_STATUS, data, 0, 0) == LOG_GATE_RECORDER_RUNS && tries++ < TRIES)
        pause_a_little();
    expect(ask(LOG_GATE_QUERY_BUFFER, data, 0, 4) == LOG_GATE_DONE && word(data + 2) == 0, "the trace is whole");
    expect(ask(LOG_GATE_READ_BYTES, first, sizeof first, 2) == LOG_GATE_DONE && word(data) >= WOOD_AT_LEAST,
           "the trace begins with the log");
    expect(ask(LOG_GATE_START_RECORDER, data, 0, 0) == LOG_GATE_DONE, "the laptop starts it again");
    write_byte(PANEL, PANEL_PRESSED);
    expect(panel_in_time() == LOG_GATE_BUSY, "a running recorder is not prepared");
    ask(LOG_GATE_STOP_RECORDER, data, 0, 0);
}

/* ---- one who leaves without reading an answer, and one who comes then */

/* Commands are sent until the gate takes no more, since its answers have no room left. */
static void send_unread(const char *path)
{
    uint8_t wire[256];
    size_t length = form_reads(wire, sizeof wire);
    int port = open(path, O_RDWR | O_NOCTTY | O_NONBLOCK);
    for (int refused = 0; refused < 10; refused++) {
        while (write(port, wire, length) > 0)
            refused = 0;
        pause_a_little();
    }
    close(port);
}

static void test_left(const char *path)
{
    close(line.port);
    send_unread(path);
    for (int i = 0; i < 50; i++)
        pause_a_little();
    line.port = open(path, O_RDWR | O_NOCTTY);
    /* the other has left in the midst of a command, and perhaps behind a first 0x2B */
    expect(write(line.port, "", 1) == 1, "bytes can be sent");
    test_staple();
}

int main(int argc, char **argv)
{
    expect(argc == 2, "one word is given, the port's path");
    expect(line_open(&line, argv[1]), "the port can be opened, and is raw");
    test_staple();
    test_in_one_go();
    test_live();
    test_recorder();
    test_alarm();
    test_self_test();
    test_panel();
    test_left(argv[1]);
    printf("port_test: all as it should be\n");
    return 0;
}
