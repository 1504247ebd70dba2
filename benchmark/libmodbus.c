/*
 * The second port's cases with libmodbus, whose transport is cut off: a frame is looked at as its receiver does, answered by
 * modbus_reply, and the answer kept instead of sent. It is built with libmodbus's own sources, and counted as the cases of
 * benchmark/count/ are.
 *
 *     libmodbus run CASE N      repeats it N times
 */
#include "modbus-private.h"
#include "modbus.h"

#include <stdio.h>
#include <stdlib.h>
#include <string.h>

enum { STATION = 17, REGISTERS = 8192, LONGEST = 256 };

static modbus_t *station;
static modbus_mapping_t *registers;
static uint8_t frame[LONGEST], answer[LONGEST];
static int frame_length;
static ssize_t answer_length;

static ssize_t keep(modbus_t *context, const uint8_t *bytes, int length)
{
    (void)context;
    memcpy(answer, bytes, (size_t)length);
    answer_length = length;
    return length;
}

static void open_station(void)
{
    static modbus_backend_t cut_off;
    station = modbus_new_rtu("/dev/null", 19200, 'N', 8, 1);
    registers = modbus_mapping_new(0, 0, REGISTERS, 0);
    if (station == NULL || registers == NULL || modbus_set_slave(station, STATION) != 0)
        exit(1);
    cut_off = *station->backend;
    cut_off.send = keep;
    station->backend = &cut_off;
}

static void give_frame(void)
{
    if (station->backend->check_integrity(station, frame, frame_length) > 0)
        modbus_reply(station, frame, frame_length, registers);
}

static const struct frame_case {
    const char *name;
    uint8_t begins[8];
    int begins_with, length;
    ssize_t answer_due;
} cases[] = {
    {"modbus-read", {STATION, 3, 0, 8, 0, 125}, 6, 6, 255},
    {"modbus-write", {STATION, 16, 0, 8, 0, 123, 246}, 7, 7 + 246, 8},
    {"modbus-mask", {STATION, 22, 0, 8, 0, 0xF2, 0, 0x25}, 8, 8, 10},
    {"modbus-other", {STATION + 1, 3, 0, 8, 0, 1}, 6, 6, 0},
};

/* The check sum is libmodbus's own too: it puts it behind what it is to send. */
static void prepare(const struct frame_case *c)
{
    memcpy(frame, c->begins, (size_t)c->begins_with);
    frame_length = station->backend->send_msg_pre(frame, c->length);
    give_frame();
    if (answer_length != c->answer_due)
        exit(1);
}

int main(int argc, char **argv)
{
    open_station();
    for (size_t i = 0; i < sizeof cases / sizeof cases[0] && argc == 4; i++)
        if (strcmp(cases[i].name, argv[2]) == 0) {
            prepare(&cases[i]);
            for (unsigned long n = strtoul(argv[3], NULL, 10); n > 0; n--)
                give_frame();
            return 0;
        }
    fprintf(stderr, "libmodbus: run CASE N\n");
    return 2;
}
