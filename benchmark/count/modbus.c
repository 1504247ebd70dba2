/* What comes over the second port. */
#include "../../tests/check_sum.h"
#include "count.h"

enum { STATION = 17 };

static uint8_t frame[LOG_GATE_MODBUS_ROOM], frame_answer[LOG_GATE_MODBUS_ROOM];
static size_t frame_length;

void give_frame(void)
{
    log_gate_modbus(STATION, frame, frame_length, memory, sizeof memory, frame_answer, sizeof frame_answer);
}

/* The frame with its check sum behind it. Its answer has so many bytes: a case must not measure an exception. */
static void form_frame(size_t length, size_t answer_due)
{
    unsigned sum = check_sum(frame, length);
    memcpy(frame + length, (uint8_t[]){(uint8_t)sum, (uint8_t)(sum >> 8)}, 2);
    frame_length = length + 2;
    log_gate_taken taken =
        log_gate_modbus(STATION, frame, frame_length, memory, sizeof memory, frame_answer, sizeof frame_answer);
    expect(taken.length == answer_due, "a frame gets the answer that is counted");
}

void prepare_read_registers(void)
{
    memcpy(frame, (uint8_t[]){STATION, 3, 0, 8, 0, 125}, 6);
    form_frame(6, 255);
}

void prepare_write_registers(void)
{
    memcpy(frame, (uint8_t[]){STATION, 16, 0, 8, 0, 123, 246}, 7);
    form_frame(7 + 246, 8);
}

void prepare_mask_register(void)
{
    memcpy(frame, (uint8_t[]){STATION, 22, 0, 8, 0, 0xF2, 0, 0x25}, 8);
    form_frame(8, 10);
}

void prepare_other_station(void)
{
    memcpy(frame, (uint8_t[]){STATION + 1, 3, 0, 8, 0, 1}, 6);
    form_frame(6, 0);
}
