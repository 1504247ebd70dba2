/* The answer reader's refusals: each number with all higher ones also due. */
#include "gate.h"

static log_gate_read reader_byte(uint8_t *reader, size_t length, uint8_t byte, uint8_t *data, size_t room)
{
    log_gate_read read = log_gate_reader_byte(reader, length, byte, data, room);
    if (read.refusal != LOG_GATE_TAKEN)
        EXPECT(read.whole == 0 && read.status == 0 && read.length == 0);
    return read;
}

void test_reader(void)
{
    uint8_t reader[LOG_GATE_READER], kept[LOG_GATE_READER], data[64];
    memset(reader, 0xFF, sizeof reader);
    memset(kept, 0xFF, sizeof kept);
    memset(data, UNWRITTEN, sizeof data);
    for (size_t n = 0; n < LOG_GATE_READER; n++)
        EXPECT(log_gate_reader_begin(reader, n, 65) == LOG_GATE_STATE_REFUSED);
    EXPECT(log_gate_reader_begin(reader, sizeof reader, 65) == LOG_GATE_EXPECTED_REFUSED);
    EXPECT(reader_byte(reader, sizeof reader, 0x2B, data, 63).refusal == LOG_GATE_STATE_REFUSED);
    EXPECT(memcmp(reader, kept, sizeof kept) == 0);
    EXPECT(log_gate_reader_begin(reader, sizeof reader, 1) == LOG_GATE_TAKEN);
    memcpy(kept, reader, sizeof kept);
    EXPECT(reader_byte(reader, sizeof reader - 1, 0x2B, data, 63).refusal == LOG_GATE_STATE_REFUSED);
    EXPECT(reader_byte(reader, sizeof reader, 0x2B, data, 63).refusal == LOG_GATE_ROOM_REFUSED);
    EXPECT(memcmp(reader, kept, sizeof kept) == 0);
    for (size_t i = 0; i < 3; i++)
        EXPECT(reader_byte(reader, sizeof reader, (uint8_t)"\x2B\x00\x7F"[i], data, 64).whole == 0);
    EXPECT(reader_byte(reader, sizeof reader, 0x82, data, 64).refusal == LOG_GATE_SUM_REFUSED);
    EXPECT(reader_byte(reader, sizeof reader, 0x81, data, 64).whole == 0);
    EXPECT(unwritten(data, sizeof data));
}
