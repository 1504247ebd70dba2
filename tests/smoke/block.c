/* A whole receive block at once: how much of it is taken, its answers, and its refusals. */
#include "states.h"

static uint8_t answers[600];

static log_gate_block_taken give_block(const char *wire, size_t room)
{
    uint8_t bytes[300];
    size_t n = bytes_of(wire, bytes);
    memset(answers, UNWRITTEN, sizeof answers);
    return log_gate_block(gate.state, sizeof gate.state, bytes, n, gate.memory, sizeof gate.memory, answers, room);
}

/* The bytes behind the answers keep their values. */
static bool unwritten_from(size_t from)
{
    return unwritten(answers + from, sizeof answers - from);
}

static void expect_block(const char *wire, size_t room, size_t taken, const char *answers_due)
{
    uint8_t due[300];
    size_t written = bytes_of(answers_due, due);
    log_gate_block_taken came = give_block(wire, room);
    bool as_due = came.refusal == LOG_GATE_TAKEN && came.taken == taken && came.written == written;
    expect_row(as_due && memcmp(answers, due, written) == 0 && unwritten_from(written),
               "a block %s with a room of %zu: refusal %u, %zu taken, %zu written, or other bytes", wire, room, came.refusal,
               came.taken, came.written);
}

/* Of 0xC3 nothing stands but its status: an answer of three bytes each. 0xC8 has nine. */
static void test_rooms(void)
{
    static const struct {
        const char *wire;
        size_t room, taken;
        const char *answers;
    } rooms[] = {
        {"", 132, 0, ""},
        {"2B C3", 132, 2, ""},
        {"2B C3 3D", 132, 3, "2B 88 78"},
        {"2B C3 3D 2B C3 3D", 132, 3, "2B 88 78"},
        {"2B C3 3D 00", 134, 3, "2B 88 78"},
        {"2B C3 3D 2B C3 3D", 134, 3, "2B 88 78"},
        {"2B C3 3D 00", 135, 4, "2B 88 78"},
        {"2B C3 3D 2B C3 3D", 135, 6, "2B 88 78 2B 88 78"},
        {"2B C3 3D 2B C3 3D 2B C3 3D", 135, 6, "2B 88 78 2B 88 78"},
        {"2B C3 3D 2B C8 38 2B C3 3D", 138, 6, "2B 88 78 2B 00 03 00 01 01 00 40 BB"},
        {"2B C3 3D 2B C8 38 2B C3 3D", 143, 6, "2B 88 78 2B 00 03 00 01 01 00 40 BB"},
        {"2B C3 3D 2B C8 38 2B C3 3D", 144, 9, "2B 88 78 2B 00 03 00 01 01 00 40 BB 2B 88 78"},
        {"07 2B C3 3E 2B 2B 2B C7 39 2B C3", 600, 11, "2B 82 7E 2B 81 7F"},
    };
    for (size_t i = 0; i < sizeof rooms / sizeof rooms[0]; i++) {
        reset();
        expect_block(rooms[i].wire, rooms[i].room, rooms[i].taken, rooms[i].answers);
    }
}

/* The longest answer is 131 bytes: 64 of 2B doubled, and then the sum byte is 40. */
static void test_longest(void)
{
    static const struct {
        size_t room, taken, written;
    } rooms[] = {{132, 7, 131}, {261, 7, 131}, {262, 7, 131}, {263, 14, 262}, {264, 14, 262}, {394, 15, 262}};
    for (size_t i = 0; i < sizeof rooms / sizeof rooms[0]; i++) {
        reset();
        memset(gate.memory + 16, 0x2B, 64);
        log_gate_block_taken came = give_block("2B 01 03 40 10 00 AC 2B 01 03 40 10 00 AC 00", rooms[i].room);
        EXPECT(came.refusal == LOG_GATE_TAKEN && came.taken == rooms[i].taken && came.written == rooms[i].written);
        EXPECT(answers[130] == 0x40 && unwritten_from(came.written));
        EXPECT(came.written == 131 || memcmp(answers, answers + 131, 131) == 0);
    }
}

/* Data above 64 are run over and not kept: what stands behind the body stays. */
static void test_too_long(void)
{
    uint8_t data[255], wire[LOG_GATE_COMMAND_ROOM];
    reset();
    before = gate;
    memset(data, 0x11, sizeof data);
    size_t length = log_gate_write_command(LOG_GATE_WRITE_BYTES, data, sizeof data, wire, sizeof wire).length;
    log_gate_block_taken came = log_gate_block(gate.state, sizeof gate.state, wire, length, gate.memory, sizeof gate.memory,
                                               answers, sizeof answers);
    EXPECT(came.taken == length && came.written == 3 && answers[1] == LOG_GATE_MESSAGE_TOO_LONG);
    EXPECT(memcmp(gate.state + BODY, data, SCOPE - BODY) == 0 &&
           memcmp(gate.state + SCOPE, before.state + SCOPE, LOG_GATE_STATE - SCOPE) == 0);
}

/* Blocks that begin and end inside messages, single bytes and ticks between; what one command writes, the next one reads. */
static void test_pieces(void)
{
    reset();
    expect_block("2B E3 10 00 2B 2B 00 E2 2B D0 10", 600, 11, "2B 00 00");
    EXPECT(gate.memory[16] == 0x2B);
    tick();
    expect_block("", 600, 0, "");
    expect_block("00 20 2B C3 3D 2B", 600, 6, "2B 00 2B 2B D5 2B 88 78");
    expect_answer("C3", "");
    expect_block("3D 2B C3", 132, 1, "2B 88 78");
    expect_answer("3D 2B C3 3D", "2B 88 78");
}

/* A setup, the answer of the running recorder and its stop in one block; the rest of a block is given again. */
static void test_again(void)
{
    const char *wire = "2B 09 13 00 04 00 00 00 00 00 10 00 02 00 00 70 00 00 01 02 10 00 4B 2B C3 3D 2B C2 3E 2B C4 3C";
    reset();
    expect_block(wire, 132, 23, "2B 00 00");
    tick();
    expect_block("2B C3 3D 2B C2 3E 2B C4 3C", 600, 9, "2B 01 FF 2B 00 00 2B 00 00 30 00 00 D0");
}

/* What is refused leaves the block too. */
static log_gate_result block_refused(size_t state, size_t memory, size_t length, size_t room)
{
    uint8_t block[] = {0x2B, 0xC8, 0x38};
    memset(answers, UNWRITTEN, sizeof answers);
    log_gate_block_taken came = log_gate_block(gate.state, state, block, length, gate.memory, memory, answers, room);
    EXPECT(came.refusal == LOG_GATE_TAKEN || (came.taken == 0 && came.written == 0 && unwritten_from(0)));
    EXPECT(memcmp(block, "\x2B\xC8\x38", sizeof block) == 0);
    return came.refusal;
}

static log_gate_result either_over(size_t state, size_t length, bool right)
{
    return block_refused(state, LOG_GATE_MEMORY - !right, length, LOG_GATE_ANSWER_ROOM - !right);
}

log_gate_result block_over(size_t state, bool right)
{
    return either_over(state, 3, right);
}

log_gate_result empty_block_over(size_t state, bool right)
{
    return either_over(state, 0, right);
}

/* Of an empty block too. */
static void test_refusals(void)
{
    size_t sound = LOG_GATE_STATE, whole = LOG_GATE_MEMORY, room = LOG_GATE_ANSWER_ROOM;
    for (size_t length = 0; length <= 3; length += 3) {
        reset();
        before = gate;
        EXPECT(block_refused(sound - 1, whole - 1, length, room - 1) == LOG_GATE_STATE_REFUSED);
        EXPECT(block_refused(sound, whole - 1, length, room - 1) == LOG_GATE_MEMORY_REFUSED);
        EXPECT(block_refused(sound, whole + 1, length, room) == LOG_GATE_MEMORY_REFUSED);
        EXPECT(block_refused(sound, 0, length, room) == LOG_GATE_MEMORY_REFUSED);
        EXPECT(block_refused(sound, whole, length, room - 1) == LOG_GATE_ROOM_REFUSED);
        EXPECT(block_refused(sound, whole, length, 0) == LOG_GATE_ROOM_REFUSED);
        EXPECT(untouched());
        EXPECT(block_refused(sound, whole, length, room) == LOG_GATE_TAKEN && untouched() == (length == 0));
    }
}

void test_block(void)
{
    test_rooms();
    test_longest();
    test_too_long();
    test_pieces();
    test_again();
    test_refusals();
}
