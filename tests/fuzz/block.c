/* Blocks, beside the same bytes given singly to copies. */
#include "thrown.h"
#include "traffic.h"

#include <stdio.h>

enum { MOST_BLOCK = 160, MOST_BLOCK_ROOM = 900 };

static struct singly {
    uint8_t state[LOG_GATE_STATE], memory[LOG_GATE_MEMORY], answers[MOST_BLOCK_ROOM];
    size_t taken, written;
} singly;

/* How blocks that were taken ended. */
enum { NO_BYTES, ALL_TAKEN, STOPPED, ENDS };
static uint64_t ends[ENDS];

/* Often just enough room for some short answers, or for a long one, and then a byte more or less; now and then too little. */
static size_t some_block_room(void)
{
    if (one_in(8))
        return below(LOG_GATE_ANSWER_ROOM);
    return LOG_GATE_ANSWER_ROOM + (one_in(2) ? below(24) : below(MOST_BLOCK_ROOM - LOG_GATE_ANSWER_ROOM));
}

static size_t some_block_length(void)
{
    return one_in(8) ? 0 : one_in(4) ? 1 + below(4) : 1 + below(MOST_BLOCK);
}

/* The wire's next bytes as long as they are taken, so that none of them is lost; behind them anything. */
static void give_singly(uint8_t *bytes, size_t length, int is_live)
{
    memcpy(singly.state, lent_bytes(&state), sizeof singly.state);
    memcpy(singly.memory, lent_bytes(&mem), sizeof singly.memory);
    singly.taken = singly.written = 0;
    random_fill(bytes, length);
    while (singly.taken < length && out.length - singly.written >= LOG_GATE_ANSWER_ROOM) {
        uint8_t byte = is_live ? next_wire_byte() : one_in(4) ? 0x2B : random_byte();
        log_gate_taken taken = log_gate_byte(singly.state, sizeof singly.state, byte, singly.memory, sizeof singly.memory,
                                             singly.answers + singly.written, LOG_GATE_ANSWER_ROOM);
        expect(taken.refusal == LOG_GATE_TAKEN, "a byte that a block would take is refused");
        if (taken.length > 0)
            count_answer(singly.answers[singly.written + 1]);
        bytes[singly.taken++] = byte;
        singly.written += taken.length;
    }
}

static void look_at_block(log_gate_block_taken came)
{
    expect(came.taken == singly.taken && came.written == singly.written, "block: other counts than singly");
    expect(memcmp(lent_bytes(&state), singly.state, sizeof singly.state) == 0, "block: another state than singly");
    expect(same(lent_bytes(&mem), singly.memory, sizeof singly.memory), "block: another memory than singly");
    expect(memcmp(lent_bytes(&out), singly.answers, came.written) == 0, "block: other answers than singly");
    expect(kept_but(&state, 0, LOG_GATE_STATE) && kept_but(&mem, 0, VARIABLES_END), "block: a byte that is not its own");
    expect(kept_but(&out, 0, came.written), "block: bytes behind the answers");
    ends[block.length == 0 ? NO_BYTES : came.taken == block.length ? ALL_TAKEN : STOPPED]++;
    digest_bytes(lent_bytes(&out), came.written);
    keep_memory(0, came.written > 0 ? VARIABLES_END : 0);
}

void throw_block(void)
{
    uint8_t bytes[MOST_BLOCK];
    int is_live = lend_state(&state, live, sizeof live);
    lend_memory();
    lend_room(some_block_room());
    size_t length = some_block_length();
    uint8_t due = byte_refusal();
    if (due == LOG_GATE_TAKEN)
        give_singly(bytes, length, is_live);
    else
        random_fill(bytes, length);
    lend(&block, bytes, length, length);
    log_gate_block_taken came = log_gate_block(lent_bytes(&state), state.length, lent_bytes(&block), length, lent_bytes(&mem),
                                               mem.length, lent_bytes(&out), out.length);
    count(CALL_block, came.refusal);
    expect(came.refusal == due, "block: another refusal");
    expect(kept(&block), "block: changes the block");
    if (due != LOG_GATE_TAKEN) {
        expect(came.taken == 0 && came.written == 0, "block: refused and counted");
        expect(kept(&state) && kept(&mem) && kept(&out), "block: refused and not untouched");
        return;
    }
    look_at_block(came);
    keep_live(is_live);
}

void tell_blocks(void)
{
    printf("blocks without bytes %llu, taken whole %llu, stopped %llu\n", (unsigned long long)ends[NO_BYTES],
           (unsigned long long)ends[ALL_TAKEN], (unsigned long long)ends[STOPPED]);
}

void require_blocks(void)
{
    expect(ends[NO_BYTES] > 0 && ends[ALL_TAKEN] > 0 && ends[STOPPED] > 0, "blocks never ended in one of the three ways");
}
