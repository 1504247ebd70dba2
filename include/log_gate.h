/*
 * The log gate's serial target, for firmware in C or C++. Link liblog_gate.a (./run library builds it); of a C library it needs
 * memset alone. docs/PORTING.md says what else it asks of a board.
 *
 * Every call takes anything: whatever the lent bytes hold, it returns, and what it refuses it leaves as it was. Four things no
 * call can check are asked of the caller:
 *
 * - Pointers are not NULL (a length of 0 does not change that).
 * - Each points to as many bytes as its length says.
 * - What is lent for writing overlaps nothing else that is lent.
 * - While a call runs, nobody else touches what it was lent: one call at a time for one state and its memory. Who ticks or gives
 *   bytes in an interrupt holds it off while another call runs, those of the gate's own program and its panel too.
 *
 * A state needs no alignment. Calls over different states and memories share nothing.
 */
#ifndef LOG_GATE_H
#define LOG_GATE_H

#include <limits.h>
#include <stddef.h>
#include <stdint.h>

#ifdef __cplusplus
extern "C" {
#endif

/*
 * The version of this header: the major number counts changes for which a caller must be changed or a kept state is void (a call, a
 * number, a state's layout), the minor one additions and changes that no caller has to follow. It counts apart from the protocol's
 * version, 3, and from what 0xC0 answers.
 */
#define LOG_GATE_VERSION_MAJOR 3
#define LOG_GATE_VERSION_MINOR 4
#define LOG_GATE_VERSION (LOG_GATE_VERSION_MAJOR * 256 + LOG_GATE_VERSION_MINOR)

/* Bytes of a target's state and of an answer reader's state; docs/STATE.md has their layout. More may be lent. */
#define LOG_GATE_STATE 313u
#define LOG_GATE_READER 70u

/* The gate's memory, exactly. */
#define LOG_GATE_MEMORY 16384u

/* Room for an answer, at least; room for the data of an answer that is read or for a command that is collected, at least. */
#define LOG_GATE_ANSWER_ROOM 132u
#define LOG_GATE_DATA_ROOM 64u

/* Room for an answer at the second port, at least. */
#define LOG_GATE_MODBUS_ROOM 256u

/* Bytes of a list for each table that is registered, and how many tables a list may name. */
#define LOG_GATE_TABLE 4u
#define LOG_GATE_MOST_TABLES 16u

/* Room that holds every command message: start, command, and 257 bytes that may all be doubled. */
#define LOG_GATE_COMMAND_ROOM 516u

/*
 * What a call says: taken, or why it refuses. A refused call changes no byte it was lent; LOG_GATE_SUM_REFUSED alone takes its
 * byte, and leaves the reader idle.
 */
typedef uint8_t log_gate_result;

enum {
    LOG_GATE_TAKEN = 0,
    LOG_GATE_STATE_REFUSED = 1,    /* a state too short or outside its bounds */
    LOG_GATE_MEMORY_REFUSED = 2,   /* memory of another length */
    LOG_GATE_ROOM_REFUSED = 3,     /* a lent buffer too short */
    LOG_GATE_FORM_REFUSED = 4,     /* a message or an answer that cannot be formed */
    LOG_GATE_EXPECTED_REFUSED = 5, /* an expected length above 64 */
    LOG_GATE_SUM_REFUSED = 6,      /* a finished answer whose sum is wrong */
    LOG_GATE_RESULT_REFUSED = 7,   /* a result above 0xFD, or no collected command that waits for one */
    LOG_GATE_LIST_REFUSED = 8,     /* a list of tables that cannot be registered */
    LOG_GATE_STATION_REFUSED = 9   /* an own station outside 1 to 247 */
};

/* Statuses of answers on the wire. */
enum {
    LOG_GATE_DONE = 0x00,
    LOG_GATE_RECORDER_RUNS = 0x01,
    LOG_GATE_RECORDER_STOPPED = 0x02,
    LOG_GATE_NOT_SERVED = 0x81,
    LOG_GATE_SUM_WRONG = 0x82,
    LOG_GATE_MESSAGE_TOO_LONG = 0x83,
    LOG_GATE_ANSWER_TOO_LONG = 0x84,
    LOG_GATE_LAYOUT_WRONG = 0x85,
    LOG_GATE_SIZE_WRONG = 0x86,
    LOG_GATE_BUSY = 0x87,
    LOG_GATE_NOT_SET_UP = 0x88,
    LOG_GATE_RANGE_WRONG = 0x89
};

/*
 * The commands that are served, with their data, and what they answer when nothing refuses. Another command gets
 * LOG_GATE_NOT_SERVED, when its sum and length are right. EX: addresses of 4 bytes instead of 2.
 */
enum {
    LOG_GATE_READ_BYTES = 0x01,         /* size, address */
    LOG_GATE_WRITE_BYTES = 0x02,        /* size, address, data */
    LOG_GATE_WRITE_BYTES_MASKED = 0x03, /* size, address, data, as many mask bytes */
    LOG_GATE_READ_BYTES_EX = 0x04,
    LOG_GATE_WRITE_BYTES_EX = 0x05,
    LOG_GATE_WRITE_BYTES_MASKED_EX = 0x06,
    LOG_GATE_SET_UP_SCOPE = 0x08,    /* count, then size and address each */
    LOG_GATE_SET_UP_RECORDER = 0x09, /* mode, samples, post-trigger, divider, trigger, then as 0x08; it also starts */
    LOG_GATE_SET_UP_SCOPE_EX = 0x0A,
    LOG_GATE_SET_UP_RECORDER_EX = 0x0B,
    LOG_GATE_SEND_COMMAND = 0x10,     /* a code and up to 63 arguments for the gate's own program */
    LOG_GATE_QUERY_TABLE = 0x11,      /* index of 2 bytes; answers 02 00, the table's size and address, 2 bytes each, or 6 zeros */
    LOG_GATE_DESCRIBE = 0xC0,         /* answers 35 bytes */
    LOG_GATE_START_RECORDER = 0xC1,   /* answers LOG_GATE_DONE or LOG_GATE_RECORDER_RUNS */
    LOG_GATE_STOP_RECORDER = 0xC2,    /* answers LOG_GATE_DONE or LOG_GATE_RECORDER_STOPPED */
    LOG_GATE_RECORDER_STATUS = 0xC3,  /* answers LOG_GATE_RECORDER_RUNS or LOG_GATE_RECORDER_STOPPED */
    LOG_GATE_QUERY_BUFFER = 0xC4,     /* answers the buffer's address and the start index, 2 bytes each */
    LOG_GATE_READ_SCOPE = 0xC5,       /* answers the variables' bytes */
    LOG_GATE_COMMAND_RESULT = 0xC6,   /* answers LOG_GATE_NO_COMMAND, LOG_GATE_RESULT_DUE, or the result */
    LOG_GATE_DESCRIBE_BRIEFLY = 0xC8, /* answers 6 bytes */
    LOG_GATE_QUERY_BUFFER_EX = 0xC9,  /* as 0xC4, with an address of 4 bytes */
    LOG_GATE_READ_1 = 0xD0,           /* address; so the next six */
    LOG_GATE_READ_2 = 0xD1,
    LOG_GATE_READ_4 = 0xD2,
    LOG_GATE_STRING_LENGTH = 0xD4, /* answers how many bytes stand before the next zero, in 2 bytes */
    LOG_GATE_READ_1_EX = 0xE0,
    LOG_GATE_READ_2_EX = 0xE1,
    LOG_GATE_READ_4_EX = 0xE2,
    LOG_GATE_WRITE_1 = 0xE3,          /* address, value, and a fourth byte that is ignored */
    LOG_GATE_WRITE_2 = 0xE4,          /* address, value */
    LOG_GATE_WRITE_1_MASKED = 0xE5,   /* address, value, mask */
    LOG_GATE_STRING_LENGTH_EX = 0xE6, /* as 0xD4, with an address of 4 bytes */
    LOG_GATE_WRITE_4 = 0xF0,          /* address, value */
    LOG_GATE_WRITE_2_MASKED = 0xF1    /* address, value, mask */
};

/* What 0xC6 answers before any command, and until the result is in; a result is from 0 to LOG_GATE_MOST_RESULT. */
enum {
    LOG_GATE_MOST_RESULT = 0xFD,
    LOG_GATE_RESULT_DUE = 0xFE,
    LOG_GATE_NO_COMMAND = 0xFF
};

/* ---- the target */

/* A refusal or LOG_GATE_TAKEN, and how many bytes of the lent buffer are an answer to be sent, or a message, or a command; 0 is none. */
typedef struct {
    log_gate_result refusal;
    size_t length;
} log_gate_taken;

/* Reset: an idle link, nothing set up, no command, and no tables. Refuses a state that is too short. */
log_gate_result log_gate_reset(uint8_t *state, size_t state_length);

/*
 * A reset with tables, in which a laptop finds variables by their names. The list has an address and a size for each table, 2 bytes
 * each, lowest first; tables may lie at odd addresses and overlap. A table lies inside bytes 8,192 to 12,287 and is one or more whole
 * entries of 8 bytes: name, type, address and info, 2 bytes each. Every entry's type is an address inside the memory; where a base
 * type's string stands there, info divided by 4 is that type's size. Such a string is one of fourteen codes and a zero: E0, F0 one
 * byte; E1, F1, E5, F5 two; E2, F2, E6, F6, FA four; E3, F3, FB eight. Another string is another type, of any size. All this is looked
 * at here and never again. The state may hold anything before.
 *
 * Refuses LOG_GATE_STATE_REFUSED for a state that is too short, then LOG_GATE_MEMORY_REFUSED, then LOG_GATE_LIST_REFUSED: half a pair,
 * more than LOG_GATE_MOST_TABLES, or a table or an entry that is not as said. Nothing is registered then, and the state stays.
 */
log_gate_result log_gate_register(uint8_t *state, size_t state_length, const uint8_t *memory, size_t memory_length,
                                  const uint8_t *list, size_t list_length);

/* Whether the calls below would take this state: LOG_GATE_TAKEN or LOG_GATE_STATE_REFUSED. */
log_gate_result log_gate_check(const uint8_t *state, size_t state_length);

/* A byte came over the port. */
log_gate_taken log_gate_byte(uint8_t *state, size_t state_length, uint8_t byte, uint8_t *memory, size_t memory_length,
                             uint8_t *answer, size_t answer_length);

/*
 * What became of a block: a refusal or LOG_GATE_TAKEN, how many of its first bytes were taken, and how many bytes of the lent
 * buffer are their answers, to be sent. Both are 0 where it is refused.
 */
typedef struct {
    log_gate_result refusal;
    size_t taken;
    size_t written;
} log_gate_block_taken;

/*
 * A block of bytes came over the port. State, memory and answers are those of giving its bytes singly. The answers stand one behind
 * another from the buffer's beginning; the bytes behind them keep their values, and the block is only read. A byte is taken while
 * LOG_GATE_ANSWER_ROOM bytes of the buffer are left, answered or not, and no longer: the caller sends the answers and gives the
 * rest again. Refuses as the single byte does: LOG_GATE_STATE_REFUSED, LOG_GATE_MEMORY_REFUSED, and LOG_GATE_ROOM_REFUSED for a
 * buffer that has less than LOG_GATE_ANSWER_ROOM at the start, with an empty block too.
 */
log_gate_block_taken log_gate_block(uint8_t *state, size_t state_length, const uint8_t *block, size_t block_length,
                                    uint8_t *memory, size_t memory_length, uint8_t *answers, size_t answers_length);

/* A tick, each millisecond. */
log_gate_result log_gate_tick(uint8_t *state, size_t state_length, uint8_t *memory, size_t memory_length);

/*
 * The gate's own program collects what 0x10 brought: a new command is handed out once, its code first; a length of 0 is nothing new.
 * Bytes of the buffer behind the command, or all of them when nothing is new, keep their values. Needs LOG_GATE_DATA_ROOM, always.
 */
log_gate_taken log_gate_collect(uint8_t *state, size_t state_length, uint8_t *out, size_t out_length);

/* It reports the result of the command that it collected. */
log_gate_result log_gate_report(uint8_t *state, size_t state_length, uint8_t result);

/*
 * What the panel is told: a refusal or LOG_GATE_TAKEN, and the status. Where the call is refused, nothing was prepared or started, and
 * the status is LOG_GATE_NOT_SERVED, which neither call says when it is taken.
 */
typedef struct {
    log_gate_result refusal;
    uint8_t status;
} log_gate_said;

/*
 * The gate's front panel prepares the recorder. It gives 0x09's data part, numbers lowest byte first: mode (1 byte: 0 none, 1 rising, 2
 * falling), samples (2), post-trigger (2), time divider (2), the trigger's address (2), size (1), sign (1: 0 unsigned, 1 signed) and
 * threshold (4), then how many variables (1 byte, 1 to 8) and of each its size (1) and address (2). It is told 0x09's statuses in
 * their order: LOG_GATE_MESSAGE_TOO_LONG above 64 bytes, then LOG_GATE_BUSY, LOG_GATE_LAYOUT_WRONG, LOG_GATE_SIZE_WRONG,
 * LOG_GATE_RANGE_WRONG; each leaves the former setup. After LOG_GATE_DONE the recorder stands until it is started, as one that has
 * taken no set. A message that is coming over the port goes on.
 */
log_gate_said log_gate_prepare(uint8_t *state, size_t state_length, const uint8_t *data, size_t data_length);

/* The front panel starts the recorder: LOG_GATE_DONE, LOG_GATE_RECORDER_RUNS or LOG_GATE_NOT_SET_UP, as 0xC1 answers. */
log_gate_said log_gate_start(uint8_t *state, size_t state_length);

/* ---- the second port */

/*
 * A whole Modbus frame came over the second port, marked off by the gate: Modbus on a serial line, RTU framing, for the station that
 * the gate is there. Functions 3, 6, 16 and 22 are served. Register r is bytes 2r and 2r + 1 of the memory, low byte first; all of
 * the memory can be read, bytes 0 to 8,191 can be written. The answer's length is told, check sum and all; a length of 0 is
 * silence: for a frame below 4 or above 256 bytes, another station or station 0, a function byte above 127, or a wrong check sum. An
 * exception is told in this order: 1 for another function, 3 for a quantity outside 1 to 125 (read) or 123 (write), or a byte count or
 * a frame length that does not fit, 2 for an address. Silence and exceptions change nothing. The two ports share the memory and nothing else, so no state is lent. Refuses LOG_GATE_MEMORY_REFUSED, then
 * LOG_GATE_ROOM_REFUSED below LOG_GATE_MODBUS_ROOM, where silence follows too, then LOG_GATE_STATION_REFUSED.
 */
log_gate_taken log_gate_modbus(uint16_t station, const uint8_t *frame, size_t frame_length, uint8_t *memory, size_t memory_length,
                               uint8_t *out, size_t out_length);

/* ---- both ends of the line */

/* An answer's bytes for the wire, from its status and data. Needs LOG_GATE_ANSWER_ROOM. */
log_gate_taken log_gate_write_answer(uint8_t status, const uint8_t *data, size_t data_length, uint8_t *out, size_t out_length);

/* A command message's bytes for the wire. Needs as much room as it writes, LOG_GATE_COMMAND_ROOM at most. */
log_gate_taken log_gate_write_command(uint8_t command, const uint8_t *data, size_t data_length, uint8_t *out,
                                      size_t out_length);

/* What a byte of an answer brought: with `whole` 1, the status, and how many bytes of the lent buffer are its data. */
typedef struct {
    log_gate_result refusal;
    uint8_t whole;
    uint8_t status;
    uint8_t length;
} log_gate_read;

/* A reading begins: answers with a clear top bit carry so many data. The reader may hold anything before. */
log_gate_result log_gate_reader_begin(uint8_t *reader, size_t reader_length, size_t expected);

/* A byte came from the target. Needs LOG_GATE_DATA_ROOM, and writes it only with a whole right answer. */
log_gate_read log_gate_reader_byte(uint8_t *reader, size_t reader_length, uint8_t byte, uint8_t *data, size_t data_length);

/* ---- how the library lays out what it returns, and how wide a length is there; looked at where the language can */

#if defined __cplusplus && __cplusplus >= 201103L
#define LOG_GATE_ASSERT(holds, what) static_assert(holds, what)
#elif !defined __cplusplus && defined __STDC_VERSION__ && __STDC_VERSION__ >= 201112L
#define LOG_GATE_ASSERT(holds, what) _Static_assert(holds, what)
#endif

#ifdef LOG_GATE_ASSERT
LOG_GATE_ASSERT(CHAR_BIT == 8, "a byte has 8 bits");
LOG_GATE_ASSERT(sizeof(log_gate_taken) == 2 * sizeof(size_t), "log_gate_taken is two words");
LOG_GATE_ASSERT(offsetof(log_gate_taken, length) == sizeof(size_t), "its length is the second");
LOG_GATE_ASSERT(sizeof(log_gate_block_taken) == 3 * sizeof(size_t), "log_gate_block_taken is three words");
LOG_GATE_ASSERT(offsetof(log_gate_block_taken, taken) == sizeof(size_t), "what was taken is the second");
LOG_GATE_ASSERT(offsetof(log_gate_block_taken, written) == 2 * sizeof(size_t), "what was written is the third");
LOG_GATE_ASSERT(sizeof(log_gate_said) == 2, "log_gate_said is two bytes");
LOG_GATE_ASSERT(sizeof(log_gate_read) == 4, "log_gate_read is four bytes");
#ifdef __x86_64__
LOG_GATE_ASSERT(sizeof(size_t) == 8 && sizeof(void *) == 8, "lengths and pointers have 64 bits in the library");
#endif
#undef LOG_GATE_ASSERT
#endif

#ifdef __cplusplus
}
#endif

#endif
