/*
 * What can be reached, written down from the documents. tests/fuzz/ and second/ count what comes, and fail where something of this
 * list never comes, or something else does. C includes it with macros for the rows it wants; second/src/reachable.rs reads it as
 * text, a row to a line. Statuses are hex, all other results decimal.
 */
#ifndef COMMAND
#define COMMAND(code, name, statuses)
#endif
#ifndef OTHER_COMMANDS
#define OTHER_COMMANDS(kind, statuses)
#endif
#ifndef CALL
#define CALL(name, line, by_scripts, besides)
#endif
#ifndef PANEL
#define PANEL(name, line, statuses)
#endif
#ifndef FUNCTION
#define FUNCTION(code, name, exceptions)
#endif
#ifndef OTHER_FUNCTIONS
#define OTHER_FUNCTIONS(exceptions)
#endif

/* Every command served, by the header's name, and the statuses that can answer it. */
COMMAND(0x01, READ_BYTES,            "00 82 83 84 85 86 89")
COMMAND(0x02, WRITE_BYTES,           "00 82 83 85 86 89")
COMMAND(0x03, WRITE_BYTES_MASKED,    "00 82 83 85 86 89")
COMMAND(0x04, READ_BYTES_EX,         "00 82 83 84 85 86 89")
COMMAND(0x05, WRITE_BYTES_EX,        "00 82 83 85 86 89")
COMMAND(0x06, WRITE_BYTES_MASKED_EX, "00 82 83 85 86 89")
COMMAND(0x08, SET_UP_SCOPE,          "00 82 83 85 86 89")
COMMAND(0x09, SET_UP_RECORDER,       "00 82 83 85 86 87 89")
COMMAND(0x0A, SET_UP_SCOPE_EX,       "00 82 83 85 86 89")
COMMAND(0x0B, SET_UP_RECORDER_EX,    "00 82 83 85 86 87 89")
COMMAND(0x10, SEND_COMMAND,          "00 82 83 85 87")
COMMAND(0x11, QUERY_TABLE,           "00 82 83 85")
COMMAND(0xC0, DESCRIBE,              "00 82")
COMMAND(0xC1, START_RECORDER,        "00 01 82 88")
COMMAND(0xC2, STOP_RECORDER,         "00 02 82 88")
COMMAND(0xC3, RECORDER_STATUS,       "01 02 82 88")
COMMAND(0xC4, QUERY_BUFFER,          "00 82 87 88")
COMMAND(0xC5, READ_SCOPE,            "00 82 84 88")
COMMAND(0xC6, COMMAND_RESULT,        "00 82")
COMMAND(0xC8, DESCRIBE_BRIEFLY,      "00 82")
COMMAND(0xC9, QUERY_BUFFER_EX,       "00 82 87 88")
COMMAND(0xD0, READ_1,                "00 82 89")
COMMAND(0xD1, READ_2,                "00 82 89")
COMMAND(0xD2, READ_4,                "00 82 89")
COMMAND(0xD4, STRING_LENGTH,         "00 82 86 89")
COMMAND(0xE0, READ_1_EX,             "00 82 89")
COMMAND(0xE1, READ_2_EX,             "00 82 89")
COMMAND(0xE2, READ_4_EX,             "00 82 89")
COMMAND(0xE3, WRITE_1,               "00 82 89")
COMMAND(0xE4, WRITE_2,               "00 82 89")
COMMAND(0xE5, WRITE_1_MASKED,        "00 82 89")
COMMAND(0xE6, STRING_LENGTH_EX,      "00 82 86 89")
COMMAND(0xF0, WRITE_4,               "00 82 89")
COMMAND(0xF1, WRITE_2_MASKED,        "00 82 89")

/* The others with a length byte, and those without. */
OTHER_COMMANDS(standard, "81 82 83")
OTHER_COMMANDS(fast,     "81 82")

/*
 * Every call of the header and its refusals, 0 for none: first those that a line of a script prints, if one does, then those that
 * only lent bytes bring that no script can lend.
 */
CALL(reset,         -, "",      "0 1")
CALL(register,      G, "0 8",   "1 2")
CALL(check,         -, "",      "0 1")
CALL(byte,          -, "",      "0 1 2 3")
CALL(block,         K, "0 3",   "1 2")
CALL(tick,          -, "",      "0 1 2")
CALL(collect,       C, "0 3",   "1")
CALL(report,        Y, "0 7",   "1")
CALL(prepare,       -, "",      "0 1")
CALL(start,         -, "",      "0 1")
CALL(modbus,        U, "0 3 9", "2")
CALL(write_answer,  V, "0 3 4", "")
CALL(write_command, W, "0 3 4", "")
CALL(reader_begin,  E, "0 5",   "1")
CALL(reader_byte,   R, "0 3 6", "1")

/* What the panel can be told. */
PANEL(prepare, F, "00 83 85 86 87 89")
PANEL(start,   S, "00 01 88")

/* The functions served at the second port, and the exceptions that can answer them, 0 for none; then those of all others. */
FUNCTION(3,  "read",      "0 2 3")
FUNCTION(6,  "write one", "0 2 3")
FUNCTION(16, "write",     "0 2 3")
FUNCTION(22, "mask",      "0 2 3")
OTHER_FUNCTIONS("1")

#undef COMMAND
#undef OTHER_COMMANDS
#undef CALL
#undef PANEL
#undef FUNCTION
#undef OTHER_FUNCTIONS
