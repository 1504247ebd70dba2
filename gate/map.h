/* Where the gate's program keeps its variables: one table, from which addresses, printed list and table of names are made. */
#ifndef GATE_MAP_H
#define GATE_MAP_H

/* Base types by their codes, and what an entry's info says beside the size: source document 000 gives both. */
enum { UNSIGNED_1 = 0xE0, UNSIGNED_2 = 0xE1, UNSIGNED_4 = 0xE2 };
enum { READ_ONLY = 1, WRITABLE = 3 };

/*  symbol, address, bytes, base type, whether it is the technician's to write, name, what it is */
#define GATE_MAP(ROW)                                                                                                  \
    ROW(COIL_1, 16, 2, UNSIGNED_2, READ_ONLY, "coil 1", "reading of coil 1")                                           \
    ROW(COIL_2, 18, 2, UNSIGNED_2, READ_ONLY, "coil 2", "reading of coil 2")                                           \
    ROW(COIL_3, 20, 2, UNSIGNED_2, READ_ONLY, "coil 3", "reading of coil 3")                                           \
    ROW(COIL_4, 22, 2, UNSIGNED_2, READ_ONLY, "coil 4", "reading of coil 4")                                           \
    ROW(THRESHOLD, 24, 2, UNSIGNED_2, WRITABLE, "threshold", "a reading at or above it is metal")                      \
    ROW(ALARM, 26, 1, UNSIGNED_1, READ_ONLY, "alarm", "1 from the first such reading until the log has left the gate") \
    ROW(LOG_INSIDE, 27, 1, UNSIGNED_1, READ_ONLY, "log inside", "1 while a log is in the gate")                        \
    ROW(LOGS, 28, 4, UNSIGNED_4, READ_ONLY, "logs", "logs that have come since the start")                             \
    ROW(ALARMS, 32, 4, UNSIGNED_4, READ_ONLY, "alarms", "alarms since the start")                                      \
    ROW(CUT_COIL, 36, 1, UNSIGNED_1, WRITABLE, "cut coil", "number of a coil whose wire is cut, 0 for none")           \
    ROW(BELT_STOPPED, 37, 1, UNSIGNED_1, WRITABLE, "belt stopped", "1 stops the belt, so that a log stays where it is") \
    ROW(PANEL, 38, 1, UNSIGNED_1, WRITABLE, "panel", "1 presses the front panel's button")

#define GATE_ADDRESS(symbol, address, bytes, type, access, name, what) symbol = address,
enum { GATE_MAP(GATE_ADDRESS) };
#undef GATE_ADDRESS

enum { COILS = 4 };

#endif
