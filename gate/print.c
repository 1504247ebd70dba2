#include "print.h"

#include "map.h"
#include "memory.h"

#include <stdio.h>

static void print_bytes(const char *what, const uint8_t *bytes, size_t length)
{
    printf("%s", what);
    for (size_t i = 0; i < length; i++)
        printf(" %02X", bytes[i]);
    printf("\n");
}

/* A line for a shell that sends the bytes and shows what comes within a second, however many of its bytes are doubled. */
static void print_shell_line(const uint8_t *bytes, size_t length, const char *path)
{
    printf("  (printf '");
    for (size_t i = 0; i < length; i++)
        printf("\\%03o", bytes[i]);
    printf("' >&0; timeout 1 cat) <>%s | od -A n -t x1\n", path);
}

static size_t form(uint8_t command, const uint8_t *data, size_t length, uint8_t *wire)
{
    return log_gate_write_command(command, data, length, wire, LOG_GATE_COMMAND_ROOM).length;
}

/* Which register of the second port a variable is, or which half of one, or which two. */
static void print_registers(int address, int bytes)
{
    if (bytes == 1)
        printf("%5d %-4s", address / 2, address % 2 == 0 ? "low" : "high");
    else if (bytes == 2)
        printf("%5d     ", address / 2);
    else
        printf("%5d, %-3d", address / 2, address / 2 + 1);
}

static void print_variable(int address, int bytes, int access, const char *name, const char *what)
{
    printf("%7d  %5d  ", address, bytes);
    print_registers(address, bytes);
    printf("  %-12s  %s%s\n", name, what, access == WRITABLE ? "; yours to write" : "");
}

static void print_map(const char *path)
{
#define GATE_LINE(symbol, address, bytes, type, access, name, what) print_variable(address, bytes, access, name, what);
    printf("Address  bytes  register    name          little-endian\n");
    GATE_MAP(GATE_LINE)
#undef GATE_LINE
    printf("What is not yours to write is not kept from you yet: a write to it is carried out.\n");
    printf("The port itself gives them by name:\n  ./run names %s\n", path);
}

/* A real exchange, with the gate as it is now. */
static void print_example(struct gate *g, const char *path)
{
    const uint8_t address[] = {COIL_1, 0};
    uint8_t wire[LOG_GATE_COMMAND_ROOM];
    size_t sent = form(LOG_GATE_READ_2, address, sizeof address, wire), length = gate_block(g, wire, sent).written;
    printf("For example, two bytes at address %d, which are coil 1:\n", COIL_1);
    print_bytes("  send    ", wire, sent);
    print_bytes("  answer  ", g->answers, length);
    printf("  so coil 1 reads %u\n", (unsigned)number_at(g->answers + 2, 2));
    printf("From a shell, the same; it shows what comes within a second, and a byte 2b among data and sum comes twice:\n");
    print_shell_line(wire, sent, path);
}

/* Its answers cannot be shown yet: the technician is to start it. */
static void print_self_test(const char *path)
{
    const uint8_t code[] = {SELF_TEST_CODE};
    uint8_t wire[LOG_GATE_COMMAND_ROOM];
    printf("The self-test of the coils takes %d seconds. It starts with\n", SELF_TEST_MS / 1000);
    size_t sent = form(LOG_GATE_SEND_COMMAND, code, sizeof code, wire);
    print_bytes("  send    ", wire, sent);
    print_shell_line(wire, sent, path);
    printf("and is asked for its result with\n");
    sent = form(LOG_GATE_COMMAND_RESULT, code, 0, wire);
    print_bytes("  send    ", wire, sent);
    print_shell_line(wire, sent, path);
    printf("  The third byte of that answer: %02X before any test, %02X while it runs, then 00, or the number of a bad coil.\n",
           LOG_GATE_NO_COMMAND, LOG_GATE_RESULT_DUE);
}

/* The button is a variable, so that it can be pressed from here. */
static void print_panel(const char *path)
{
    const uint8_t press[] = {PANEL, 0, PANEL_PRESSED, 0};
    uint8_t wire[LOG_GATE_COMMAND_ROOM];
    size_t sent = form(LOG_GATE_WRITE_1, press, sizeof press, wire);
    printf("The front panel's button prepares the recorder, which starts when the next log arrives and takes %d readings of coil 1,\n"
           "%d ms apart. It is pressed with\n",
           PANEL_READINGS, PANEL_STEP_MS);
    print_bytes("  send    ", wire, sent);
    print_shell_line(wire, sent, path);
    printf("  'panel' is then %d until that log comes, and 0 again; or it is the status that refused, %02X while the recorder runs.\n",
           PANEL_WAITS, LOG_GATE_BUSY);
}

/* mbpoll is a Debian package; with -0 it counts registers from 0, as the frames do. */
static void print_mbpoll(const struct gate *g, int address, const char *count, const char *path, const char *value)
{
    printf("  mbpoll -m rtu -b 19200 -P none -a %u -0 -r %d%s -1 %s%s\n", g->station, address / 2, count, path, value);
}

static void print_second(const struct gate *g, const char *path)
{
    printf("The second port speaks Modbus (RTU, station %u, functions 3, 6, 16 and 22). Register r is bytes r * 2 and r * 2 + 1.\n",
           g->station);
    printf("The %d coils are read, and the threshold is written, with\n", COILS);
    print_mbpoll(g, COIL_1, " -c 4", path, "");
    print_mbpoll(g, THRESHOLD, "", path, " 1200");
    printf("Of two registers the first is the low word. Where two variables share a register, function 22 writes one half alone.\n");
}

void print_welcome(struct gate *g, const char *path, const char *second)
{
    printf("The service port is %s\n", path);
    printf("The second port is %s\n\n", second);
    print_map(path);
    printf("\n");
    print_example(g, path);
    printf("\n");
    print_self_test(path);
    printf("\n");
    print_panel(path);
    printf("\n");
    print_second(g, second);
    printf("\nStop with Ctrl-C.\n");
    fflush(stdout);
}

void print_farewell(const struct gate *g)
{
    printf("\nThe gate is closed: %llu ticks, %u logs, %u alarms; %llu bytes came, %llu bytes of answers went.\n",
           (unsigned long long)g->ticks, (unsigned)number_at(g->memory + LOGS, 4),
           (unsigned)number_at(g->memory + ALARMS, 4), (unsigned long long)g->came, (unsigned long long)g->went);
    printf("At the second port %llu frames came, %llu answers went.\n", (unsigned long long)g->frames_came,
           (unsigned long long)g->frames_went);
    if (g->lost > 0)
        printf("The machine was late, and %llu ticks were lost.\n", (unsigned long long)g->lost);
}
