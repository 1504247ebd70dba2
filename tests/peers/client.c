/*
 * The mill's controller, played by libmodbus: client PATH. It writes, masks and reads registers of the virtual gate's second port, and
 * asks for what the station refuses. What it prints is held against tests/peers/expected.txt, as is what client.py prints.
 */
#include <modbus.h>

#include <errno.h>
#include <stdio.h>

enum { STATION = 1, OTHER_STATION = 2, BAUD = 19200 };

/* How long an answer may take on a busy machine, and how long none has to come to be none. */
enum { ANSWER_S = 3, SILENCE_US = 300000 };

static modbus_t *line;

/* What came of a request: its registers if it read some, the exception's code, or silence. */
static void tell(const char *what, int result, const uint16_t *registers)
{
    printf("%s:", what);
    if (result >= 0 && registers == NULL)
        printf(" done");
    else if (result >= 0)
        for (int i = 0; i < result; i++)
            printf(" %u", registers[i]);
    else if (errno == ETIMEDOUT)
        printf(" silence");
    else if (errno > MODBUS_ENOBASE && errno < MODBUS_ENOBASE + MODBUS_EXCEPTION_MAX)
        printf(" exception %d", errno - MODBUS_ENOBASE);
    else
        printf(" %s", modbus_strerror(errno));
    printf("\n");
}

static void read_some(const char *what, int from, int quantity)
{
    uint16_t registers[MODBUS_MAX_READ_REGISTERS];
    tell(what, modbus_read_registers(line, from, quantity, registers), registers);
}

static void use_registers(void)
{
    const uint16_t three[] = {1, 2, 3};
    read_some("read before", 100, 3);
    tell("write 3 registers", modbus_write_registers(line, 100, 3, three), NULL);
    read_some("read them", 100, 3);
    tell("write one", modbus_write_register(line, 101, 0x0012), NULL);
    tell("mask it", modbus_mask_write_register(line, 101, 0x00F2, 0x0025), NULL);
    read_some("read them", 100, 3);
}

/* As many as a frame can hold, up to the last register that can be written, and to the last that can be read. */
static void use_most(void)
{
    uint16_t most[MODBUS_MAX_WRITE_REGISTERS];
    for (int i = 0; i < MODBUS_MAX_WRITE_REGISTERS; i++)
        most[i] = (uint16_t)(1000 + i);
    tell("write 123 registers", modbus_write_registers(line, 4096 - 123, 123, most), NULL);
    read_some("read 125", 4096 - 125, 125);
    read_some("read the last", 8191, 1);
}

static void be_refused(void)
{
    uint16_t registers[8];
    tell("another function", modbus_read_input_registers(line, 100, 1, registers), registers);
    read_some("read none", 100, 0);
    read_some("read behind the last", 8191, 2);
    tell("write behind the last", modbus_write_register(line, 4096, 1), NULL);
    tell("write across it", modbus_write_registers(line, 4095, 2, registers), NULL);
    tell("mask behind it", modbus_mask_write_register(line, 4096, 0, 1), NULL);
    modbus_set_slave(line, OTHER_STATION);
    modbus_set_response_timeout(line, 0, SILENCE_US);
    read_some("another station", 100, 1);
}

/* As the next one is to find them. */
static void clear(void)
{
    const uint16_t zeros[MODBUS_MAX_WRITE_REGISTERS] = {0};
    tell("clear 3 registers", modbus_write_registers(line, 100, 3, zeros), NULL);
    tell("clear 123", modbus_write_registers(line, 4096 - 123, 123, zeros), NULL);
}

int main(int argc, char **argv)
{
    line = argc == 2 ? modbus_new_rtu(argv[1], BAUD, 'N', 8, 1) : NULL;
    if (line == NULL || modbus_set_slave(line, STATION) != 0 || modbus_connect(line) != 0) {
        fprintf(stderr, "client: no station can be spoken to\n");
        return 1;
    }
    modbus_set_response_timeout(line, ANSWER_S, 0);
    use_registers();
    use_most();
    clear();
    be_refused();
    modbus_close(line);
    modbus_free(line);
    return 0;
}
