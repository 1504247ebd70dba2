/* Commands for the gate's own program. */
#include "count.h"

void collect(void)
{
    log_gate_collect(state, sizeof state, data, sizeof data);
}

/* From the laptop to the result: 0x10, the two calls of the gate's program, and 0xC6. */
void run_command(void)
{
    give(&message, message.length);
    collect();
    log_gate_report(state, sizeof state, 0);
    give(&second, second.length);
}

void prepare_command(void)
{
    uint8_t bytes[64] = {1};
    form(&message, LOG_GATE_SEND_COMMAND, bytes, 64);
    collect();
    expect(log_gate_report(state, sizeof state, 0) == LOG_GATE_TAKEN, "a result is taken");
    form(&second, LOG_GATE_COMMAND_RESULT, bytes, 0);
}
