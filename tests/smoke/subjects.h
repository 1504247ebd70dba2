/*
 * What the smoke test consists of. A subject is a file of its name with a function `test_` and its name; they are tried in this
 * order. A call over a state is a function of its name and `_over`, which states.h describes, in the file of its subject; beside
 * it stands whether it refuses a state outside its bounds.
 */
#ifndef SUBJECT
#define SUBJECT(name)
#endif
#ifndef OVER_STATE
#define OVER_STATE(name, looks_at_bounds)
#endif

SUBJECT(staples)
SUBJECT(both_ends)
SUBJECT(recorder)
SUBJECT(application)
SUBJECT(tables)
SUBJECT(lists)
SUBJECT(strings)
SUBJECT(messages)
SUBJECT(byte_and_tick)
SUBJECT(block)
SUBJECT(panel)
SUBJECT(writers)
SUBJECT(reader)
SUBJECT(states)
SUBJECT(modbus)

OVER_STATE(reset, false)
OVER_STATE(register, false)
OVER_STATE(check, true)
OVER_STATE(byte, true)
OVER_STATE(block, true)
OVER_STATE(empty_block, true)
OVER_STATE(tick, true)
OVER_STATE(collect, true)
OVER_STATE(report, true)
OVER_STATE(prepare, true)
OVER_STATE(start, true)

#undef SUBJECT
#undef OVER_STATE
