/*
 * What the fuzzing loop consists of; the functions stand in the files of their subjects.
 *
 *     THROWN(weight, name)   throw_NAME: makes a call over random bytes and looks at all that it leaves, so often among all others
 *     ANSWERED(name)         look_at_NAME: whether the answer to a message is the one due
 *     SWEPT(name)            sweep_NAME: every value of a part of the live state
 *     COUNTED(name)          tell_NAME and require_NAME: what else came beside refusals, and that all came that can
 */
#ifndef THROWN
#define THROWN(weight, name)
#endif
#ifndef ANSWERED
#define ANSWERED(name)
#endif
#ifndef SWEPT
#define SWEPT(name)
#endif
#ifndef COUNTED
#define COUNTED(name)
#endif

THROWN(18, byte)
THROWN(6, tick)
THROWN(3, reader_byte)
THROWN(1, check)
THROWN(1, write_answer)
THROWN(1, write_command)
THROWN(1, collect)
THROWN(1, report)
THROWN(1, register)
THROWN(1, block)
THROWN(1, panel)
THROWN(1, modbus)
THROWN(2, beginning)

ANSWERED(application)
ANSWERED(names)

SWEPT(bytes)
SWEPT(application)
SWEPT(tables)

COUNTED(refusals)
COUNTED(answers)
COUNTED(application)
COUNTED(tables)
COUNTED(names)
COUNTED(panel)
COUNTED(frames)
COUNTED(blocks)

#undef THROWN
#undef ANSWERED
#undef SWEPT
#undef COUNTED
