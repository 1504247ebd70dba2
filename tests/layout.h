/* Where a state's parts begin, as docs/STATE.md has them. */
#ifndef LAYOUT_H
#define LAYOUT_H

/* The body, of a reader too; the scope; the recorder, and its run; the application's command; how many tables, and their list. */
enum { BODY = 6, SCOPE = 70, RECORDER = 111, RUN = 170, APPLICATION = 181, TABLES = 248, LIST = 249 };

/* What the application's part begins with, behind which the command's bytes stand; and how far a command has come. */
enum { PHASE, COUNT, RESULT, COMMAND, APPLICATION_SIZE = TABLES - APPLICATION };
enum { NO_COMMAND, WAITING, COLLECTED, ENDED };

#endif
