/*
 * A smoke test of the calls as firmware sees them. It knows the header alone: the document's staples over the wire, every
 * refusal of every call, blocks of every wrong length, and both ends of the line against each other.
 */
#include "expect.h"

#define SUBJECT(name) void test_##name(void);
#include "subjects.h"

int main(void)
{
#define SUBJECT(name) test_##name();
#include "subjects.h"
    printf("smoke: %u checks, %u failed\n", checks, failures);
    return failures > 0;
}
