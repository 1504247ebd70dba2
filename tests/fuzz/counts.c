#include "counts.h"

#include <stdio.h>
#include <stdlib.h>

uint64_t seed = 1, rounds = 400000, current, digest = 14695981039346656037ull;

void expect(int holds, const char *what)
{
    if (holds)
        return;
    printf("fuzz: %s (seed %llu, round %llu)\n", what, (unsigned long long)seed, (unsigned long long)current);
    exit(1);
}

void digest_bytes(const uint8_t *bytes, size_t length)
{
    for (size_t i = 0; i < length; i++)
        digest = (digest ^ bytes[i]) * 1099511628211ull;
}

int is_listed(const char *results, unsigned result, int base)
{
    int listed = 0;
    for (char *end; *results != '\0'; results = end)
        listed |= strtoul(results, &end, base) == result;
    return listed;
}

/* ---- refusals: each that a call can give has to come, and no other */

static const struct {
    const char *name, *by_scripts, *besides;
} calls[CALLS] = {
#define CALL(name, line, by_scripts, besides) {#name, by_scripts, besides},
#include "../reachable.h"
};

static uint64_t refusals[CALLS][REFUSALS];

void count(enum call call, uint8_t refusal)
{
    refusals[call][refusal]++;
    digest_bytes(&refusal, 1);
}

static int can_come(int call, unsigned refusal)
{
    return is_listed(calls[call].by_scripts, refusal, DECIMAL) || is_listed(calls[call].besides, refusal, DECIMAL);
}

/* A column for each refusal up to the highest that some call can give. */
static unsigned columns(void)
{
    unsigned highest = 0;
    for (int call = 0; call < CALLS; call++)
        for (unsigned refusal = highest + 1; refusal < REFUSALS; refusal++)
            if (can_come(call, refusal))
                highest = refusal;
    return highest + 1;
}

void tell_refusals(void)
{
    unsigned most = columns();
    printf("call           taken");
    for (unsigned refusal = 1; refusal < most; refusal++)
        printf(" %5u", refusal);
    printf("\n");
    for (int call = 0; call < CALLS; call++) {
        printf("%-13s", calls[call].name);
        for (unsigned refusal = 0; refusal < most; refusal++)
            printf(refusal == 0 ? " %6llu" : " %5llu", (unsigned long long)refusals[call][refusal]);
        printf("\n");
    }
}

void require_refusals(void)
{
    char what[80];
    for (int call = 0; call < CALLS; call++)
        for (unsigned refusal = 0; refusal < REFUSALS; refusal++) {
            int came = refusals[call][refusal] > 0;
            snprintf(what, sizeof what, "%s, refusal %u: it %s", calls[call].name, refusal, came ? "cannot come" : "never came");
            expect(can_come(call, refusal) == came, what);
        }
}

/* ---- answers on the wire */

static uint64_t answers[STATUSES];

void count_answer(uint8_t status)
{
    answers[status]++;
}

void tell_statuses(const char *what, const uint64_t *came)
{
    printf("%s", what);
    for (unsigned status = 0; status < STATUSES; status++)
        if (came[status] > 0)
            printf(", %02X %llu", status, (unsigned long long)came[status]);
    printf("\n");
}

void tell_answers(void)
{
    tell_statuses("answers", answers);
}

/* Each status that some command can get has to come, and no other; which command gets which, second/ counts. */
void require_answers(void)
{
    static const char *const statuses[] = {
#define COMMAND(code, name, statuses) statuses,
#define OTHER_COMMANDS(kind, statuses) statuses,
#include "../reachable.h"
    };
    for (unsigned status = 0; status < STATUSES; status++) {
        int can_come = 0;
        for (size_t i = 0; i < sizeof statuses / sizeof statuses[0]; i++)
            can_come |= is_listed(statuses[i], status, HEX);
        expect(can_come == (answers[status] > 0), "answers with a status too few or too many");
    }
}
