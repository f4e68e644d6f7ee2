/* What the programs that measure calls beside plain C have in common: words, draws, complaints and times. */
#define _POSIX_C_SOURCE 199309L

#include "measure.h"

#include <stdio.h>
#include <stdlib.h>
#include <string.h>
#include <time.h>

#include "blocks.h"

bool one_in(uint64_t *row, unsigned n)
{
    return draw(row) % n == 0;
}

void differ(const char *program, const char *what, long at)
{
    fprintf(stderr, "%s: %s %ld differs\n", program, what, at);
    abort();
}

static int check(const struct subject *subject)
{
    unsigned long seen[256] = {0};
    long calls = subject->check(seen);

    for (size_t i = 0; i < subject->answer_count; i++) {
        if (seen[subject->answers[i]] == 0) {
            fprintf(stderr, "%s: no call was answered %d\n", subject->name, subject->answers[i]);
            return 1;
        }
    }
    printf("%s: the same in %ld calls, every answer among them\n", subject->name, calls);
    return 0;
}

static void renew(const struct subject *subject, int call)
{
    if (subject->renew != NULL)
        subject->renew(call);
}

/* Time of the processor, so that other programs' turns aren't counted. */
static double timed_pass(const struct subject *subject, int call, bool rattle)
{
    struct timespec from, to;

    renew(subject, call);
    clock_gettime(CLOCK_PROCESS_CPUTIME_ID, &from);
    subject->pass(call, rattle);
    clock_gettime(CLOCK_PROCESS_CPUTIME_ID, &to);
    return (double)(to.tv_sec - from.tv_sec) * 1e9 + (double)(to.tv_nsec - from.tv_nsec);
}

/* The least of all rounds is the one that was disturbed least. */
static void time_both(const struct subject *subject, int call)
{
    double least[2] = {1e9, 1e9};

    for (int i = 0; i < subject->rounds; i++) {
        for (int plain = 0; plain < 2; plain++) {
            double t = timed_pass(subject, call, !plain) / subject->inputs;
            if (t < least[plain])
                least[plain] = t;
        }
    }
    printf("%.1f %.1f\n", least[0], least[1]);
}

/* A call's place among the names, or -1. */
static int call_named(const struct subject *subject, const char *name)
{
    for (int i = 0; subject->calls[i] != NULL; i++)
        if (strcmp(subject->calls[i], name) == 0)
            return i;
    return -1;
}

static int misused(const struct subject *subject)
{
    fprintf(stderr, "%s: check, time CALL LENGTH or pass CALL LENGTH rattle|plain, with a length of %zu to %zu; CALL is one of",
            subject->name, subject->shortest, subject->longest);
    for (int i = 0; subject->calls[i] != NULL; i++)
        fprintf(stderr, " %s", subject->calls[i]);
    fputs("\n", stderr);
    return 2;
}

int measure(const struct subject *subject, int argc, char **argv)
{
    const char *task = argc > 1 ? argv[1] : "";
    const char *side = argc > 4 ? argv[4] : "";
    int call = argc > 3 ? call_named(subject, argv[2]) : -1;
    size_t length = argc > 3 ? strtoul(argv[3], NULL, 10) : subject->longest;

    if (length < subject->shortest || length > subject->longest)
        return misused(subject);
    subject->prepare(length, strcmp(side, "plain") == 0); /* never by the call that is counted */
    if (argc == 2 && strcmp(task, "check") == 0)
        return check(subject);
    if (call >= 0 && argc == 4 && strcmp(task, "time") == 0) {
        time_both(subject, call);
        return 0;
    }
    if (call >= 0 && argc == 5 && strcmp(task, "pass") == 0) {
        renew(subject, call);
        subject->pass(call, strcmp(side, "rattle") == 0);
        printf("%d\n", subject->inputs);
        return 0;
    }
    return misused(subject);
}
