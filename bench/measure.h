/* What the programs that measure calls beside plain C have in common. */
#ifndef MEASURE_H
#define MEASURE_H

#include <stdbool.h>
#include <stddef.h>
#include <stdint.h>

/* What such a program measures: some calls of csobvarit.h, each beside the call of plain C with the same name. */
struct subject {
    const char *name;          /* the program's */
    const char *const *calls;  /* their names without cb_ or plain_, and NULL */
    size_t shortest, longest;  /* lengths of input that it takes: characters or slots, or 0 where nothing varies */
    int inputs, rounds;        /* calls in a pass, and passes that are timed */

    /* Makes the inputs of that length. What it calls itself is plain C's, or with by_rattle Rattle's. */
    void (*prepare)(size_t length, bool by_rattle);
    /* Makes what a pass of a call changes as it was before; NULL where nothing is changed that matters. */
    void (*renew)(int call);
    /* Goes once over the inputs with a call, by its place among the names. */
    void (*pass)(int call, bool rattle);
    /* Holds Rattle and plain C to the same numbers and memory, on how many calls. */
    long (*check)(unsigned long *seen);
    const uint8_t *answers;    /* numbers that must be seen among those calls */
    size_t answer_count;
};

/*
 * The program itself; gives its exit status.
 *
 *   check                          calls near good ones must leave the same number and memory
 *   time CALL LENGTH               prints nanoseconds a call, Rattle and plain C
 *   pass CALL LENGTH rattle|plain  calls once for each input and prints how many, for a counter of instructions
 */
int measure(const struct subject *subject, int argc, char **argv);

/* True once in n draws. */
bool one_in(uint64_t *row, unsigned n);

/* Says what differs, and where, and ends the program. */
void differ(const char *program, const char *what, long at);

#endif
