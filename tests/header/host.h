/* What the program of stored results, results.c, needs of the machine that it runs on. */
#ifndef HOST_H
#define HOST_H

#include <stdbool.h>
#include <stddef.h>

extern const char host_test[]; /* the test that its messages begin with */

const char *host_open(void);           /* opens the next file of stored results: its name, or NULL after the last */
long host_read(char *to, size_t size); /* reads on in it: the octets read, 0 at its end, under 0 if it can't be read */
void host_tell(const char *text);      /* writes what came of all */
void host_say(const char *text);       /* writes what is wrong */
void host_end(int status) __attribute__((noreturn));

/* Stand right before a call and right after it, for a host that watches what it does. */
void host_before(void);
void host_after(const char *call);

/* Whether some call doesn't look at the upper half of a length, which it then says; lengths.c has it. */
bool lengths_wrong(void);

/* Runs all files: the status to end with. */
int run_results(void);

#endif
