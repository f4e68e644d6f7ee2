/* Runs stored results with the C library: results FILE... */
#include <stdio.h>
#include <stdlib.h>

#include "host.h"

const char host_test[] = "tests/header";

static char **names; /* of the files that aren't opened yet */
static FILE *from;

const char *host_open(void)
{
    if (from != NULL)
        fclose(from);
    from = NULL;
    if (*names == NULL)
        return NULL;
    from = fopen(*names, "r");
    return *names++;
}

long host_read(char *to, size_t size)
{
    size_t count = from == NULL ? 0 : fread(to, 1, size, from);

    return count == 0 && (from == NULL || ferror(from)) ? -1 : (long)count;
}

void host_tell(const char *text)
{
    fputs(text, stdout);
}

void host_say(const char *text)
{
    fputs(text, stderr);
}

void host_end(int status)
{
    exit(status);
}

void host_before(void) {}
void host_after(const char *call) { (void)call; }

int main(int count, char **words)
{
    (void)count;
    names = words + 1;
    return run_results();
}
