/* What the examples that take plan files share: how they fail, the files, and Begin. PROGRAM is the name that each gives itself. */
#ifndef ARGUMENTS_H
#define ARGUMENTS_H

#include <stdio.h>
#include <stdlib.h>
#include <string.h>

#include "csobvarit.h"

enum { ROOM = CB_PLAN + 1 }; /* for a plan file, and an octet more */

static int fail(const char *what, uint32_t number)
{
    if (number != 0)
        fprintf(stderr, PROGRAM ": %s: refused by %u\n", what, (unsigned)number);
    else
        fprintf(stderr, PROGRAM ": %s\n", what);
    return 1;
}

/* Reads a file that has at most `room` octets of use; one octet more shows that it is too long. */
static size_t load(const char *name, uint8_t *file, size_t room)
{
    FILE *from = fopen(name, "rb");
    size_t length = from == NULL ? 0 : fread(file, 1, room, from);

    if (from == NULL || ferror(from)) {
        fprintf(stderr, PROGRAM ": %s can't be read\n", name);
        exit(1);
    }
    fclose(from);
    return length;
}

/* Reads Begin, the number of a slot in decimal. */
static size_t read_begin(const char *word)
{
    size_t digits = strspn(word, "0123456789"), begin = strtoul(word, NULL, 10);

    if (word[digits] != '\0' || begin < 1 || begin > CB_SLOTS)
        exit(fail("Begin isn't a number from 1 to 48", 0));
    return begin;
}

#endif
