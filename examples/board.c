/*
 * A board: takes pieces of 23 octets from standard input, and shows what gate.c makes of them: board [IDENTIFIER...] < PIECES
 *
 * The identifiers, in hex, are those that it wants. cortex-m3/ has the same board on a bare processor.
 */
#include <stdbool.h>
#include <stdio.h>
#include <stdlib.h>
#include <string.h>

#include "csobvarit.h"
#include "gate.h"

static uint16_t wanted[CB_MOST_WANTED];
static size_t wanted_count;

static int fail(const char *what)
{
    fprintf(stderr, "board: %s\n", what);
    return 1;
}

void line_put(char character)
{
    putchar(character);
}

/* Enters a word among the identifiers wanted, and tells whether it is one. */
static bool want(const char *word)
{
    size_t digits = strspn(word, "0123456789ABCDEFabcdef");

    wanted[wanted_count++] = (uint16_t)strtoul(word, NULL, 16);
    return digits >= 1 && digits <= 4 && word[digits] == '\0';
}

int main(int count, char **words)
{
    uint8_t piece[CB_PIECE];
    size_t length;

    if (count - 1 > CB_MOST_WANTED)
        return fail("more identifiers than can be wanted");
    for (int i = 1; i < count; i++)
        if (!want(words[i]))
            return fail("an identifier isn't 1 to 4 hex digits");

    gate_start(wanted, wanted_count);
    while ((length = fread(piece, 1, sizeof piece, stdin)) > 0 && !ferror(stdin))
        gate_take(piece, length);
    if (ferror(stdin))
        return fail("standard input can't be read");
    if (fflush(stdout) != 0 || ferror(stdout))
        return fail("standard output can't be written");
    return 0;
}
