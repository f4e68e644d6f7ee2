/* The listing program in plain C: for each piece on standard input its number, the answer and the octets received. */
#define _POSIX_C_SOURCE 200809L

#include <stdbool.h>
#include <stdio.h>
#include <string.h>
#include <unistd.h>

#include "plain.h"

enum { PIECE = 23, STATE = 90, OUTPUT = 88 };
enum { INPUT_ROOM = 65536 / PIECE * PIECE }; /* whole pieces, so that none lies across two reads */
enum { TEXT_ROOM = 65536, LINE_ROOM = 48 };

static char text[TEXT_ROOM];
static size_t text_len;

static bool write_text(void)
{
    for (size_t at = 0; at < text_len;) {
        ssize_t n = write(STDOUT_FILENO, text + at, text_len - at);
        if (n < 0)
            return false;
        at += (size_t)n;
    }
    text_len = 0;
    return true;
}

static void put_number(unsigned long n, char after)
{
    char digits[20];
    size_t i = sizeof digits;

    do {
        digits[--i] = (char)('0' + n % 10);
        n /= 10;
    } while (n > 0);
    memcpy(text + text_len, digits + i, sizeof digits - i);
    text_len += sizeof digits - i;
    text[text_len++] = after;
}

/* Reads until the room is full or the input ends; a pipe may give less at a time. */
static ssize_t read_full(uint8_t *room, size_t size)
{
    size_t have = 0;

    while (have < size) {
        ssize_t n = read(STDIN_FILENO, room + have, size - have);
        if (n < 0)
            return -1;
        if (n == 0)
            break;
        have += (size_t)n;
    }
    return (ssize_t)have;
}

static int fail(const char *what)
{
    fprintf(stderr, "cblist: %s\n", what);
    return 1;
}

int main(void)
{
    static uint8_t input[INPUT_ROOM];
    static const char header[] = "block answer octets\n";
    uint8_t state[STATE];
    uint8_t output[OUTPUT];
    unsigned long number = 0;
    ssize_t have;

    plain_start(state, sizeof state);
    memcpy(text, header, sizeof header - 1);
    text_len = sizeof header - 1;
    while ((have = read_full(input, sizeof input)) > 0) {
        size_t end = (size_t)have;

        for (size_t at = 0; at < end; at += PIECE) {
            size_t length = end - at < PIECE ? end - at : PIECE;
            uint32_t returned = plain_intake(state, sizeof state, input + at, length, output, sizeof output);

            if (text_len > TEXT_ROOM - LINE_ROOM && !write_text())
                return fail("standard output can't be written");
            put_number(++number, ' ');
            put_number(returned & 0xFF, ' ');
            put_number(returned >> 8, '\n');
        }
    }
    if (have < 0)
        return fail("standard input can't be read");
    if (!write_text())
        return fail("standard output can't be written");
    return 0;
}
