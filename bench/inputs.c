/*
 * Writes what the programs are measured on to standard output: logs of so many blocks, and plan files.
 *
 *   inputs heard COUNT               blocks as a board hears them
 *   inputs texts COUNT LEAST MOST    the used blocks of pages with texts of that many characters
 *   inputs again COUNT               the blocks on standard input, over and over
 *   inputs current SLOTS             a plan file of plans.h
 *   inputs previous SLOTS            the plan file before it
 */
#include <stdio.h>
#include <stdlib.h>
#include <string.h>

#include "blocks.h"
#include "csobvarit.h"
#include "plain_simple.h"
#include "plain_text.h"
#include "plans.h"

enum { CONTENT = 22, MOST_AGAIN = 256 };

/* The used blocks of one page: how many. */
static size_t make_page(uint64_t *row, size_t length, uint8_t *four)
{
    uint16_t text[CB_TEXT];
    uint8_t page[CB_OUTPUT];

    for (size_t i = 0; i < length; i++)
        text[i] = (uint16_t)(i % 7 == 6 ? 0xE0 : 'A' + draw(row) % 26);
    size_t used = CB_COUNT(plain_write_text(0x10, 0x8001, 0, 0x11, text, length, page, sizeof page));
    plain_write_blocks(page, sizeof page, false, used, four, CB_BLOCKS);
    return (used + CONTENT - 1) / CONTENT;
}

/* The last page is cut where the log ends. */
static void make_texts(uint8_t *blocks, size_t count, size_t least, size_t most)
{
    uint64_t row = 1;
    uint8_t four[CB_BLOCKS];

    plain_text_init();
    for (size_t at = 0; at < count;) {
        size_t used = make_page(&row, least + draw(&row) % (most - least + 1), four);
        if (used > count - at)
            used = count - at;
        memcpy(blocks + BLOCK_OCTETS * at, four, BLOCK_OCTETS * used);
        at += used;
    }
}

static bool repeat(uint8_t *blocks, size_t count)
{
    uint8_t given[MOST_AGAIN][BLOCK_OCTETS];
    size_t some = fread(given, BLOCK_OCTETS, MOST_AGAIN, stdin);

    for (size_t i = 0; some > 0 && i < count; i++)
        memcpy(blocks + BLOCK_OCTETS * i, given[i % some], BLOCK_OCTETS);
    return some > 0;
}

static bool write_plan(bool current, unsigned slots)
{
    uint8_t files[2][CB_PLAN];
    uint64_t row = 1;
    size_t length = PLAN_FRONT + PLAN_ENTRY * (current ? slots : slots / 2);

    make_plans(&row, slots, files[1], files[0]);
    return fwrite(files[current], 1, length, stdout) == length;
}

static bool write_log(size_t count, int argc, char **argv)
{
    uint8_t *blocks = malloc(count * BLOCK_OCTETS + 1);
    bool made = blocks != NULL;

    if (!made)
        return false;
    if (strcmp(argv[1], "heard") == 0)
        make_blocks(blocks, count);
    else if (strcmp(argv[1], "texts") == 0 && argc == 5)
        make_texts(blocks, count, strtoul(argv[3], NULL, 10), strtoul(argv[4], NULL, 10));
    else
        made = strcmp(argv[1], "again") == 0 && repeat(blocks, count);
    made = made && fwrite(blocks, BLOCK_OCTETS, count, stdout) == count;
    free(blocks);
    return made;
}

int main(int argc, char **argv)
{
    size_t count = argc > 2 ? strtoul(argv[2], NULL, 10) : 0;
    bool current = argc == 3 && strcmp(argv[1], "current") == 0;
    bool previous = argc == 3 && strcmp(argv[1], "previous") == 0;
    bool written = false;

    if (current || previous)
        written = count <= PLAN_SLOTS && write_plan(current, (unsigned)count);
    else if (argc > 2)
        written = write_log(count, argc, argv);
    if (!written || fflush(stdout) != 0) {
        fputs("inputs: heard, texts or again with a count, or current or previous with slots; or there is no room\n", stderr);
        return 1;
    }
    return 0;
}
