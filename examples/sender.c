/*
 * A sender: writes the blocks of a schedule, and of the page in the slot that follows it, to standard output.
 *
 *   sender CURRENT PREVIOUS BEGIN < TEXT
 *
 * CURRENT and PREVIOUS are plan files. The text, in Latin 1, is that of the page in slot BEGIN of the current plan; of a longer
 * one no more is read than can't fit. All eight blocks are made before the first is written: what is refused goes out in no part.
 */
#define PROGRAM "sender"
#include "arguments.h"

enum { ENTRY = 6, PAGE = 2 };

static uint16_t sixteen(const uint8_t *octets)
{
    return (uint16_t)(octets[0] << 8 | octets[1]);
}

int main(int count, char **words)
{
    uint8_t current[ROOM], previous[ROOM], schedule[CB_OUTPUT], page[CB_OUTPUT], blocks[2 * CB_BLOCKS];
    uint16_t text[CB_TEXT + 1];
    size_t length = 0;
    int character;

    if (count != 4)
        return fail("name two plan files and Begin", 0);
    size_t current_len = load(words[1], current, sizeof current);
    size_t previous_len = load(words[2], previous, sizeof previous);
    size_t begin = read_begin(words[3]);

    uint32_t told = cb_write_schedule(current, current_len, previous, previous_len, begin, schedule, sizeof schedule);
    if (CB_NUMBER(told) != 0)
        return fail("the schedule", CB_NUMBER(told));

    const uint8_t *entry = current + ENTRY * begin; /* the schedule is written, so Begin is a slot of the plan */
    if (entry[0] != PAGE)
        return fail("slot BEGIN of the current plan has no page", 0);
    while (length < CB_TEXT + 1 && (character = getchar()) != EOF)
        text[length++] = (uint16_t)character;
    if (ferror(stdin))
        return fail("standard input can't be read", 0);
    uint32_t written =
        cb_write_text(sixteen(entry + 1), sixteen(entry + 3), 0x00, entry[5], text, length, page, sizeof page);
    if (CB_NUMBER(written) != 0)
        return fail("the text", CB_NUMBER(written));

    uint32_t number = cb_write_blocks(schedule, sizeof schedule, true, CB_COUNT(told), blocks, CB_BLOCKS);
    if (number == 0)
        number = cb_write_blocks(page, sizeof page, false, CB_COUNT(written), blocks + CB_BLOCKS, CB_BLOCKS);
    if (number != 0)
        return fail("the blocks", number);

    if (fwrite(blocks, 1, sizeof blocks, stdout) != sizeof blocks || fflush(stdout) != 0)
        return fail("standard output can't be written", 0);
    return 0;
}
