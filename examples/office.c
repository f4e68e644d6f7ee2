/*
 * An office: reads two plan files, writes the schedule of the current one, checks it as it would anybody's, and shows that
 * a false copy of it is refused.
 *
 *   office CURRENT PREVIOUS BEGIN
 *
 * The false copy tells the last first transmission as a repeat of the first page: boards that hold that page would sleep
 * through the other.
 */
#define PROGRAM "office"
#include "arguments.h"

enum { DESCRIPTIONS = 8, FILLER = 0x2B };

/* Shows how many slots a plan has, or says which entry is wrong: whoever typed the plan has to find the row. */
static void show_plan(const char *which, const uint8_t *file, size_t length)
{
    uint32_t read = cb_read_plan(file, length);

    if (CB_NUMBER(read) == CB_PLAN_KIND || CB_NUMBER(read) == CB_PLAN_STRAY) {
        fprintf(stderr, PROGRAM ": %s: refused by %u: entry %u, of kind %u\n", which, (unsigned)CB_NUMBER(read),
                (unsigned)CB_COUNT(read), (unsigned)file[6 * CB_COUNT(read)]);
        exit(1);
    }
    if (CB_NUMBER(read) != 0)
        exit(fail(which, CB_NUMBER(read)));
    printf("%s: %u slots\n", which, (unsigned)CB_COUNT(read));
}

/* Finds the first transmissions of the lowest and of the highest slot: both 0 where there is none. */
static void find_firsts(const uint8_t *message, uint32_t *lowest, uint32_t *highest)
{
    uint32_t slots[CB_SLOTS];
    uint32_t read = cb_slots(message, CB_OUTPUT, CB_OUTPUT, slots, CB_SLOTS);

    *lowest = *highest = 0;
    for (uint32_t slot = 1; slot <= CB_END(read); slot++)
        if (CB_SLOT_CODE(slots[slot - 1]) >= CB_FIRST) {
            *highest = slot;
            if (*lowest == 0)
                *lowest = slot;
        }
}

/* Puts the repeat of a slot, one octet, in the place of another slot's first transmission, two octets. */
static void mark_as_repeat(uint8_t *message, uint32_t slot, uint32_t of)
{
    size_t at = DESCRIPTIONS;
    uint64_t given;

    for (size_t place = 0; CB_SLOT(given = cb_description(message, CB_OUTPUT, CB_OUTPUT, place)) != slot; place++)
        at += CB_CODE(given) >= CB_FIRST ? 2 : 1;
    message[at] = (uint8_t)of;
    memmove(message + at + 1, message + at + 2, CB_OUTPUT - at - 2);
    message[CB_OUTPUT - 1] = FILLER;
}

int main(int count, char **words)
{
    uint8_t current[ROOM], previous[ROOM], message[CB_OUTPUT];
    uint32_t first, last;

    if (count != 4)
        return fail("name two plan files and Begin", 0);
    size_t current_len = load(words[1], current, sizeof current);
    size_t previous_len = load(words[2], previous, sizeof previous);
    size_t begin = read_begin(words[3]);
    show_plan("current plan", current, current_len);
    show_plan("previous plan", previous, previous_len);

    uint32_t written = cb_write_schedule(current, current_len, previous, previous_len, begin, message, sizeof message);
    if (CB_NUMBER(written) != 0)
        return fail("the schedule", CB_NUMBER(written));
    uint32_t checked = cb_check_schedule(current, current_len, previous, previous_len, message, sizeof message, CB_OUTPUT);
    if (CB_NUMBER(checked) != 0)
        return fail("the schedule's check", CB_NUMBER(checked));
    printf("schedule: %u octets used, true to the plans\n", (unsigned)CB_COUNT(written));

    find_firsts(message, &first, &last);
    if (first == last)
        return fail("the current plan has no two pages, so there is no false copy to show", 0);
    mark_as_repeat(message, last, first);
    checked = cb_check_schedule(current, current_len, previous, previous_len, message, sizeof message, CB_OUTPUT);
    if (CB_NUMBER(checked) == 0)
        return fail("the false copy is accepted", 0);
    printf("slot %u as a repeat of slot %u: refused by %u, slot %u\n", (unsigned)last, (unsigned)first,
           (unsigned)CB_NUMBER(checked), (unsigned)CB_COUNT(checked));

    if (fflush(stdout) != 0 || ferror(stdout))
        return fail("standard output can't be written", 0);
    return 0;
}
