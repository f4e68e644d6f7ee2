/*
 * cb_write_schedule, cb_check_schedule, cb_check_slots, cb_decide and cb_enter beside plain C: a program of measure.h.
 * Lengths are slots of a plan.
 *
 * What is timed are the plans of plans.h, the messages that are written from these, and decisions for a slot with a repeat
 * that isn't held, of a page that is the last of 64 wanted ones, and the entering of that page.
 */
#include <string.h>

#include "blocks.h"
#include "csobvarit.h"
#include "measure.h"
#include "plain_plan.h"
#include "plans.h"

enum { CALLS = 200000, INPUTS = 512, WANTED = 64 };
enum { PLAN_ROOM = CB_PLAN + 18, ROOM = 112, WANTED_ROOM = WANTED + 4 };
enum call { WRITE_SCHEDULE, CHECK_SCHEDULE, CHECK_SLOTS, DECIDE, ENTER };

static unsigned slots;
static uint8_t currents[INPUTS][CB_PLAN], previous[INPUTS][CB_PLAN], messages[INPUTS][CB_OUTPUT];
static uint16_t wanted[INPUTS][WANTED];

static size_t file_length(unsigned count)
{
    return PLAN_FRONT + PLAN_ENTRY * count;
}

/* Page parameters that are one page, but for the last. */
static const uint8_t parameters[] = {0x00, 0x0F, 0xF0, 0x11, 0x21};

/* A good plan file of some pages; a few of its slots are optional or advised, and some pages come with another parameter. */
static void make_plan(uint64_t *row, uint8_t pages[PLAN_PAGES][PLAN_ENTRY], unsigned different, unsigned count, uint8_t *file)
{
    begin_plan(count, file);
    for (unsigned i = 0; i < count; i++) {
        uint8_t *entry = file + PLAN_FRONT + PLAN_ENTRY * i;
        memset(entry, 0, PLAN_ENTRY);
        if (one_in(row, 6))
            entry[0] = (uint8_t)(draw(row) % 2);
        else
            memcpy(entry, pages[draw(row) % different], PLAN_ENTRY);
        if (entry[0] == 2 && one_in(row, 2))
            entry[PLAN_ENTRY - 1] = parameters[draw(row) % sizeof parameters];
    }
}

static void damage_file(uint64_t *row, uint8_t *file, size_t *length)
{
    if (one_in(row, 24))
        file[draw(row) % 6] = (uint8_t)draw(row);
    while (one_in(row, 24))
        file[6 + draw(row) % (CB_PLAN - 6)] = (uint8_t)(draw(row) % 4);
    while (one_in(row, 24))
        file[6 + draw(row) % (CB_PLAN - 6)] = (uint8_t)draw(row);
    if (one_in(row, 24))
        *length = draw(row) % PLAN_ROOM;
}

static void damage_message(uint64_t *row, uint8_t *message)
{
    if (one_in(row, 6))
        message[8 + draw(row) % 40] = (uint8_t)(0x40 + draw(row) % 3);
    if (one_in(row, 6))
        message[8 + draw(row) % 40] = (uint8_t)(draw(row) % 0x40);
    if (one_in(row, 6))
        message[2 + draw(row) % 6] ^= (uint8_t)(1 << draw(row) % 8);
    if (one_in(row, 12))
        message[draw(row) % 2] = (uint8_t)draw(row);
    if (one_in(row, 6))
        message[draw(row) % CB_OUTPUT] ^= (uint8_t)(1 << draw(row) % 8);
}

static void check_decision(uint64_t *row, int at, const uint8_t *message, size_t length, size_t received,
                           const uint8_t *plan, unsigned long *seen)
{
    uint16_t list[WANTED_ROOM];
    size_t count = draw(row) % WANTED_ROOM;
    size_t slot = draw(row) % (PLAN_SLOTS + 3);
    uint64_t held = draw(row);
    bool known = !one_in(row, 8);

    for (size_t i = 0; i < count; i++) {
        const uint8_t *entry = plan + file_length((unsigned)(draw(row) % PLAN_SLOTS));
        list[i] = one_in(row, 16) ? (uint16_t)(entry[3] << 8 | entry[4]) ^ 0x8000 : (uint16_t)draw(row);
    }
    uint32_t a = cb_decide(known, message, length, received, slot, list, count, held);
    if (a != plain_decide(known, message, length, received, slot, list, count, held))
        differ("plan", "decision", at);
    seen[CB_NUMBER(a)]++;
    if (cb_enter(known, message, length, received, slot, held) != plain_enter(known, message, length, received, slot, held))
        differ("plan", "entering", at);
}

static void check_call(uint64_t *row, int at, unsigned long *seen)
{
    uint8_t pages[PLAN_PAGES][PLAN_ENTRY], current[PLAN_ROOM] = {0}, before[PLAN_ROOM] = {0};
    uint8_t rattle[ROOM], plain[ROOM], message[ROOM] = {0};
    unsigned different = 1 + draw(row) % PLAN_PAGES;
    unsigned count = draw(row) % (PLAN_SLOTS + 1), count_before = draw(row) % (PLAN_SLOTS + 1);
    size_t length = file_length(count), length_before = file_length(count_before);
    size_t room = one_in(row, 32) ? draw(row) % ROOM : CB_OUTPUT;
    size_t message_length = one_in(row, 32) ? draw(row) % ROOM : CB_OUTPUT;
    size_t received = one_in(row, 16) ? draw(row) % 300 : one_in(row, 4) ? 22 * (1 + draw(row) % 4) : 88;
    size_t begin = one_in(row, 8) ? draw(row) % 300 : 1 + draw(row) % (count + 1);

    make_pages(row, pages);
    make_plan(row, pages, different, count, current);
    make_plan(row, pages, different, count_before, before);
    plain_write_schedule(current, length, before, length_before, 1, message, CB_OUTPUT);
    damage_file(row, current, &length);
    damage_file(row, before, &length_before);
    for (size_t i = 0; i < ROOM; i++)
        rattle[i] = plain[i] = (uint8_t)draw(row);
    uint32_t a = cb_write_schedule(current, length, before, length_before, begin, rattle, room);
    uint32_t b = plain_write_schedule(current, length, before, length_before, begin, plain, room);
    if (a != b || memcmp(rattle, plain, sizeof plain) != 0)
        differ("plan", "writing", at);
    seen[CB_NUMBER(a)]++;
    damage_message(row, message);
    a = cb_check_schedule(current, length, before, length_before, message, message_length, received);
    if (a != plain_check_schedule(current, length, before, length_before, message, message_length, received))
        differ("plan", "checking", at);
    seen[CB_NUMBER(a)]++;
    size_t places = one_in(row, 32) ? draw(row) % ROOM : CB_SLOTS;
    for (size_t i = 0; i < ROOM; i++)
        rattle[i] = plain[i] = (uint8_t)draw(row);
    a = cb_check_slots(current, length, before, length_before, message, message_length, received, rattle, places);
    b = plain_check_slots(current, length, before, length_before, message, message_length, received, plain, places);
    if (a != b || memcmp(rattle, plain, sizeof plain) != 0)
        differ("plan", "checking slots", at);
    seen[CB_NUMBER(a)]++;
    check_decision(row, at, message, message_length, received, current, seen);
}

static long check(unsigned long *seen)
{
    uint64_t row = 11;

    for (int i = 0; i < CALLS; i++)
        check_call(&row, i, seen);
    return 5 * CALLS;
}

static void prepare(size_t length, bool by_rattle)
{
    uint64_t row = 1;

    slots = (unsigned)length;
    for (int i = 0; i < INPUTS; i++) {
        make_plans(&row, slots, currents[i], previous[i]);
        (by_rattle ? cb_write_schedule : plain_write_schedule)(currents[i], file_length(slots), previous[i],
                                                               file_length(slots / 2), 1, messages[i], CB_OUTPUT);
        for (unsigned j = 0; j < WANTED; j++)
            wanted[i][j] = (uint16_t)draw(&row);
        const uint8_t *last = currents[i] + file_length(slots - 1);
        wanted[i][WANTED - 1] = (uint16_t)(last[3] << 8 | last[4]);
    }
}

/* The page of the same slot entered. */
static void run_enter(bool rattle, int i)
{
    uint64_t held = (rattle ? cb_enter : plain_enter)(true, messages[i], CB_OUTPUT, CB_OUTPUT, slots, 0);

    if (held == 0)
        differ("plan", "timed input", i);
}

static uint32_t run_call(enum call call, bool rattle, int i)
{
    static uint8_t out[CB_OUTPUT], verdicts[CB_SLOTS];
    size_t length = file_length(slots), before = file_length(slots / 2);

    if (call == WRITE_SCHEDULE)
        return (rattle ? cb_write_schedule : plain_write_schedule)(currents[i], length, previous[i], before, 1,
                                                                   out, sizeof out);
    if (call == CHECK_SCHEDULE)
        return (rattle ? cb_check_schedule : plain_check_schedule)(currents[i], length, previous[i], before,
                                                                   messages[i], CB_OUTPUT, CB_OUTPUT);
    if (call == CHECK_SLOTS)
        return (rattle ? cb_check_slots : plain_check_slots)(currents[i], length, previous[i], before, messages[i], CB_OUTPUT,
                                                             CB_OUTPUT, verdicts, sizeof verdicts);
    return (rattle ? cb_decide : plain_decide)(true, messages[i], CB_OUTPUT, CB_OUTPUT, slots, wanted[i], WANTED, 0);
}

static void pass(int call, bool rattle)
{
    for (int i = 0; i < INPUTS; i++) {
        if (call == ENTER) {
            run_enter(rattle, i);
            continue;
        }
        uint32_t returned = run_call(call, rattle, i);
        if (CB_NUMBER(returned) != 0 || (call == DECIDE && CB_COUNT(returned) != 1))
            differ("plan", "timed input", i);
    }
}

int main(int argc, char **argv)
{
    static const char *const calls[] = {
        [WRITE_SCHEDULE] = "write_schedule", [CHECK_SCHEDULE] = "check_schedule", [CHECK_SLOTS] = "check_slots",
        [DECIDE] = "decide", [ENTER] = "enter", NULL,
    };
    static const uint8_t answers[] = {0, 15, 16, 18, 20, 21, 22, 23, 24, 30, 31, 32, 34, 35, 36, 37, 40, 41, 42};
    static const struct subject subject = {
        .name = "plan", .calls = calls, .shortest = 1, .longest = PLAN_SLOTS, .inputs = INPUTS, .rounds = 51,
        .prepare = prepare, .pass = pass, .check = check, .answers = answers, .answer_count = sizeof answers,
    };

    return measure(&subject, argc, argv);
}
