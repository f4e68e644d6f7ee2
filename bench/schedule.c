/*
 * cb_read_schedule, cb_slots and cb_description beside plain C: a program of measure.h. Lengths are slots of a message.
 *
 * All 88 octets of a message are received. cb_read_schedule reads every slot of it on its way to Begin and End; cb_slots and
 * cb_description do that too, and then tell all slots and give one slot.
 */
#include <stdbool.h>
#include <string.h>

#include "blocks.h"
#include "csobvarit.h"
#include "measure.h"
#include "plain_schedule.h"

typedef uint32_t reader(const uint8_t *, size_t, size_t);
typedef uint32_t teller(const uint8_t *, size_t, size_t, uint32_t *, size_t);
typedef uint64_t describer(const uint8_t *, size_t, size_t, size_t);

enum { CHECKED = 1000000, MESSAGES = 4096, SLOTS = 48, ROOM = 112, SLOTS_ROOM = 50 };
enum call { READ_SCHEDULE, ALL_SLOTS, DESCRIPTION };

static uint8_t messages[MESSAGES][CB_OUTPUT];
static size_t slots;

/* The octets of a slot's description, which are two only where there is room: how many. */
static size_t describe(uint64_t *row, unsigned slot, const bool *first, bool room, uint8_t *octets)
{
    unsigned kind = draw(row) % 8;
    unsigned named = (unsigned)(draw(row) % (slot + 1));

    octets[1] = (uint8_t)draw(row);
    if (kind < 3 && room) {
        octets[0] = 0x80 | (uint8_t)draw(row);
        return 2;
    }
    if (kind < 6 && named < slot && first[named])
        octets[0] = (uint8_t)(named + 1);
    else
        octets[0] = one_in(row, 16) ? 0x40 + draw(row) % 0x40 : 0x40 + draw(row) % 2;
    return 1;
}

/* A message that reads without refusal. */
static void make_message(uint64_t *row, unsigned end, uint8_t *message)
{
    uint8_t octets[SLOTS][2];
    size_t width[SLOTS];
    bool first[SLOTS];
    size_t at = 8;

    memset(message, 0x2B, CB_OUTPUT);
    memset(message + 2, 0, 6);
    message[0] = (uint8_t)(1 + draw(row) % end);
    message[1] = (uint8_t)(end | (draw(row) % 4) << 6);
    for (unsigned i = 0; i < end; i++) {
        width[i] = describe(row, i, first, at + 2 + (end - 1 - i) <= CB_OUTPUT, octets[i]);
        first[i] = width[i] == 2;
        at += width[i];
        if (one_in(row, 2))
            message[2 + i / 8] |= (uint8_t)(0x80 >> i % 8);
    }
    at = 8;
    for (unsigned group = 0; group < 2; group++) {
        for (unsigned i = 0; i < end; i++) {
            if ((message[2 + i / 8] >> (7 - i % 8) & 1) == group)
                continue;
            memcpy(message + at, octets[i], width[i]);
            at += width[i];
        }
    }
}

static void damage(uint64_t *row, uint8_t *message)
{
    if (one_in(row, 16))
        message[draw(row) % CB_OUTPUT] = (uint8_t)draw(row);
    if (one_in(row, 16))
        message[draw(row) % 2] = (uint8_t)draw(row);
    if (one_in(row, 8))
        message[8 + draw(row) % 40] = (uint8_t)(draw(row) % 0x40);
    if (one_in(row, 16))
        message[2 + draw(row) % 6] ^= (uint8_t)(1 << draw(row) % 8);
}

/* Every place of one message in sixteen, and one place of the others: how many. */
static long check_descriptions(uint64_t *row, int at, const uint8_t *message, size_t length, size_t received)
{
    bool all = one_in(row, 16);
    long places = all ? 50 : 1;

    for (long i = 0; i < places; i++) {
        size_t place = all ? (size_t)i : draw(row) % 50;
        if (cb_description(message, length, received, place) != plain_description(message, length, received, place))
            differ("schedule", "a description of message", at);
    }
    return places;
}

static void check_slots(uint64_t *row, int at, const uint8_t *message, size_t length, size_t received, unsigned long *seen)
{
    uint32_t rattle[SLOTS_ROOM], plain[SLOTS_ROOM];
    size_t room = one_in(row, 32) ? draw(row) % SLOTS_ROOM : SLOTS;

    for (size_t i = 0; i < SLOTS_ROOM; i++)
        rattle[i] = plain[i] = (uint32_t)draw(row);
    uint32_t a = cb_slots(message, length, received, rattle, room);
    uint32_t b = plain_slots(message, length, received, plain, room);
    if (a != b || memcmp(rattle, plain, sizeof plain) != 0)
        differ("schedule", "the slots of message", at);
    seen[CB_NUMBER(a)]++;
}

/* The messages that are timed are read whole, and both give every slot of them alike. */
static void check_timed(void)
{
    for (int i = 0; i < MESSAGES; i++) {
        uint32_t a = cb_read_schedule(messages[i], CB_OUTPUT, CB_OUTPUT);
        if (a != plain_read_schedule(messages[i], CB_OUTPUT, CB_OUTPUT) || CB_NUMBER(a) != 0 || CB_END(a) != slots)
            differ("schedule", "timed message", i);
        for (size_t place = 0; place <= slots; place++)
            if (cb_description(messages[i], CB_OUTPUT, CB_OUTPUT, place) !=
                plain_description(messages[i], CB_OUTPUT, CB_OUTPUT, place))
                differ("schedule", "a description of timed message", i);
    }
}

static long check(unsigned long *seen)
{
    uint64_t row = 5;
    long calls = 0;

    check_timed();
    for (int i = 0; i < CHECKED; i++) {
        uint8_t message[ROOM] = {0};
        size_t length = one_in(&row, 32) ? draw(&row) % ROOM : CB_OUTPUT;
        size_t received = one_in(&row, 16) ? draw(&row) % 300 : one_in(&row, 4) ? 22 * (1 + draw(&row) % 4) : 88;

        make_message(&row, 1 + draw(&row) % SLOTS, message);
        damage(&row, message);
        uint32_t a = cb_read_schedule(message, length, received);
        if (a != plain_read_schedule(message, length, received))
            differ("schedule", "message", i);
        check_slots(&row, i, message, length, received, seen);
        calls += 2 + check_descriptions(&row, i, message, length, received);
        seen[CB_NUMBER(a)]++;
    }
    return calls;
}

static void prepare(size_t length, bool by_rattle)
{
    uint64_t row = 1;

    (void)by_rattle;
    slots = length;
    for (int i = 0; i < MESSAGES; i++)
        make_message(&row, (unsigned)slots, messages[i]);
}

static void pass(int call, bool rattle)
{
    reader *read = rattle ? cb_read_schedule : plain_read_schedule;
    teller *tell = rattle ? cb_slots : plain_slots;
    describer *description = rattle ? cb_description : plain_description;
    static uint32_t told[SLOTS];

    for (int i = 0; i < MESSAGES; i++) {
        if (call == READ_SCHEDULE)
            read(messages[i], CB_OUTPUT, CB_OUTPUT);
        else if (call == ALL_SLOTS)
            tell(messages[i], CB_OUTPUT, CB_OUTPUT, told, SLOTS);
        else
            description(messages[i], CB_OUTPUT, CB_OUTPUT, (size_t)i % slots);
    }
}

int main(int argc, char **argv)
{
    static const char *const calls[] = {
        [READ_SCHEDULE] = "read_schedule", [ALL_SLOTS] = "slots", [DESCRIPTION] = "description", NULL,
    };
    static const uint8_t answers[] = {0, 15, 16, 18, 20, 21, 22, 23, 24};
    static const struct subject subject = {
        .name = "schedule", .calls = calls, .shortest = 1, .longest = SLOTS, .inputs = MESSAGES, .rounds = 51,
        .prepare = prepare, .pass = pass, .check = check, .answers = answers, .answer_count = sizeof answers,
    };

    return measure(&subject, argc, argv);
}
