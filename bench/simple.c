/*
 * cb_content, cb_read_header, cb_write_blocks and cb_read_plan beside plain C: a program of measure.h.
 *
 * Lengths are slots of a plan file, two in three of them pages. A page and its blocks are always whole.
 */
#include <string.h>

#include "blocks.h"
#include "csobvarit.h"
#include "measure.h"
#include "plain_simple.h"

enum { CALLS = 1000000, INPUTS = 4096, SLOTS = 48, PLAN = 6 + 6 * SLOTS, ROOM = PLAN + 18 };
enum { MESSAGE_ROOM = 112 };
enum call { CONTENT, READ_HEADER, WRITE_BLOCKS, READ_PLAN };

static uint8_t messages[INPUTS][CB_OUTPUT];
static uint8_t plans[INPUTS][PLAN];
static unsigned slots;

/* A good plan file. */
static void make_plan(uint64_t *row, unsigned count, uint8_t *file)
{
    memcpy(file, "CBP\0\1", 5);
    file[5] = (uint8_t)count;
    for (unsigned i = 0; i < count; i++) {
        uint8_t *entry = file + 6 + 6 * i;
        entry[0] = one_in(row, 3) ? (uint8_t)(draw(row) % 2) : 2;
        for (unsigned j = 1; j < 6; j++)
            entry[j] = entry[0] == 2 ? (uint8_t)draw(row) : 0;
    }
}

static void check_blocks(uint64_t *row, int at, unsigned long *seen)
{
    uint8_t message[MESSAGE_ROOM], rattle[MESSAGE_ROOM], plain[MESSAGE_ROOM];
    size_t length = one_in(row, 32) ? draw(row) % MESSAGE_ROOM : CB_OUTPUT;
    size_t room = one_in(row, 32) ? draw(row) % MESSAGE_ROOM : CB_BLOCKS;
    size_t used = one_in(row, 16) ? draw(row) % 300 : draw(row) % 90;
    size_t received = one_in(row, 8) ? draw(row) % 300 : 22 * (draw(row) % 6);
    bool schedule = one_in(row, 2);

    for (size_t i = 0; i < MESSAGE_ROOM; i++) {
        message[i] = (uint8_t)draw(row);
        rattle[i] = plain[i] = (uint8_t)draw(row);
    }
    uint32_t a = cb_write_blocks(message, length, schedule, used, rattle, room);
    uint32_t b = plain_write_blocks(message, length, schedule, used, plain, room);
    if (a != b || memcmp(rattle, plain, sizeof plain) != 0)
        differ("simple", "writing blocks", at);
    seen[a]++;
    a = cb_content(message, length, received);
    if (a != plain_content(message, length, received))
        differ("simple", "content", at);
    seen[a]++;
    if (cb_read_header(message, length) != plain_read_header(message, length))
        differ("simple", "header", at);
}

static void check_plan(uint64_t *row, int at, unsigned long *seen)
{
    uint8_t file[ROOM] = {0};
    unsigned count = draw(row) % (SLOTS + 1);
    size_t length = one_in(row, 16) ? draw(row) % ROOM : 6 + 6 * count;

    make_plan(row, count, file);
    if (one_in(row, 8))
        file[draw(row) % 6] = (uint8_t)draw(row);
    while (one_in(row, 8))
        file[6 + draw(row) % (6 * SLOTS)] = (uint8_t)(draw(row) % 4);
    while (one_in(row, 8))
        file[6 + draw(row) % (6 * SLOTS)] = (uint8_t)draw(row);
    uint32_t a = cb_read_plan(file, length);
    if (a != plain_read_plan(file, length))
        differ("simple", "plan", at);
    seen[CB_NUMBER(a)]++;
}

static long check(unsigned long *seen)
{
    uint64_t row = 7;

    for (int i = 0; i < CALLS; i++) {
        check_blocks(&row, i, seen);
        check_plan(&row, i, seen);
    }
    return 4 * CALLS;
}

static void prepare(size_t length, bool by_rattle)
{
    uint64_t row = 1;

    (void)by_rattle;
    slots = (unsigned)length;
    for (int i = 0; i < INPUTS; i++) {
        for (int j = 0; j < CB_OUTPUT; j++)
            messages[i][j] = (uint8_t)draw(&row);
        make_plan(&row, slots, plans[i]);
    }
}

static void pass(int call, bool rattle)
{
    static uint8_t out[CB_BLOCKS];

    for (int i = 0; i < INPUTS; i++) {
        if (call == CONTENT)
            (rattle ? cb_content : plain_content)(messages[i], CB_OUTPUT, CB_OUTPUT);
        else if (call == READ_HEADER)
            (rattle ? cb_read_header : plain_read_header)(messages[i], CB_OUTPUT);
        else if (call == WRITE_BLOCKS)
            (rattle ? cb_write_blocks : plain_write_blocks)(messages[i], CB_OUTPUT, i % 2 == 0, 1 + (size_t)i % CB_OUTPUT,
                                                            out, sizeof out);
        else
            (rattle ? cb_read_plan : plain_read_plan)(plans[i], 6 + 6 * slots);
    }
}

int main(int argc, char **argv)
{
    static const char *const calls[] = {
        [CONTENT] = "content", [READ_HEADER] = "read_header", [WRITE_BLOCKS] = "write_blocks", [READ_PLAN] = "read_plan",
        NULL,
    };
    static const uint8_t answers[] = {0, 15, 16, 17, 18, 30, 31, 32, 36, 37};
    static const struct subject subject = {
        .name = "simple", .calls = calls, .longest = SLOTS, .inputs = INPUTS, .rounds = 51,
        .prepare = prepare, .pass = pass, .check = check, .answers = answers, .answer_count = sizeof answers,
    };

    return measure(&subject, argc, argv);
}
