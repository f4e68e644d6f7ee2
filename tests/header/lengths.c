/*
 * Holds the calls to all 64 bits of the lengths that they are given: with 2^32 more, each has to answer as to a wrong length and
 * to leave what it was lent as it was. On 32 bits a length takes two words, and no memory there is so long that a stored result
 * could tell whether the upper one is looked at. The length of a text to write is not among them: each of its characters is
 * looked at before the text is refused, so it has to be true.
 */
#include "host.h"

#include "bare.h"
#include "csobvarit.h"

enum { FILLING = 0xA5 };
#define HIGH ((cb_length)1 << 32)

static bool wrong;

static void hold(const char *call, uint64_t got, uint64_t answer)
{
    if (got == answer)
        return;
    wrong = true;
    host_say(host_test);
    host_say(": the upper half of a length has no say: ");
    host_say(call);
    host_say("\n");
}
#define HOLD(call, answer) hold(#call, call, answer)

static void fill(uint8_t *memory, size_t len)
{
    for (size_t i = 0; i < len; i++)
        memory[i] = FILLING;
}

/* Fails where memory that was filled isn't so any more. */
static void hold_filled(const char *name, const uint8_t *memory, size_t len)
{
    size_t same = 0;

    while (same < len && memory[same] == FILLING)
        same++;
    hold(name, same, len);
}
#define HOLD_FILLED(memory) hold_filled(#memory " is written", (const uint8_t *)(memory), sizeof(memory))

static void hold_pages(void)
{
    static uint8_t state[CB_STATE], started[CB_STATE], piece[CB_PIECE], output[CB_OUTPUT], page[CB_OUTPUT], blocks[CB_BLOCKS];
    static const uint8_t given[CB_OUTPUT] = {0, 0, 0, 0, 0, 0x11};
    static uint16_t text[CB_TEXT], letter[1] = {'A'};

    cb_start(state, sizeof state);
    cb_start(started, sizeof started);
    fill(output, sizeof output);
    fill(page, sizeof page);
    fill(blocks, sizeof blocks);
    fill((uint8_t *)text, sizeof text);
    HOLD(cb_start(state, CB_STATE + HIGH), CB_STATE_IMPROPER);
    HOLD(cb_intake(state, CB_STATE + HIGH, piece, CB_PIECE, output, CB_OUTPUT), CB_STATE_IMPROPER);
    HOLD(cb_intake(state, CB_STATE, piece, CB_PIECE + HIGH, output, CB_OUTPUT), CB_PIECE_LENGTH);
    HOLD(cb_intake(state, CB_STATE, piece, CB_PIECE, output, CB_OUTPUT + HIGH), CB_OUTPUT_LENGTH);
    HOLD(cb_write_text(0, 0, 0, 0x11, letter, 1, page, CB_OUTPUT + HIGH), CB_OUTPUT_LENGTH);
    HOLD(cb_read_text(given, CB_OUTPUT + HIGH, 88, text, CB_TEXT), CB_MESSAGE_LENGTH);
    HOLD(cb_read_text(given, CB_OUTPUT, 88, text, CB_TEXT + HIGH), CB_OUTPUT_LENGTH);
    HOLD(cb_content(given, CB_OUTPUT + HIGH, 88), CB_MESSAGE_LENGTH);
    HOLD(cb_read_header(given, CB_OUTPUT + HIGH), CB_MESSAGE_LENGTH);
    HOLD(cb_write_blocks(given, CB_OUTPUT + HIGH, false, 88, blocks, CB_BLOCKS), CB_MESSAGE_LENGTH);
    HOLD(cb_write_blocks(given, CB_OUTPUT, false, 88, blocks, CB_BLOCKS + HIGH), CB_OUTPUT_LENGTH);
    HOLD(same(state, started, sizeof state), true);
    HOLD_FILLED(output);
    HOLD_FILLED(page);
    HOLD_FILLED(blocks);
    HOLD_FILLED(text);
}

static void hold_collectors(void)
{
    static uint8_t collector[CB_COLLECTOR], started[CB_COLLECTOR], output[CB_COLLECTOR];
    static const uint8_t page[CB_OUTPUT] = {0, 0, 0, 0, 0, 0x11};

    cb_start_collector(collector, sizeof collector);
    cb_start_collector(started, sizeof started);
    fill(output, sizeof output);
    HOLD(cb_start_collector(collector, CB_COLLECTOR + HIGH), CB_STATE_IMPROPER);
    HOLD(cb_collect(collector, CB_COLLECTOR + HIGH, page, CB_OUTPUT, 88, output, CB_COLLECTOR), CB_STATE_IMPROPER);
    HOLD(cb_collect(collector, CB_COLLECTOR, page, CB_OUTPUT + HIGH, 88, output, CB_COLLECTOR), CB_MESSAGE_LENGTH);
    HOLD(cb_collect(collector, CB_COLLECTOR, page, CB_OUTPUT, 88, output, CB_COLLECTOR + HIGH), CB_OUTPUT_LENGTH);
    HOLD(same(collector, started, sizeof collector), true);
    HOLD_FILLED(output);
}

/* A schedule of two slots, the second a repeat of the first, and the plan of an advised slot. */
static void hold_schedules(void)
{
    static const uint8_t message[CB_OUTPUT] = {1, 2, 0, 0, 0, 0, 0, 0, 0x80, 1, 1}, plan[12] = {'C', 'B', 'P', 0, 1, 1, 1};
    static const uint16_t wanted[1] = {1};
    static uint32_t slots[CB_SLOTS];
    static uint8_t out[CB_OUTPUT], verdicts[CB_SLOTS];

    fill((uint8_t *)slots, sizeof slots);
    fill(out, sizeof out);
    fill(verdicts, sizeof verdicts);
    HOLD(cb_read_schedule(message, CB_OUTPUT + HIGH, 22), CB_MESSAGE_LENGTH);
    HOLD(cb_slots(message, CB_OUTPUT + HIGH, 22, slots, CB_SLOTS), CB_MESSAGE_LENGTH);
    HOLD(cb_slots(message, CB_OUTPUT, 22, slots, CB_SLOTS + HIGH), CB_OUTPUT_LENGTH);
    HOLD(cb_description(message, CB_OUTPUT + HIGH, 22, 0), CB_MESSAGE_LENGTH);
    HOLD(cb_read_plan(plan, sizeof plan + HIGH), CB_PLAN_LENGTH);
    HOLD(cb_write_schedule(plan, sizeof plan + HIGH, plan, sizeof plan, 1, out, CB_OUTPUT), CB_PLAN_LENGTH);
    HOLD(cb_write_schedule(plan, sizeof plan, plan, sizeof plan + HIGH, 1, out, CB_OUTPUT), CB_PLAN_LENGTH);
    HOLD(cb_write_schedule(plan, sizeof plan, plan, sizeof plan, 1, out, CB_OUTPUT + HIGH), CB_OUTPUT_LENGTH);
    HOLD(cb_check_schedule(plan, sizeof plan + HIGH, plan, sizeof plan, message, CB_OUTPUT, 22), CB_PLAN_LENGTH);
    HOLD(cb_check_schedule(plan, sizeof plan, plan, sizeof plan + HIGH, message, CB_OUTPUT, 22), CB_PLAN_LENGTH);
    HOLD(cb_check_schedule(plan, sizeof plan, plan, sizeof plan, message, CB_OUTPUT + HIGH, 22), CB_MESSAGE_LENGTH);
    HOLD(cb_check_slots(plan, sizeof plan + HIGH, plan, sizeof plan, message, CB_OUTPUT, 22, verdicts, CB_SLOTS), CB_PLAN_LENGTH);
    HOLD(cb_check_slots(plan, sizeof plan, plan, sizeof plan + HIGH, message, CB_OUTPUT, 22, verdicts, CB_SLOTS), CB_PLAN_LENGTH);
    HOLD(cb_check_slots(plan, sizeof plan, plan, sizeof plan, message, CB_OUTPUT + HIGH, 22, verdicts, CB_SLOTS), CB_MESSAGE_LENGTH);
    HOLD(cb_check_slots(plan, sizeof plan, plan, sizeof plan, message, CB_OUTPUT, 22, verdicts, CB_SLOTS + HIGH), CB_OUTPUT_LENGTH);
    HOLD(CB_COUNT(cb_decide(true, message, CB_OUTPUT + HIGH, 22, 2, wanted, 0, 0)), CB_READ);
    HOLD(cb_decide(true, message, CB_OUTPUT, 22, 2, wanted, HIGH, 0), CB_WANTED_COUNT);
    HOLD(cb_enter(true, message, CB_OUTPUT + HIGH, 22, 2, 0), 1u << 1);
    HOLD_FILLED(slots);
    HOLD_FILLED(out);
    HOLD_FILLED(verdicts);
}

bool lengths_wrong(void)
{
    hold_pages();
    hold_collectors();
    hold_schedules();
    return wrong;
}
