/* Schedules beside plans in C without proofs: what cb_write_schedule, cb_check_schedule, cb_check_slots, cb_decide and cb_enter are measured
 * beside. */
#include "plain_plan.h"

#include <string.h>

#include "plain_schedule.h"
#include "plain_simple.h"

enum { MESSAGE = 88, SLOTS = 48, WANTED = 64, HEADER = 8, FRONT = 6, ENTRY = 6 };
enum { FIRST = 0x8000, REPEATS = 0x40, OPTIONAL = 0x40, ADVISED = 0x41, PAGE = 2, SINGLE = 0x11 };

/* An entry where it stands in its file. */
static const uint8_t *entry(const uint8_t *file, unsigned slot)
{
    return file + FRONT + ENTRY * slot;
}

/* What a receiver takes a page parameter for: with 0 in either half, page 1 of 1. */
static uint8_t parameter_read(uint8_t parameter)
{
    return parameter >> 4 == 0 || (parameter & 0x0F) == 0 ? SINGLE : parameter;
}

/* The entries of a file, each with its kind and name in one word, its page parameter as it is read. */
static void words_of(const uint8_t *file, unsigned count, uint64_t *words)
{
    for (unsigned slot = 0; slot < count; slot++) {
        uint8_t name[sizeof *words] = {0};

        memcpy(name, entry(file, slot), ENTRY);
        name[ENTRY - 1] = parameter_read(name[ENTRY - 1]);
        memcpy(words + slot, name, sizeof name);
    }
}

/* The lowest slot of a page among entries of which one has it. */
static unsigned lowest_slot(const uint64_t *words, uint64_t page)
{
    const uint64_t *at = words;

    while (*at != page)
        at++;
    return (unsigned)(at - words);
}

/* Whether some entries, after which there is room for one more, have a page. */
static bool has_page(uint64_t *words, unsigned count, uint64_t page)
{
    words[count] = page;
    return lowest_slot(words, page) < count;
}

static unsigned low15(const uint8_t *page)
{
    return (page[3] & 0x7Fu) << 8 | page[4];
}

/* Reads a plan and the one before it, for their counts of slots: 0 or the first refusal, which a plan without slots is too. */
static uint32_t read_plans(const uint8_t *current, size_t current_len, const uint8_t *previous, size_t previous_len,
                           unsigned *count, unsigned *before)
{
    uint32_t plan = plain_read_plan(current, current_len);

    if (plan % 256 != 0)
        return plan;
    uint32_t older = plain_read_plan(previous, previous_len);
    if (older % 256 != 0)
        return older;
    *count = plan / 256;
    *before = older / 256;
    return plan == 0 ? 35 : 0;
}

uint32_t plain_write_schedule(const uint8_t *current, size_t current_len, const uint8_t *previous, size_t previous_len,
                              size_t begin, uint8_t *out, size_t out_len)
{
    uint64_t words[SLOTS], words_before[SLOTS + 1];
    uint16_t code[SLOTS];
    bool new[SLOTS];
    unsigned count, before;
    size_t used = HEADER, at = HEADER;

    if (out_len != MESSAGE)
        return 15;
    uint32_t number = read_plans(current, current_len, previous, previous_len, &count, &before);
    if (number != 0)
        return number;
    if (begin < 1 || begin > count)
        return 21;
    words_of(current, count, words);
    words_of(previous, before, words_before);
    for (unsigned slot = 0; slot < count; slot++) {
        const uint8_t *page = entry(current, slot);
        if (page[0] == PAGE) {
            unsigned lowest = lowest_slot(words, words[slot]);
            code[slot] = (uint16_t)(lowest == slot ? FIRST | low15(page) : lowest + 1);
            new[slot] = lowest == slot ? !has_page(words_before, before, words[slot]) : new[lowest];
        } else {
            code[slot] = page[0] == 1 ? ADVISED : OPTIONAL;
            new[slot] = page[0] == 1;
        }
        used += code[slot] >= FIRST ? 2 : 1;
    }
    if (used > MESSAGE)
        return 34;
    memset(out, 0x2B, MESSAGE);
    out[0] = (uint8_t)begin;
    out[1] = (uint8_t)count;
    memset(out + 2, 0, 6);
    for (unsigned group = 0; group < 2; group++) {
        for (unsigned slot = 0; slot < count; slot++) {
            if (new[slot] == group)
                continue;
            if (new[slot])
                out[2 + slot / 8] |= (uint8_t)(0x80 >> slot % 8);
            if (code[slot] >= FIRST)
                out[at++] = (uint8_t)(code[slot] >> 8);
            out[at++] = (uint8_t)code[slot];
        }
    }
    return 256 * (uint32_t)used;
}

/* Whether what a message tells of a slot is true beside the plans; `lowest` is that of the slot's page. */
static bool is_true(const uint8_t *page, unsigned slot, unsigned lowest, bool before, bool new, unsigned code)
{
    bool leads = page[0] == PAGE && lowest == slot;
    bool repeats = page[0] == PAGE && lowest != slot;

    if (code >= FIRST)
        return leads && code == (FIRST | low15(page)) && new != before;
    if (code < REPEATS)
        return repeats && code == lowest + 1 && new != before;
    if (code == ADVISED)
        return page[0] != 0 && new;
    return (page[0] == 0 || repeats) && !new;
}

uint32_t plain_check_schedule(const uint8_t *current, size_t current_len, const uint8_t *previous, size_t previous_len,
                              const uint8_t *message, size_t message_len, size_t received)
{
    uint64_t words[SLOTS], words_before[SLOTS + 1];
    struct plain_table table;
    unsigned count, before;
    uint32_t number = read_plans(current, current_len, previous, previous_len, &count, &before);

    if (number != 0)
        return number;
    number = plain_read_slots(message, message_len, received, &table);
    if (number != 0)
        return number;
    if (table.end != count)
        return 40;
    words_of(current, count, words);
    words_of(previous, before, words_before);
    for (unsigned slot = 0; slot < count; slot++) {
        const uint8_t *page = entry(current, slot);
        unsigned lowest = lowest_slot(words, words[slot]);
        bool had = page[0] == PAGE && has_page(words_before, before, words[slot]);
        if (!is_true(page, slot, lowest, had, table.new[slot], table.code[slot]))
            return 40 + 256 * (slot + 1);
    }
    return 0;
}

/* Which rule a slot breaks first, 0 for none, by the same. */
static uint8_t failing_rule(const uint8_t *page, unsigned slot, unsigned lowest, bool before, bool new, unsigned code)
{
    bool leads = page[0] == PAGE && lowest == slot;
    bool repeats = page[0] == PAGE && lowest != slot;
    bool told, right;

    if (code >= FIRST) {
        told = leads && code == (FIRST | low15(page));
        right = new != before;
    } else if (code < REPEATS) {
        told = repeats && code == lowest + 1;
        right = new != before;
    } else if (code == ADVISED) {
        told = page[0] != 0;
        right = new;
    } else {
        told = page[0] == 0 || repeats;
        right = !new;
    }
    if (!told)
        return leads ? 1 : repeats ? 2 : page[0] == 0 ? 3 : 4;
    return right ? 0 : 5;
}

uint32_t plain_check_slots(const uint8_t *current, size_t current_len, const uint8_t *previous, size_t previous_len,
                           const uint8_t *message, size_t message_len, size_t received, uint8_t *verdicts, size_t verdicts_len)
{
    uint64_t words[SLOTS], words_before[SLOTS + 1];
    struct plain_table table;
    unsigned count, before, untrue = 0;

    if (verdicts_len != SLOTS)
        return 15;
    uint32_t number = read_plans(current, current_len, previous, previous_len, &count, &before);
    if (number != 0)
        return number;
    number = plain_read_slots(message, message_len, received, &table);
    if (number != 0)
        return number;
    if (table.end != count)
        return 40;
    words_of(current, count, words);
    words_of(previous, before, words_before);
    memset(verdicts, 0, SLOTS);
    for (unsigned slot = 0; slot < count; slot++) {
        const uint8_t *page = entry(current, slot);
        unsigned lowest = lowest_slot(words, words[slot]);
        bool had = page[0] == PAGE && has_page(words_before, before, words[slot]);
        verdicts[slot] = failing_rule(page, slot, lowest, had, table.new[slot], table.code[slot]);
        if (verdicts[slot] != 0 && untrue == 0)
            untrue = slot + 1;
    }
    return untrue == 0 ? 0 : 40 + 256 * untrue;
}

uint32_t plain_decide(bool known, const uint8_t *message, size_t message_len, size_t received, size_t slot,
                      const uint16_t *wanted, size_t wanted_len, uint64_t held)
{
    struct plain_table table;

    if (slot < 1 || slot > SLOTS)
        return 41;
    if (wanted_len > WANTED)
        return 42;
    if (!known || plain_read_slots(message, message_len, received, &table) != 0 || slot > table.end)
        return 256;
    unsigned code = table.code[slot - 1];
    if (code == ADVISED)
        return 256;
    if (code == OPTIONAL)
        return 0;
    if (code < REPEATS) {
        if (held >> (code - 1) & 1)
            return 0;
        code = table.code[code - 1];
    }
    for (size_t i = 0; i < wanted_len; i++)
        if ((wanted[i] | FIRST) == code)
            return 256;
    return 0;
}

uint64_t plain_enter(bool known, const uint8_t *message, size_t message_len, size_t received, size_t slot, uint64_t held)
{
    struct plain_table table;

    if (slot < 1 || slot > SLOTS)
        return held;
    if (known && plain_read_slots(message, message_len, received, &table) == 0 && slot <= table.end &&
        table.code[slot - 1] < REPEATS)
        slot = table.code[slot - 1];
    return held | (uint64_t)1 << (slot - 1);
}
