/* A schedule message as it is read in C without proofs: what cb_read_schedule, cb_slots and cb_description are measured
 * beside. */
#define _DEFAULT_SOURCE

#include "plain_schedule.h"

#include <endian.h>
#include <string.h>

enum { MESSAGE = 88, SLOTS = 48, HEADER = 8, FIRST = 0x8000, REPEATS = 0x40, OPTIONAL = 0x40, ADVISED = 0x41 };

static const uint64_t HIGHEST = (uint64_t)1 << 63;

/* The new bits in one word; that of slot 0 is the highest. */
static uint64_t new_bits(const uint8_t *message)
{
    uint64_t word;

    memcpy(&word, message, sizeof word);
    return be64toh(word) << 16;
}

/* Reads the descriptions of one group of slots, the bits of a word, and moves the place and the number of descriptions on. */
static bool read_group(const uint8_t *message, size_t received, uint64_t slots, bool new, struct plain_table *table,
                       size_t *at, unsigned *given)
{
    while (slots != 0) {
        unsigned slot = (unsigned)__builtin_clzll(slots);
        slots ^= HIGHEST >> slot;
        if (*at >= received)
            return false;
        unsigned octet = message[(*at)++];
        if (octet >= 0x80) {
            if (*at >= received)
                return false;
            octet = octet << 8 | message[(*at)++];
        } else if (octet > ADVISED) {
            octet = OPTIONAL;
        }
        table->new[slot] = new;
        table->code[slot] = (uint16_t)octet;
        table->order[(*given)++] = (uint8_t)slot;
    }
    return true;
}

static bool has_false_repeat(const struct plain_table *table)
{
    for (unsigned slot = 0; slot < table->end; slot++) {
        unsigned code = table->code[slot];
        if (code < REPEATS && (code == 0 || code > slot || table->code[code - 1] < FIRST))
            return true;
    }
    return false;
}

unsigned plain_read_slots(const uint8_t *message, size_t message_len, size_t received, struct plain_table *table)
{
    size_t at = HEADER;
    unsigned given = 0;

    if (message_len != MESSAGE)
        return 16;
    if (received != 22 && received != 44 && received != 66 && received != 88)
        return 18;
    if (message[0] >> 6 != 0)
        return 20;
    table->begin = message[0] & 0x3F;
    table->end = message[1] & 0x3F;
    if (table->begin == 0 || table->begin > table->end || table->end > SLOTS)
        return 21;
    uint64_t new = new_bits(message);
    if (new << table->end != 0)
        return 22;
    if (!read_group(message, received, new, true, table, &at, &given))
        return 23;
    if (!read_group(message, received, ~new & ~(~(uint64_t)0 >> table->end), false, table, &at, &given))
        return 23;
    return has_false_repeat(table) ? 24 : 0;
}

uint32_t plain_read_schedule(const uint8_t *message, size_t message_len, size_t received)
{
    struct plain_table table;
    unsigned number = plain_read_slots(message, message_len, received, &table);

    if (number != 0)
        return number;
    return table.begin << 8 | table.end << 16;
}

uint32_t plain_slots(const uint8_t *message, size_t message_len, size_t received, uint32_t *slots, size_t slots_len)
{
    struct plain_table table;

    if (slots_len != SLOTS)
        return 15;
    unsigned number = plain_read_slots(message, message_len, received, &table);
    if (number != 0)
        return number;
    for (unsigned slot = 0; slot < SLOTS; slot++)
        slots[slot] = slot < table.end ? table.code[slot] | (uint32_t)table.new[slot] << 16 : 0;
    return table.begin << 8 | table.end << 16;
}

uint64_t plain_description(const uint8_t *message, size_t message_len, size_t received, size_t place)
{
    struct plain_table table;
    unsigned number = plain_read_slots(message, message_len, received, &table);

    if (number != 0)
        return number;
    if (place >= table.end)
        return 0;
    unsigned slot = table.order[place];
    return (uint64_t)table.code[slot] << 32 | (uint64_t)table.new[slot] << 16 | (slot + 1) << 8;
}
