/* The collector as it is written in C without proofs: what cb_start_collector and cb_collect are measured beside. */
#include "plain_collector.h"

#include <stdbool.h>
#include <string.h>

enum { COLLECTOR = 1340, FRONT = 5, PLACE = 89, PAGES = 15, PAGE = 88, FILLER = 0x2B };
enum { IMPROPER = -1 };

/* Makes the places from one on, counted from 0, hold no page. */
static void blank(uint8_t *memory, size_t from)
{
    for (uint8_t *place = memory + FRONT + PLACE * from; place < memory + COLLECTOR; place += PLACE) {
        place[0] = 0;
        memset(place + 1, FILLER, PAGE);
    }
}

static void clear(uint8_t *collector)
{
    memset(collector, 0, FRONT);
    blank(collector, 0);
}

/* The octets received that a page can have. */
static const bool whole_blocks[256] = {[22] = true, [44] = true, [66] = true, [88] = true};

/* The pages that a collector holds, or IMPROPER. */
static int count_held(const uint8_t *collector)
{
    unsigned total = collector[0], count = 0;
    const uint8_t *place = collector + FRONT;

    if (total > PAGES)
        return IMPROPER;
    for (const uint8_t *end = place + PLACE * total; place < end; place += PLACE) {
        if (place[0] == 0)
            continue;
        if (!whole_blocks[place[0]])
            return IMPROPER;
        count++;
    }
    for (; place < collector + COLLECTOR; place += PLACE)
        if (place[0] != 0)
            return IMPROPER;
    return total == 0 || (count > 0 && count < total) ? (int)count : IMPROPER;
}

static void begin(uint8_t *collector, unsigned total, const uint8_t *page)
{
    collector[0] = (uint8_t)total;
    memcpy(collector + 1, page, FRONT - 1);
    blank(collector, 0);
}

static void hand_out(uint8_t *collector, unsigned total, uint8_t *output)
{
    memcpy(output, collector, FRONT + PLACE * total);
    blank(output, total);
    clear(collector);
}

uint32_t plain_start_collector(uint8_t *collector, size_t collector_len)
{
    if (collector_len != COLLECTOR)
        return 8;
    clear(collector);
    return 0;
}

uint32_t plain_collect(uint8_t *collector, size_t collector_len, const uint8_t *page, size_t page_len, size_t received,
                       uint8_t *output, size_t output_len)
{
    if (collector_len != COLLECTOR)
        return 8;
    int held = count_held(collector);
    if (held == IMPROPER) {
        clear(collector);
        return 8;
    }
    if (output_len != COLLECTOR)
        return 15;
    if (page_len != PAGE)
        return 16;
    if (received > PAGE || !whole_blocks[received])
        return 18;
    unsigned number = page[5] >> 4, total = page[5] & 0x0F;
    if (number == 0 || total == 0)
        number = total = 1;
    if (number > total)
        return 50;

    uint8_t *place = collector + FRONT + PLACE * (number - 1);
    if (collector[0] != total || memcmp(collector + 1, page, FRONT - 1) != 0) {
        begin(collector, total, page);
        held = 0;
    } else if (place[0] != 0) {
        return 1;
    }
    place[0] = (uint8_t)received;
    memcpy(place + 1, page, PAGE);
    if ((unsigned)held + 1 < total)
        return 1;
    hand_out(collector, total, output);
    return 256 * total;
}
