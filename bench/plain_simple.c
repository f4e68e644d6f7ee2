/* Blocks written, plan files and headers read in C without proofs: what cb_write_blocks, cb_read_plan, cb_content and
 * cb_read_header are measured beside. */
#include "plain_simple.h"

#include <string.h>

enum { MESSAGE = 88, BLOCKS = 92, BLOCK = 23, CONTENT = 22, FRONT = 6, ENTRY = 6, SLOTS = 48 };

uint32_t plain_content(const uint8_t *page, size_t page_len, size_t received)
{
    (void)page;
    if (page_len != MESSAGE)
        return 16;
    if (received != 22 && received != 44 && received != 66 && received != 88)
        return 18;
    return 0;
}

uint64_t plain_read_header(const uint8_t *page, size_t page_len)
{
    if (page_len != MESSAGE)
        return 16;
    uint64_t serial = (uint64_t)page[0] << 8 | page[1], identifier = (uint64_t)page[2] << 8 | page[3];
    return (uint64_t)page[4] << 8 | serial << 16 | identifier << 32 | (uint64_t)page[5] << 48;
}

uint32_t plain_write_blocks(const uint8_t *message, size_t message_len, bool schedule, size_t used,
                            uint8_t *out, size_t out_len)
{
    if (out_len != BLOCKS)
        return 15;
    if (message_len != MESSAGE)
        return 16;
    if (used == 0 || used > MESSAGE)
        return 17;
    for (size_t i = 0; i < 4; i++) {
        unsigned code = i == 0 && schedule ? 8 : (unsigned)i;
        out[BLOCK * i] = (uint8_t)((CONTENT * (i + 1) >= used ? 0x30 : 0x20) + code);
        memcpy(out + BLOCK * i + 1, message + CONTENT * i, CONTENT);
    }
    return 0;
}

/* An entry's number, from 1. */
static uint32_t number_of(const uint8_t *file, const uint8_t *entry)
{
    return (uint32_t)(entry - file - FRONT) / ENTRY + 1;
}

/* Looks at the entries where they stand; cb_read_plan has them in a plan by value before it answers. */
uint32_t plain_read_plan(const uint8_t *file, size_t file_len)
{
    static const uint8_t none[ENTRY - 1];

    if (file_len < FRONT)
        return 32;
    if (memcmp(file, "CBP", 3) != 0)
        return 30;
    if (file[3] != 0 || file[4] != 1)
        return 31;
    size_t count = file[5];
    if (count > SLOTS || file_len != FRONT + ENTRY * count)
        return 32;
    for (const uint8_t *entry = file + FRONT; entry < file + file_len; entry += ENTRY) {
        if (entry[0] > 2)
            return 36 + 256 * number_of(file, entry);
        if (entry[0] < 2 && memcmp(entry + 1, none, sizeof none) != 0)
            return 37 + 256 * number_of(file, entry);
    }
    return 256 * (uint32_t)count;
}
