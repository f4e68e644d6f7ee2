/* Blocks as a board hears them: messages of every length, with what else is on the air between them. */
#include "blocks.h"

#include <string.h>

/* splitmix64: short, fast enough, and not the C library's, which differs from one to the next. */
uint64_t draw(uint64_t *row)
{
    uint64_t z = *row += 0x9E3779B97F4A7C15u;

    z = (z ^ (z >> 30)) * 0xBF58476D1CE4E5B9u;
    z = (z ^ (z >> 27)) * 0x94D049BB133111EBu;
    return z ^ (z >> 31);
}

static void make_block(uint8_t *block, uint64_t *row, unsigned type)
{
    block[0] = (uint8_t)type;
    for (size_t i = 1; i < BLOCK_OCTETS; i++)
        block[i] = (uint8_t)draw(row);
}

void make_blocks(uint8_t *blocks, size_t count)
{
    uint64_t row = 1;
    unsigned code = 0;
    unsigned left = 0;

    for (size_t i = 0; i < count; i++) {
        uint8_t *block = blocks + BLOCK_OCTETS * i;
        unsigned chance = (unsigned)(draw(&row) % 100);

        if (left > 0) {
            left--;
            make_block(block, &row, 0x20 + (left == 0 ? 0x10 : 0) + code);
            code++;
        } else if (chance < 5) {
            make_block(block, &row, 0x2F);
            memset(block + 1, 0x2B, BLOCK_OCTETS - 1);
        } else if (chance < 7) {
            make_block(block, &row, 0x21 + chance % 3);
        } else if (chance < 8) {
            make_block(block, &row, 0x24);
        } else if (chance < 10) {
            make_block(block, &row, 0x03);
        } else {
            left = (unsigned)(draw(&row) % 4);
            make_block(block, &row, 0x20 + (left == 0 ? 0x10 : 0) + (chance < 30 ? 8 : 0));
            code = 1;
        }
        /* now and then a block is lost, and the rest of its message is out of order */
        if (chance == 99 && left > 0) {
            left--;
            code++;
        }
    }
}
