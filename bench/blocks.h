/* Blocks as a board hears them, the same at every run. */
#ifndef BLOCKS_H
#define BLOCKS_H

#include <stddef.h>
#include <stdint.h>

enum { BLOCK_OCTETS = 23 };

/* The next of a row of numbers with no visible order; the row is settled by its first. */
uint64_t draw(uint64_t *row);

/* Fills count blocks: mostly whole messages of one to four blocks, some null and some refused ones between. */
void make_blocks(uint8_t *blocks, size_t count);

#endif
