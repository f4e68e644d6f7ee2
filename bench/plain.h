/* The intake in plain C, with the interface and the answers of csobvarit.h. */
#ifndef PLAIN_H
#define PLAIN_H

#include <stddef.h>
#include <stdint.h>

uint32_t plain_start(uint8_t *state, size_t state_len);
uint32_t plain_intake(uint8_t *state, size_t state_len, const uint8_t *piece, size_t piece_len,
                      uint8_t *output, size_t output_len);

#endif
