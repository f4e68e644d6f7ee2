/* The block writer, the readers of plans and headers and the call beside the handing back in plain C, with the interface
 * and the answers of csobvarit.h. */
#ifndef PLAIN_SIMPLE_H
#define PLAIN_SIMPLE_H

#include <stdbool.h>
#include <stddef.h>
#include <stdint.h>

uint32_t plain_content(const uint8_t *page, size_t page_len, size_t received);
uint64_t plain_read_header(const uint8_t *page, size_t page_len);
uint32_t plain_write_blocks(const uint8_t *message, size_t message_len, bool schedule, size_t used,
                            uint8_t *out, size_t out_len);
uint32_t plain_read_plan(const uint8_t *file, size_t file_len);

#endif
