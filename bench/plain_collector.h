/* The collector of messages of several pages in plain C, with the interface and the answers of csobvarit.h. */
#ifndef PLAIN_COLLECTOR_H
#define PLAIN_COLLECTOR_H

#include <stddef.h>
#include <stdint.h>

uint32_t plain_start_collector(uint8_t *collector, size_t collector_len);
uint32_t plain_collect(uint8_t *collector, size_t collector_len, const uint8_t *page, size_t page_len, size_t received,
                       uint8_t *output, size_t output_len);

#endif
