/* The text writer and reader in plain C, with the interface and the answers of csobvarit.h. */
#ifndef PLAIN_TEXT_H
#define PLAIN_TEXT_H

#include <stddef.h>
#include <stdint.h>

/* Makes the table of septets by code point and that of escaped septets; call it once before the others. */
void plain_text_init(void);

uint32_t plain_write_text(uint16_t serial, uint16_t identifier, uint8_t scheme, uint8_t parameter,
                          const uint16_t *text, size_t text_len, uint8_t *page, size_t page_len);
uint32_t plain_read_text(const uint8_t *page, size_t page_len, size_t received, uint16_t *text, size_t text_len);

#endif
