/* The schedule writer, the checker, the decision and the held set in plain C, with the interface and the answers of
 * csobvarit.h. */
#ifndef PLAIN_PLAN_H
#define PLAIN_PLAN_H

#include <stdbool.h>
#include <stddef.h>
#include <stdint.h>

uint32_t plain_write_schedule(const uint8_t *current, size_t current_len, const uint8_t *previous, size_t previous_len,
                              size_t begin, uint8_t *out, size_t out_len);
uint32_t plain_check_schedule(const uint8_t *current, size_t current_len, const uint8_t *previous, size_t previous_len,
                              const uint8_t *message, size_t message_len, size_t received);
uint32_t plain_check_slots(const uint8_t *current, size_t current_len, const uint8_t *previous, size_t previous_len,
                           const uint8_t *message, size_t message_len, size_t received, uint8_t *verdicts, size_t verdicts_len);
uint32_t plain_decide(bool known, const uint8_t *message, size_t message_len, size_t received, size_t slot,
                      const uint16_t *wanted, size_t wanted_len, uint64_t held);
uint64_t plain_enter(bool known, const uint8_t *message, size_t message_len, size_t received, size_t slot, uint64_t held);

#endif
