/* The schedule reader in plain C, with the interface and the answers of csobvarit.h. */
#ifndef PLAIN_SCHEDULE_H
#define PLAIN_SCHEDULE_H

#include <stdbool.h>
#include <stddef.h>
#include <stdint.h>

/* All that a message tells: each slot's new bit and code, as csobvarit.h has it, and the slots in the message's order. */
struct plain_table {
    unsigned begin, end;
    bool new[48];
    uint16_t code[48];
    uint8_t order[48];
};

/* Reads a message with all its slots into the table, and gives 0 or the refusal. */
unsigned plain_read_slots(const uint8_t *message, size_t message_len, size_t received, struct plain_table *table);

uint32_t plain_read_schedule(const uint8_t *message, size_t message_len, size_t received);
uint32_t plain_slots(const uint8_t *message, size_t message_len, size_t received, uint32_t *slots, size_t slots_len);
uint64_t plain_description(const uint8_t *message, size_t message_len, size_t received, size_t place);

#endif
