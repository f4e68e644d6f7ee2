/*
 * Stands between the test and cb_start, and changes the octet before the memory lent or the one behind it, which the test must
 * tell: PLACE is -1 or state_len.
 */
#include "csobvarit.h"

uint32_t __real_cb_start(uint8_t *state, cb_length state_len);
uint32_t __wrap_cb_start(uint8_t *state, cb_length state_len);

uint32_t __wrap_cb_start(uint8_t *state, cb_length state_len)
{
    uint32_t returned = __real_cb_start(state, state_len);

    state[PLACE] ^= 1;
    return returned;
}
