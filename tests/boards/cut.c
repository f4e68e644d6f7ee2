/*
 * Stands between the test and the calls named, and cuts a length to its lower half, as an archive would that doesn't look at the
 * upper one, which the test must tell.
 */
#include "csobvarit.h"

uint32_t __real_cb_start(uint8_t *state, cb_length state_len);
uint32_t __wrap_cb_start(uint8_t *state, cb_length state_len);
uint32_t __real_cb_intake(uint8_t *state, cb_length state_len, const uint8_t *piece, cb_length piece_len,
                          uint8_t *output, cb_length output_len);
uint32_t __wrap_cb_intake(uint8_t *state, cb_length state_len, const uint8_t *piece, cb_length piece_len,
                          uint8_t *output, cb_length output_len);
uint64_t __real_cb_read_header(const uint8_t *page, cb_length page_len);
uint64_t __wrap_cb_read_header(const uint8_t *page, cb_length page_len);

uint32_t __wrap_cb_start(uint8_t *state, cb_length state_len)
{
    return __real_cb_start(state, (uint32_t)state_len);
}

uint32_t __wrap_cb_intake(uint8_t *state, cb_length state_len, const uint8_t *piece, cb_length piece_len,
                          uint8_t *output, cb_length output_len)
{
    return __real_cb_intake(state, state_len, piece, (uint32_t)piece_len, output, output_len);
}

uint64_t __wrap_cb_read_header(const uint8_t *page, cb_length page_len)
{
    return __real_cb_read_header(page, (uint32_t)page_len);
}
