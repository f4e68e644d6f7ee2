/*
 * The intake as it is written in C without proofs: what cb_intake is measured beside.
 *
 * The octets that no block filled are looked at one by one. With PLAIN_WORDS the C library looks at many at a time,
 * which takes a blank message to compare with and is quicker where memcmp is written for the processor.
 */
#include "plain.h"

#include <stdbool.h>
#include <string.h>

enum { STATE = 90, MESSAGE = 88, BLOCK = 23, CONTENT = 22, FILLER = 0x2B };
enum { NONE, PAGE, SCHEDULE };

/* Where the parts of a state lie. */
enum { KIND = 0, TAKEN = 1, OCTETS = 2 };

static void clear(uint8_t *state)
{
    state[KIND] = NONE;
    state[TAKEN] = 0;
    memset(state + OCTETS, FILLER, MESSAGE);
}

static uint32_t refuse(uint8_t *state, uint32_t answer)
{
    clear(state);
    return answer;
}

static bool is_blank(const uint8_t *octets, size_t count)
{
#ifdef PLAIN_WORDS
    static const char blank[] = "++++++++++++++++++++++" "++++++++++++++++++++++" /* 2B is a plus sign */
                                "++++++++++++++++++++++" "++++++++++++++++++++++";

    return memcmp(octets, blank, count) == 0;
#else
    for (size_t i = 0; i < count; i++)
        if (octets[i] != FILLER)
            return false;
    return true;
#endif
}

static bool is_proper(const uint8_t *state)
{
    unsigned kind = state[KIND];
    unsigned taken = state[TAKEN];

    if (kind == NONE ? taken != 0 : kind > SCHEDULE || taken < 1 || taken > 3)
        return false;
    return is_blank(state + OCTETS + CONTENT * taken, MESSAGE - CONTENT * taken);
}

uint32_t plain_start(uint8_t *state, size_t state_len)
{
    if (state_len != STATE)
        return 8;
    clear(state);
    return 0;
}

uint32_t plain_intake(uint8_t *state, size_t state_len, const uint8_t *piece, size_t piece_len,
                      uint8_t *output, size_t output_len)
{
    if (output_len != MESSAGE)
        return 15;
    if (state_len != STATE)
        return 8;
    if (!is_proper(state))
        return refuse(state, 8);
    if (piece_len != BLOCK)
        return refuse(state, 2);

    /* GSM 04.12, 3.3.1: bit 8 spare, bits 7 and 6 the link discriminator, bit 5 the last-block mark */
    unsigned type = piece[0];
    unsigned code = type & 0x0F;
    bool last = (type & 0x10) != 0;

    if ((type & 0x60) != 0x20)
        return refuse(state, 3);
    switch (code) {
    case 0:
        clear(state);
        state[KIND] = PAGE;
        break;
    case 8:
        clear(state);
        state[KIND] = SCHEDULE;
        break;
    case 1:
    case 2:
    case 3:
        if (code != state[TAKEN])
            return refuse(state, 6);
        break;
    case 15:
        return refuse(state, 5);
    default:
        return refuse(state, 4);
    }

    memcpy(state + OCTETS + CONTENT * state[TAKEN], piece + 1, CONTENT);
    state[TAKEN]++;
    if (!last && state[TAKEN] < 4)
        return 1;

    uint32_t answer = state[KIND] == SCHEDULE ? 7 : 0;
    uint32_t received = CONTENT * state[TAKEN];

    memcpy(output, state + OCTETS, MESSAGE);
    clear(state);
    return answer + 256 * received;
}
