/* cb_start and cb_intake beside plain C: a program of measure.h. */
#include <stdbool.h>
#include <stdio.h>
#include <stdlib.h>
#include <string.h>

#include "blocks.h"
#include "csobvarit.h"
#include "measure.h"
#include "plain.h"

typedef uint32_t start_call(uint8_t *, size_t);
typedef uint32_t intake_call(uint8_t *, size_t, const uint8_t *, size_t, uint8_t *, size_t);

enum { CALLS = 4000000 };            /* of check */
enum { BLOCKS = 1 << 16 };           /* 1.5 MB: past the first cache, and too many to learn by heart */
enum { ROOM = 128 };                 /* what is lent lies in more, so that a write past its end is seen */
enum call { START, INTAKE };

static uint8_t blocks[BLOCKS * BLOCK_OCTETS];

/* All that a call can reach. */
struct lent {
    uint8_t state[ROOM], piece[ROOM], output[ROOM];
    size_t state_len, piece_len, output_len;
};

static void make_state(uint8_t *state, uint64_t *row)
{
    unsigned kind = draw(row) % 3;
    unsigned taken = kind == 0 ? 0 : 1 + draw(row) % 3;

    memset(state + 2, 0x2B, CB_STATE - 2);
    for (size_t i = 0; i < 22 * taken; i++)
        state[2 + i] = (uint8_t)draw(row);
    state[0] = (uint8_t)kind;
    state[1] = (uint8_t)taken;
    if (one_in(row, 8))
        state[2 + draw(row) % (CB_STATE - 2)] = (uint8_t)draw(row);
    if (one_in(row, 16))
        state[draw(row) % 2] = (uint8_t)(draw(row) % 5);
    if (one_in(row, 32))
        state[draw(row) % 2] = (uint8_t)draw(row);
}

static unsigned make_type(unsigned taken, uint64_t *row)
{
    static const uint8_t codes[] = {0, 1, 2, 3, 8, 15};
    unsigned code = codes[draw(row) % sizeof codes];

    if (one_in(row, 4))
        return (uint8_t)draw(row);
    if (taken > 0 && !one_in(row, 3))
        code = taken & 0x0F;
    return 0x20 + (one_in(row, 3) ? 0x10 : 0) + code;
}

/* Half the calls get the state that the one before left, the others a new one. */
static void make_call(struct lent *call, uint64_t *row)
{
    if (one_in(row, 2))
        make_state(call->state, row);
    for (size_t i = 0; i < ROOM; i++)
        call->piece[i] = (uint8_t)draw(row);
    for (size_t i = 0; i < ROOM; i++)
        call->output[i] = (uint8_t)draw(row);
    call->piece[0] = (uint8_t)make_type(call->state[1], row);
    call->state_len = one_in(row, 32) ? draw(row) % ROOM : CB_STATE;
    call->piece_len = one_in(row, 16) ? draw(row) % ROOM : CB_PIECE;
    call->output_len = one_in(row, 32) ? draw(row) % ROOM : CB_OUTPUT;
}

static uint32_t run_call(intake_call *intake, struct lent *call)
{
    return intake(call->state, call->state_len, call->piece, call->piece_len, call->output, call->output_len);
}

static void calls_differ(const char *what, unsigned long at, uint32_t rattle, uint32_t plain)
{
    fprintf(stderr, "intake: %s %lu differs: Rattle %lu, plain C %lu%s\n", what, at, (unsigned long)rattle,
            (unsigned long)plain, rattle == plain ? ", with other memory" : "");
    abort();
}

static void check_starts(void)
{
    struct lent rattle, plain;

    for (size_t length = 0; length < ROOM; length++) {
        memset(&rattle, 0xA5, sizeof rattle);
        plain = rattle;
        uint32_t a = cb_start(rattle.state, length);
        uint32_t b = plain_start(plain.state, length);
        if (a != b || memcmp(&rattle, &plain, sizeof plain) != 0)
            calls_differ("a start at length", length, a, b);
    }
}

static long check(unsigned long *seen)
{
    struct lent rattle = {0};
    struct lent plain = {0};
    uint64_t row = 2;

    check_starts();
    for (unsigned long i = 0; i < CALLS; i++) {
        make_call(&rattle, &row);
        plain = rattle;
        uint32_t a = run_call(cb_intake, &rattle);
        uint32_t b = run_call(plain_intake, &plain);
        if (a != b || memcmp(&rattle, &plain, sizeof plain) != 0)
            calls_differ("call", i, a, b);
        seen[CB_ANSWER(a)]++;
    }
    return CALLS;
}

/* Nothing of it varies. */
static void prepare(size_t length, bool by_rattle)
{
    (void)length, (void)by_rattle;
    make_blocks(blocks, BLOCKS);
}

static void pass(int call, bool rattle)
{
    start_call *start = rattle ? cb_start : plain_start;
    intake_call *intake = rattle ? cb_intake : plain_intake;
    uint8_t state[CB_STATE] = {0}; /* the start's, made here without a call that may be counted */
    uint8_t output[CB_OUTPUT];

    memset(state + 2, 0x2B, CB_STATE - 2);
    for (size_t i = 0; i < BLOCKS; i++) {
        if (call == START)
            start(state, sizeof state);
        else
            intake(state, sizeof state, blocks + BLOCK_OCTETS * i, BLOCK_OCTETS, output, sizeof output);
    }
}

int main(int argc, char **argv)
{
    static const char *const calls[] = {[START] = "start", [INTAKE] = "intake", NULL};
    static const uint8_t answers[] = {0, 1, 2, 3, 4, 5, 6, 7, 8, 15};
    static const struct subject subject = {
        .name = "intake", .calls = calls, .inputs = BLOCKS, .rounds = 101,
        .prepare = prepare, .pass = pass, .check = check, .answers = answers, .answer_count = sizeof answers,
    };

    return measure(&subject, argc, argv);
}
