/*
 * cb_start_collector and cb_collect beside plain C: a program of measure.h. Lengths are pages of a message, 0 where it is one.
 *
 * What cb_collect costs depends on what is held, so what can become of a page are so many calls here, named after it. Each is
 * on a collector of its own, since it changes it.
 */
#include <string.h>

#include "blocks.h"
#include "csobvarit.h"
#include "measure.h"
#include "plain_collector.h"

enum { CALLS = 600000, INPUTS = 256 };
enum { ROOM = CB_COLLECTOR + 60, PAGE_ROOM = 112 }; /* what is lent lies in more, so that a write past its end is seen */
enum call { START_COLLECTOR, ADDED, BEGUN, WHOLE, PASSED_OVER, SINGLE };

static unsigned pages;
static uint8_t collectors[INPUTS][CB_COLLECTOR];
static uint8_t given[INPUTS][CB_OUTPUT];

/* All that a call can reach. */
struct lent {
    uint8_t collector[ROOM], page[PAGE_ROOM], output[ROOM];
    size_t collector_len, page_len, received, output_len;
};

static void fill(uint64_t *row, uint8_t *octets, size_t count)
{
    for (size_t i = 0; i < count; i++)
        octets[i] = (uint8_t)draw(row);
}

static size_t whole_blocks(uint64_t *row)
{
    return 22 * (1 + draw(row) % 4);
}

/* A length, now and then another one, and then often a near one. */
static size_t near_length(uint64_t *row, size_t length, size_t room)
{
    if (!one_in(row, 32))
        return length;
    return one_in(row, 2) ? draw(row) % room : length - 2 + draw(row) % 5;
}

static void make_empty(uint8_t *collector)
{
    memset(collector, 0x2B, CB_COLLECTOR);
    memset(collector, 0, CB_PAGE_PLACE(1));
    for (unsigned i = 1; i <= CB_MOST_PAGES; i++)
        collector[CB_PAGE_PLACE(i)] = 0;
}

/* A collector that is proper, most often. */
static void make_collector(uint64_t *row, uint8_t *collector)
{
    make_empty(collector);
    fill(row, collector, CB_PAGE_PLACE(1));
    if (!one_in(row, 64))
        collector[0] = (uint8_t)(draw(row) % 17);
    for (unsigned i = 1; i <= CB_MOST_PAGES; i++) {
        uint8_t *place = collector + CB_PAGE_PLACE(i);
        if (i <= collector[0] ? one_in(row, 4) : !one_in(row, 128))
            continue;
        place[0] = one_in(row, 64) ? (uint8_t)draw(row) : (uint8_t)whole_blocks(row);
        fill(row, place + 1, CB_OUTPUT);
    }
}

/* A page that is of the message held, most often. */
static void make_page(uint64_t *row, const uint8_t *collector, uint8_t *page)
{
    unsigned total = collector[0] & 0x0F;

    fill(row, page, PAGE_ROOM);
    if (one_in(row, 4))
        return;
    memcpy(page, collector + 1, 4);
    page[5] = (uint8_t)((1 + draw(row) % (total + 1)) << 4 | total);
    if (one_in(row, 8))
        page[draw(row) % CB_HEADER] = (uint8_t)draw(row);
}

/* Most calls get the collector that the one before left, the others a new one. */
static void make_call(uint64_t *row, struct lent *call)
{
    if (one_in(row, 4))
        make_collector(row, call->collector);
    if (one_in(row, 16))
        fill(row, call->output, ROOM);
    make_page(row, call->collector, call->page);
    call->collector_len = near_length(row, CB_COLLECTOR, ROOM);
    call->page_len = near_length(row, CB_OUTPUT, PAGE_ROOM);
    call->output_len = near_length(row, CB_COLLECTOR, ROOM);
    call->received = one_in(row, 32) ? draw(row) % 100 : whole_blocks(row);
    if (one_in(row, 64))
        call->received += (size_t)1 << (8 + draw(row) % 56);
}

static void check_starts(void)
{
    static struct lent rattle, plain;

    for (size_t length = 0; length < ROOM; length++) {
        memset(&rattle, 0xA5, sizeof rattle);
        plain = rattle;
        uint32_t a = cb_start_collector(rattle.collector, length);
        if (a != plain_start_collector(plain.collector, length) || memcmp(&rattle, &plain, sizeof plain) != 0)
            differ("collector", "a start at length", (long)length);
    }
}

static long check(unsigned long *seen)
{
    static struct lent rattle, plain;
    uint64_t row = 13;

    check_starts();
    for (long i = 0; i < CALLS; i++) {
        make_call(&row, &rattle);
        plain = rattle;
        uint32_t a = cb_collect(rattle.collector, rattle.collector_len, rattle.page, rattle.page_len, rattle.received,
                                rattle.output, rattle.output_len);
        uint32_t b = plain_collect(plain.collector, plain.collector_len, plain.page, plain.page_len, plain.received,
                                   plain.output, plain.output_len);
        if (a != b || memcmp(&rattle, &plain, sizeof plain) != 0)
            differ("collector", "call", i);
        seen[CB_NUMBER(a)]++;
    }
    return CALLS;
}

/* The page of a number of the message that is collected. */
static void make_own(uint64_t *row, const uint8_t *collector, unsigned number, uint8_t *page)
{
    memset(page, (int)(draw(row) % 256), CB_OUTPUT);
    memcpy(page, collector + 1, 4);
    page[5] = (uint8_t)(number << 4 | pages);
}

/* A collector that holds all pages but one, or but two where one is added, and the page that is given to it. */
static void make_input(uint64_t *row, enum call call, uint8_t *collector, uint8_t *page)
{
    unsigned missing = 1 + (unsigned)(draw(row) % pages), next = 1 + missing % pages;

    make_empty(collector);
    fill(row, collector + 1, 4);
    for (unsigned i = 1; i <= pages; i++) {
        uint8_t *place = collector + CB_PAGE_PLACE(i);
        if (i == missing || (call == ADDED && i == next))
            continue;
        collector[0] = (uint8_t)pages;
        place[0] = (uint8_t)whole_blocks(row);
        make_own(row, collector, i, place + 1);
    }
    make_own(row, collector, call == PASSED_OVER ? next : missing, page);
    if (call == BEGUN)
        page[1] ^= 1;
}

static void prepare(size_t length, bool by_rattle)
{
    (void)by_rattle;
    pages = length > 0 ? (unsigned)length : 1;
}

static void renew(int call)
{
    uint64_t row = 1;

    for (int i = 0; i < INPUTS; i++)
        make_input(&row, (enum call)call, collectors[i], given[i]);
}

static void pass(int call, bool rattle)
{
    static uint8_t output[CB_COLLECTOR];
    uint32_t answer = call == START_COLLECTOR ? CB_DONE : call == WHOLE || call == SINGLE ? 256 * pages : CB_KEPT;

    for (int i = 0; i < INPUTS; i++) {
        uint32_t returned;
        if (call == START_COLLECTOR)
            returned = (rattle ? cb_start_collector : plain_start_collector)(collectors[i], CB_COLLECTOR);
        else
            returned = (rattle ? cb_collect : plain_collect)(collectors[i], CB_COLLECTOR, given[i], CB_OUTPUT, CB_OUTPUT,
                                                             output, sizeof output);
        if (returned != answer)
            differ("collector", "timed input", i);
    }
}

int main(int argc, char **argv)
{
    static const char *const calls[] = {
        [START_COLLECTOR] = "start_collector", [ADDED] = "collect:page-added", [BEGUN] = "collect:message-begun",
        [WHOLE] = "collect:message-whole", [PASSED_OVER] = "collect:page-passed-over", [SINGLE] = "collect:page-1-of-1",
        NULL,
    };
    static const uint8_t answers[] = {0, 1, 8, 15, 16, 18, 50};
    static const struct subject subject = {
        .name = "collector", .calls = calls, .longest = CB_MOST_PAGES, .inputs = INPUTS, .rounds = 51,
        .prepare = prepare, .renew = renew, .pass = pass, .check = check, .answers = answers, .answer_count = sizeof answers,
    };

    return measure(&subject, argc, argv);
}
