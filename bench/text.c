/*
 * cb_write_text and cb_read_text beside plain C: a program of measure.h. Lengths are characters of a text.
 *
 * A character of the extension table, which takes a pair of septets, costs more than a plain one. So texts of pairs are calls
 * of their own here.
 */
#include <stdbool.h>
#include <stdio.h>
#include <string.h>

#include "blocks.h"
#include "csobvarit.h"
#include "measure.h"
#include "plain_text.h"

typedef uint32_t writer(uint16_t, uint16_t, uint8_t, uint8_t, const uint16_t *, size_t, uint8_t *, size_t);
typedef uint32_t reader(const uint8_t *, size_t, size_t, uint16_t *, size_t);

enum { CALLS = 1000000, PAGES = 4096, ROOM = 112, LONG_TEXT = 200, PAIRS = 10 };
enum call { WRITE_TEXT, READ_TEXT, WRITE_PAIRS, READ_PAIRS };

/* GSM 03.38, the extension table: septets, and their characters. */
static const uint8_t pair_septets[PAIRS] = {0x0A, 0x14, 0x28, 0x29, 0x2F, 0x3C, 0x3D, 0x3E, 0x40, 0x65};
static const uint16_t pair_points[PAIRS] = {0x0C, '^', '{', '}', '\\', '[', '~', ']', '|', 0x20AC};

static uint16_t texts[PAGES][CB_TEXT], pair_texts[PAGES][CB_TEXT];
static uint8_t pages[PAGES][CB_OUTPUT], pair_pages[PAGES][CB_OUTPUT];
static size_t characters;

static uint16_t pair(uint64_t *row)
{
    return pair_points[draw(row) % PAIRS];
}

static bool is_pair(uint16_t point)
{
    for (size_t i = 0; i < PAIRS; i++)
        if (pair_points[i] == point)
            return true;
    return false;
}

/* A character that can be written, most often, and now and then nearly one; one in so many is a pair. */
static uint16_t character(uint64_t *row, unsigned pairs)
{
    static const uint16_t some[] = {0x40, 0xA3, 0x394, 0x3A9, 0x0D, 0x0A, 0xE0, 0xC7, 0xFC, 0x20};
    static const uint16_t near[] = {0x00, 0x0B, 0x1B, 0x60, 0x7F, 0xAC, 0x3AA, 0x3FF, 0x20AB, 0x20AD, 0xA0AC, 0xFFFF};

    if (one_in(row, 400))
        return one_in(row, 2) ? (uint16_t)draw(row) : near[draw(row) % (sizeof near / sizeof *near)];
    if (one_in(row, pairs))
        return pair(row);
    if (one_in(row, 8))
        return some[draw(row) % (sizeof some / sizeof *some)];
    return (uint16_t)('A' + draw(row) % 26);
}

/* A length of text: any, one near 93 characters, or one near 93 septets. */
static size_t text_length(uint64_t *row, const uint16_t *text)
{
    size_t length = 0, septets = 0;

    if (one_in(row, 3))
        return draw(row) % LONG_TEXT;
    if (one_in(row, 2))
        return CB_TEXT - 2 + draw(row) % 4;
    while (septets < CB_TEXT)
        septets += is_pair(text[length++]) ? 2 : 1;
    return length - draw(row) % 2;
}

static void check_write(uint64_t *row, int at, unsigned long *seen)
{
    uint16_t text[LONG_TEXT];
    uint8_t rattle[ROOM], plain[ROOM];
    unsigned pairs = 1u << draw(row) % 10;
    size_t room = one_in(row, 32) ? draw(row) % ROOM : CB_OUTPUT;
    uint16_t serial = (uint16_t)draw(row), identifier = (uint16_t)draw(row);
    uint8_t scheme = one_in(row, 16) ? (uint8_t)draw(row) : (uint8_t)(draw(row) % 16);
    uint8_t parameter = one_in(row, 8) ? (uint8_t)draw(row) : 0x11;

    for (size_t i = 0; i < LONG_TEXT; i++)
        text[i] = character(row, pairs);
    size_t length = text_length(row, text);
    for (size_t i = 0; i < ROOM; i++)
        rattle[i] = (uint8_t)draw(row);
    memcpy(plain, rattle, sizeof plain);
    uint32_t a = cb_write_text(serial, identifier, scheme, parameter, text, length, rattle, room);
    uint32_t b = plain_write_text(serial, identifier, scheme, parameter, text, length, plain, room);
    if (a != b || memcmp(rattle, plain, sizeof plain) != 0)
        differ("text", "writing", at);
    seen[CB_NUMBER(a)]++;
}

/* One septet in so many is 1B. The others are often CRs or listed ones, and from the padding on CRs alone. */
static unsigned septet(uint64_t *row, unsigned escapes, bool padding)
{
    if (one_in(row, escapes))
        return 0x1B;
    if (padding || one_in(row, 4))
        return 0x0D;
    return one_in(row, 2) ? pair_septets[draw(row) % PAIRS] : (unsigned)(draw(row) % 128);
}

/* Content with escapes: few or many and in runs, before CRs, and where it is cut when less is received. */
static void make_content(uint64_t *row, uint8_t *content)
{
    unsigned escapes = 1u << draw(row) % 8;
    size_t padding = draw(row) % (CB_TEXT + 1);

    memset(content, 0, CB_OUTPUT - CB_HEADER);
    for (size_t i = 0; i < CB_TEXT; i++) {
        unsigned bits = septet(row, escapes, i >= padding) << 7 * i % 8;
        content[7 * i / 8] |= (uint8_t)bits;
        content[7 * i / 8 + 1] |= (uint8_t)(bits >> 8);
    }
}

static void check_read(uint64_t *row, int at, unsigned long *seen)
{
    uint8_t page[ROOM];
    uint16_t rattle[ROOM], plain[ROOM];
    size_t length = one_in(row, 32) ? draw(row) % ROOM : CB_OUTPUT;
    size_t received = one_in(row, 16) ? draw(row) % 300 : 22 * (1 + draw(row) % 4);
    size_t room = one_in(row, 32) ? draw(row) % ROOM : CB_TEXT;

    for (size_t i = 0; i < ROOM; i++)
        page[i] = (uint8_t)draw(row);
    if (one_in(row, 4))
        memcpy(page, pages[draw(row) % PAGES], CB_OUTPUT);
    else if (!one_in(row, 4))
        make_content(row, page + CB_HEADER);
    if (!one_in(row, 8))
        page[4] &= 0x0F;
    for (size_t i = 0; i < ROOM; i++)
        rattle[i] = (uint16_t)draw(row);
    memcpy(plain, rattle, sizeof plain);
    uint32_t a = cb_read_text(page, length, received, rattle, room);
    uint32_t b = plain_read_text(page, length, received, plain, room);
    if (a != b || memcmp(rattle, plain, sizeof plain) != 0)
        differ("text", "reading", at);
    seen[CB_NUMBER(a)]++;
}

static long check(unsigned long *seen)
{
    uint64_t row = 3;

    for (int i = 0; i < CALLS; i++) {
        check_write(&row, i, seen);
        check_read(&row, i, seen);
    }
    return 2 * CALLS;
}

/* A text with as many pairs as 93 septets have room for. Where among them plain characters stand is drawn. */
static void make_pairs(uint64_t *row, size_t length, uint16_t *text)
{
    size_t pairs = length > CB_TEXT / 2 ? CB_TEXT - length : length;
    size_t turned = draw(row) % CB_TEXT;

    for (size_t i = 0; i < length; i++)
        text[i] = (i + turned) % length < pairs ? pair(row) : (uint16_t)('A' + draw(row) % 26);
}

/* No text ends in CR, so that it can be written. */
static void prepare(size_t length, bool by_rattle)
{
    writer *write = by_rattle ? cb_write_text : plain_write_text;
    uint64_t row = 1, pair_row = 2;

    plain_text_init();
    characters = length;
    for (int i = 0; i < PAGES; i++) {
        for (size_t j = 0; j < length; j++)
            texts[i][j] = (uint16_t)(j % 7 == 6 ? 0xE0 : 'A' + draw(&row) % 26);
        write(0x10, 0x8001, 0, 0x11, texts[i], length, pages[i], CB_OUTPUT);
        make_pairs(&pair_row, length, pair_texts[i]);
        write(0x10, 0x8001, 0, 0x11, pair_texts[i], length, pair_pages[i], CB_OUTPUT);
    }
}

static void pass(int call, bool rattle)
{
    writer *write = rattle ? cb_write_text : plain_write_text;
    reader *read = rattle ? cb_read_text : plain_read_text;
    uint16_t (*from_texts)[CB_TEXT] = call == WRITE_PAIRS ? pair_texts : texts;
    uint8_t (*from_pages)[CB_OUTPUT] = call == READ_PAIRS ? pair_pages : pages;
    static uint16_t text[CB_TEXT];
    static uint8_t page[CB_OUTPUT];

    for (int i = 0; i < PAGES; i++) {
        if (call == WRITE_TEXT || call == WRITE_PAIRS)
            write(0x10, 0x8001, 0, 0x11, from_texts[i], characters, page, sizeof page);
        else
            read(from_pages[i], CB_OUTPUT, CB_OUTPUT, text, CB_TEXT);
    }
}

int main(int argc, char **argv)
{
    static const char *const calls[] = {
        [WRITE_TEXT] = "write_text", [READ_TEXT] = "read_text",
        [WRITE_PAIRS] = "write_text:pairs", [READ_PAIRS] = "read_text:pairs", NULL,
    };
    static const uint8_t answers[] = {0, 10, 11, 12, 13, 14, 15, 16, 18};
    static const struct subject subject = {
        .name = "text", .calls = calls, .longest = CB_TEXT, .inputs = PAGES, .rounds = 51,
        .prepare = prepare, .pass = pass, .check = check, .answers = answers, .answer_count = sizeof answers,
    };

    return measure(&subject, argc, argv);
}
