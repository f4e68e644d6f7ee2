/*
 * Text as it is written and read in C without proofs: what cb_write_text and cb_read_text are measured beside.
 *
 * Most texts are plain: they have no pair of septets, which is an escape and the septet after it. So both calls ask first whether
 * a text is plain, and then have a loop for it that asks nothing at a character.
 *
 * The writer looks through the text first. Then it packs each character as it comes, and writes six octets when they are full;
 * with PLAIN_EIGHTS it packs eight characters at a time where a text is plain. There is no array of septets. The reader unpacks
 * the septets into an array, one by one, with PLAIN_WORDS eight in a word, and then takes their code points.
 */
#define _DEFAULT_SOURCE

#include "plain_text.h"

#include <endian.h>
#include <stdbool.h>
#include <string.h>

enum { PAGE = 88, HEADER = 6, CONTENT = 82, TEXT = 93, WORDS = 12, FULL = 48 };
enum { CR = 0x0D, ESCAPE = 0x1B, SPACE = 0x20, EURO = 0x20AC, PAIR = 0x80, NONE = 0xFF };

/* The entries of septets_of: a power of two, so that the bits of all characters together tell whether one is past them. */
enum { CODES = 0x400 };

/*
 * For loops that do so little at a character that their own counting is half of it. No other plain C in bench/ is unrolled by
 * hand, so what is measured has its loops as they are; with PLAIN_UNROLLED eight turns stand one after the other.
 */
#ifdef PLAIN_UNROLLED
#define UNROLLED _Pragma("GCC unroll 8")
#else
#define UNROLLED
#endif

/* GSM 03.38, the default alphabet: the code point of each septet. */
static const uint16_t code_points[128] = {
    0x0040, 0x00A3, 0x0024, 0x00A5, 0x00E8, 0x00E9, 0x00F9, 0x00EC,
    0x00F2, 0x00C7, 0x000A, 0x00D8, 0x00F8, 0x000D, 0x00C5, 0x00E5,
    0x0394, 0x005F, 0x03A6, 0x0393, 0x039B, 0x03A9, 0x03A0, 0x03A8,
    0x03A3, 0x0398, 0x039E, 0x0020, 0x00C6, 0x00E6, 0x00DF, 0x00C9,
    0x0020, 0x0021, 0x0022, 0x0023, 0x00A4, 0x0025, 0x0026, 0x0027,
    0x0028, 0x0029, 0x002A, 0x002B, 0x002C, 0x002D, 0x002E, 0x002F,
    0x0030, 0x0031, 0x0032, 0x0033, 0x0034, 0x0035, 0x0036, 0x0037,
    0x0038, 0x0039, 0x003A, 0x003B, 0x003C, 0x003D, 0x003E, 0x003F,
    0x00A1, 0x0041, 0x0042, 0x0043, 0x0044, 0x0045, 0x0046, 0x0047,
    0x0048, 0x0049, 0x004A, 0x004B, 0x004C, 0x004D, 0x004E, 0x004F,
    0x0050, 0x0051, 0x0052, 0x0053, 0x0054, 0x0055, 0x0056, 0x0057,
    0x0058, 0x0059, 0x005A, 0x00C4, 0x00D6, 0x00D1, 0x00DC, 0x00A7,
    0x00BF, 0x0061, 0x0062, 0x0063, 0x0064, 0x0065, 0x0066, 0x0067,
    0x0068, 0x0069, 0x006A, 0x006B, 0x006C, 0x006D, 0x006E, 0x006F,
    0x0070, 0x0071, 0x0072, 0x0073, 0x0074, 0x0075, 0x0076, 0x0077,
    0x0078, 0x0079, 0x007A, 0x00E4, 0x00F6, 0x00F1, 0x00FC, 0x00E0,
};

/* Its extension table: the septet after the escape, and the code point of the pair. */
static const struct {
    uint8_t septet;
    uint16_t code;
} pairs[] = {
    {0x0A, 0x000C}, {0x14, 0x005E}, {0x28, 0x007B}, {0x29, 0x007D}, {0x2F, 0x005C},
    {0x3C, 0x005B}, {0x3D, 0x007E}, {0x3E, 0x005D}, {0x40, 0x007C}, {0x65, EURO},
};

static uint16_t pair_points[128]; /* by the septet after an escape, which has its own character where the table lists none */
static uint8_t septets_of[CODES]; /* by code point; with PAIR if an escape goes before it */

void plain_text_init(void)
{
    memset(septets_of, NONE, sizeof septets_of);
    for (unsigned i = 0; i < 128; i++)
        if (i != ESCAPE)
            septets_of[code_points[i]] = (uint8_t)i;
    memcpy(pair_points, code_points, sizeof pair_points);
    for (size_t i = 0; i < sizeof pairs / sizeof *pairs; i++) {
        pair_points[pairs[i].septet] = pairs[i].code;
        if (pairs[i].code < CODES)
            septets_of[pairs[i].code] = PAIR | pairs[i].septet;
    }
}

/* Of any code point. A table that went on to the euro sign would be eight times as long. */
static unsigned septet_of(uint16_t code)
{
    if (code < CODES)
        return septets_of[code];
    return code == EURO ? PAIR | 0x65 : NONE;
}

#ifdef PLAIN_WORDS

/* Spreads eight septets, packed in the low 56 bits, each into an octet of its own: by fours, by twos, one by one. */
static uint64_t spread(uint64_t word)
{
    word = (word & 0x000000000FFFFFFF) | (word & 0x00FFFFFFF0000000) << 4;
    word = (word & 0x00003FFF00003FFF) | (word & 0x0FFFC0000FFFC000) << 2;
    return (word & 0x007F007F007F007F) | (word & 0x3F803F803F803F80) << 1;
}

/* The last word may have septets that are not asked for. Its eighth octet is behind the content, where `all` has one more. */
static void unpack(const uint8_t *octets, uint8_t *septets, size_t count)
{
    uint8_t all[7 * WORDS + 1] = {0};

    memcpy(all, octets, CONTENT);
    for (size_t i = 0; 8 * i < count; i++) {
        uint64_t word;
        memcpy(&word, all + 7 * i, sizeof word);
        word = htole64(spread(le64toh(word)));
        memcpy(septets + 8 * i, &word, sizeof word);
    }
}

#else

static void unpack(const uint8_t *octets, uint8_t *septets, size_t count)
{
    unsigned bits = 0;
    unsigned held = 0;

    UNROLLED
    for (size_t i = 0; i < count; i++) {
        if (held < 7) {
            bits |= (unsigned)*octets++ << held;
            held += 8;
        }
        septets[i] = bits & 0x7F;
        bits >>= 7;
        held -= 7;
    }
}

#endif

/* Octets being written: where the next ones go, and the bits for them that are held, fewer than 48. */
struct run {
    uint8_t *octets;
    uint64_t bits;
    unsigned held;
};

/* Six octets are full at a time, so that a pair always has room. A whole word is written, the next over its last two octets. */
static inline void push(struct run *run, uint64_t bits, unsigned count)
{
    run->bits |= bits << run->held;
    run->held += count;
    if (run->held >= FULL) {
        uint64_t word = htole64(run->bits);
        memcpy(run->octets, &word, sizeof word);
        run->octets += FULL / 8;
        run->bits >>= FULL;
        run->held -= FULL;
    }
}

/* Of the 651 bits of 93 septets 27 are left in the end, for the last four octets. */
static inline void pad(struct run *run, size_t septets)
{
    uint32_t rest;

    UNROLLED
    for (size_t i = septets; i < TEXT; i++)
        push(run, CR, 7);
    rest = htole32((uint32_t)run->bits);
    memcpy(run->octets, &rest, sizeof rest);
}

#ifdef PLAIN_EIGHTS

/* The septets of eight characters, in seven octets of a word; the eighth is 0. */
static uint64_t eight(const uint16_t *text)
{
    uint64_t word = 0;

    UNROLLED
    for (unsigned i = 8; i-- > 0;)
        word = word << 7 | septets_of[text[i]];
    return htole64(word);
}

/* What is left of a text is packed with its padding. The next word is written over a word's eighth octet; the last has five. */
static void pack_plain(const uint16_t *text, size_t text_len, uint8_t *octets)
{
    uint16_t rest[8];
    uint64_t word;
    size_t at = 0;

    for (; at + 8 <= text_len; at += 8, octets += 7) {
        word = eight(text + at);
        memcpy(octets, &word, sizeof word);
    }
    for (size_t i = 0; i < 8; i++)
        rest[i] = at + i < text_len ? text[at + i] : CR;
    for (; at + 8 <= TEXT; at += 8, octets += 7) {
        word = eight(rest);
        memcpy(octets, &word, sizeof word);
        for (size_t i = 0; i < 8; i++)
            rest[i] = CR;
    }
    for (size_t i = TEXT - at; i < 8; i++)
        rest[i] = 0x40; /* whose septet is 0 */
    word = eight(rest);
    memcpy(octets, &word, 5);
}

#else

static void pack_plain(const uint16_t *text, size_t text_len, uint8_t *octets)
{
    struct run run = {octets, 0, 0};

    UNROLLED
    for (size_t i = 0; i < text_len; i++)
        push(&run, septets_of[text[i]], 7);
    pad(&run, text_len);
}

#endif

static void pack_pairs(const uint16_t *text, size_t text_len, size_t septets, uint8_t *octets)
{
    struct run run = {octets, 0, 0};

    for (size_t i = 0; i < text_len; i++) {
        unsigned septet = septet_of(text[i]);
        if (septet < PAIR)
            push(&run, septet, 7);
        else
            push(&run, (septet & 0x7F) << 7 | ESCAPE, 14);
    }
    pad(&run, septets);
}

/* Neither loop has an early way out, so that a compiler can take many characters at once. */
static bool is_plain(const uint16_t *text, size_t text_len)
{
    uint16_t codes = 0;
    uint8_t septets = 0;

    UNROLLED
    for (size_t i = 0; i < text_len; i++)
        codes |= text[i];
    if (codes >= CODES)
        return false;
    UNROLLED
    for (size_t i = 0; i < text_len; i++)
        septets |= septets_of[text[i]];
    return septets < PAIR;
}

/* How many septets a text takes; SIZE_MAX if a character is in neither table. */
static size_t count_septets(const uint16_t *text, size_t text_len)
{
    size_t count = text_len;

    if (is_plain(text, text_len))
        return count;
    for (size_t i = 0; i < text_len; i++) {
        unsigned septet = septet_of(text[i]);
        if (septet == NONE)
            return SIZE_MAX;
        count += septet / PAIR;
    }
    return count;
}

uint32_t plain_write_text(uint16_t serial, uint16_t identifier, uint8_t scheme, uint8_t parameter,
                          const uint16_t *text, size_t text_len, uint8_t *page, size_t page_len)
{
    size_t septets;

    if (page_len != PAGE)
        return 15;
    if (scheme > 0x0F)
        return 13;
    if (parameter >> 4 == 0 || (parameter & 0x0F) == 0 || parameter >> 4 > (parameter & 0x0F))
        return 14;
    /* All of the text before the page, which a refusal leaves as it was. */
    septets = count_septets(text, text_len);
    if (septets == SIZE_MAX)
        return 11;
    if (septets > TEXT)
        return 10;
    if (text_len > 0 && text[text_len - 1] == CR)
        return 12;
    page[0] = (uint8_t)(serial >> 8);
    page[1] = (uint8_t)serial;
    page[2] = (uint8_t)(identifier >> 8);
    page[3] = (uint8_t)identifier;
    page[4] = scheme;
    page[5] = parameter;
    if (septets == text_len)
        pack_plain(text, text_len, page + HEADER);
    else
        pack_pairs(text, text_len, septets, page + HEADER);
    return 256 * (HEADER + (uint32_t)(7 * septets + 7) / 8);
}

static size_t show_plain(const uint8_t *septets, size_t count, uint16_t *text)
{
    while (count > 0 && septets[count - 1] == CR)
        count--;
    UNROLLED
    for (size_t i = 0; i < count; i++)
        text[i] = code_points[septets[i]];
    return count;
}

/* Only when all characters are there is it known which CRs are at the end. Those up to the last escaped character are kept. */
static size_t show_pairs(const uint8_t *septets, size_t count, uint16_t *text)
{
    size_t length = 0, kept = 0;

    for (size_t i = 0; i < count; i++) {
        if (septets[i] == ESCAPE && i + 1 < count) {
            text[length++] = pair_points[septets[++i]];
            kept = length;
        } else {
            text[length++] = code_points[septets[i]];
        }
    }
    while (length > kept && text[length - 1] == CR)
        length--;
    return length;
}

uint32_t plain_read_text(const uint8_t *page, size_t page_len, size_t received, uint16_t *text, size_t text_len)
{
    uint8_t septets[8 * WORDS];
    size_t count;

    if (text_len != TEXT)
        return 15;
    if (page_len != PAGE)
        return 16;
    if (received != 22 && received != 44 && received != 66 && received != 88)
        return 18;
    if (page[4] > 0x0F)
        return 13;
    count = (received - HEADER) * 8 / 7;
    unpack(page + HEADER, septets, count);
    if (memchr(septets, ESCAPE, count) == NULL)
        count = show_plain(septets, count, text);
    else
        count = show_pairs(septets, count, text);
    for (size_t i = count; i < TEXT; i++)
        text[i] = SPACE;
    return 256 * (uint32_t)count;
}
