/* The little of a C library that results.c and its hosts need, for boards that have none. */
#ifndef BARE_H
#define BARE_H

#include <stdbool.h>
#include <stddef.h>
#include <stdint.h>

static inline bool equal(const char *one, const char *other)
{
    while (*one != '\0' && *one == *other)
        one++, other++;
    return *one == *other;
}

static inline bool same(const uint8_t *one, const uint8_t *other, size_t len)
{
    for (size_t i = 0; i < len; i++)
        if (one[i] != other[i])
            return false;
    return true;
}

static inline void copy(uint8_t *to, const uint8_t *from, size_t len)
{
    for (size_t i = 0; i < len; i++)
        to[i] = from[i];
}

static inline size_t length(const char *text)
{
    size_t len = 0;

    while (text[len] != '\0')
        len++;
    return len;
}

/* The first place of an octet, or NULL. */
static inline char *find(char *text, char octet)
{
    while (*text != octet && *text != '\0')
        text++;
    return *text == octet ? text : NULL;
}

/* What a hex digit is, or 16. */
static inline unsigned digit(char hex)
{
    if (hex >= '0' && hex <= '9')
        return (unsigned)(hex - '0');
    return hex >= 'a' && hex <= 'f' ? (unsigned)(hex - 'a') + 10 : 16;
}

/* Writes a number in hex, with so many digits at least; gives its end. */
static inline char *put_hex(char *to, uint64_t number, unsigned least)
{
    for (unsigned left = 16; left-- > 0;) {
        unsigned nibble = (unsigned)(number >> 60);
        number <<= 4;
        if (nibble != 0 || left < least)
            least = left + 1, *to++ = "0123456789abcdef"[nibble];
    }
    *to = '\0';
    return to;
}

/* A number in decimal, written to memory of its own. It takes no division, which not every processor has. */
struct decimal { char text[11]; };

static inline const char *decimal(struct decimal *shown, uint32_t number)
{
    static const uint32_t powers[] = {1000000000, 100000000, 10000000, 1000000, 100000, 10000, 1000, 100, 10, 1};
    char *to = shown->text;

    for (size_t i = 0; i < sizeof powers / sizeof powers[0]; i++) {
        char digit = '0';
        for (; number >= powers[i]; number -= powers[i])
            digit++;
        if (digit != '0' || to != shown->text || powers[i] == 1)
            *to++ = digit;
    }
    *to = '\0';
    return shown->text;
}

/* The same made where it is used. */
#define DECIMAL(number) decimal(&(struct decimal){""}, number)

#endif
