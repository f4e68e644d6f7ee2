/*
 * What the archive needs of a board, for one without a C library; docs/BOARDS.md has what it needs on other processors. Leave
 * this file out where a library has these.
 */
#include <stddef.h>
#include <stdint.h>

void *memcpy(void *to, const void *from, size_t count);
void *memset(void *to, int octet, size_t count);

/* What is written to is volatile here and below, since a compiler may make a call of memcpy or memset of a plain loop. */
void *memcpy(void *to, const void *from, size_t count)
{
    volatile uint8_t *into = to;
    const uint8_t *out_of = from;

    for (size_t i = 0; i < count; i++)
        into[i] = out_of[i];
    return to;
}

void *memset(void *to, int octet, size_t count)
{
    volatile uint8_t *into = to;

    for (size_t i = 0; i < count; i++)
        into[i] = (uint8_t)octet;
    return to;
}
