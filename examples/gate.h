/* What a gate board does with the pieces that it hears, for the boards of the examples; how octets come and go is theirs. */
#ifndef GATE_H
#define GATE_H

#include <stddef.h>
#include <stdint.h>

/* Begins with no schedule and nothing held. The identifiers wanted, at most CB_MOST_WANTED, lie in the caller's memory and last. */
void gate_start(const uint16_t *identifiers, size_t count);

/* Takes the channel's next piece, of any length, and shows what comes of it. */
void gate_take(const uint8_t *piece, size_t length);

/* Puts a character where the board shows things. Each board has its own. */
void line_put(char character);

#endif
