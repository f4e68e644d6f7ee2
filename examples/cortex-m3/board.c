/*
 * A board on a bare Cortex-M3: takes pieces from a serial line, and puts what gate.c makes of them on the same line.
 *
 * The line brings each piece as its length, in one octet, and its octets. Length 0 ends the program, which is for trying it; a
 * radio has no end, but tells the length of what it received too.
 *
 * The machine is Arm's MPS2 with the image AN385. On another chip the UART's registers and clock are others, and memory.ld has
 * where its memory lies. A board that does more than this fills the pieces by an interrupt, and calls gate_take outside of it.
 */
#include "../gate.h"
#include "csobvarit.h"

/* The UART, of Arm's CMSDK. */
struct uart {
    uint32_t data, state, control, interrupts, divisor;
};
static volatile struct uart *const uart = (volatile struct uart *)0x40004000;

enum { SENDING = 1, RECEIVED = 2 };        /* state: the octet to send is still there; one has come */
enum { SENDS = 1, RECEIVES = 2 };          /* control */
enum { CLOCK = 25000000, SPEED = 115200 }; /* of the chip, and of the line, in Hz */

static const uint16_t wanted[] = {0x0032, 0x8ABC};

static uint8_t line_get(void)
{
    while (!(uart->state & RECEIVED))
        continue;
    return (uint8_t)uart->data;
}

void line_put(char character)
{
    while (uart->state & SENDING)
        continue;
    uart->data = (uint8_t)character;
}

int main(void)
{
    static uint8_t piece[UINT8_MAX]; /* as long as the line can tell: what isn't 23 octets is for cb_intake to refuse */
    uint8_t length;

    uart->divisor = CLOCK / SPEED;
    uart->control = SENDS | RECEIVES;
    gate_start(wanted, sizeof wanted / sizeof wanted[0]);
    while ((length = line_get()) > 0) {
        for (uint8_t i = 0; i < length; i++)
            piece[i] = line_get();
        gate_take(piece, length);
    }
    while (uart->state & SENDING)
        continue;
    return 0;
}
