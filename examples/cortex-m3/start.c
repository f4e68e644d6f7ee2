/*
 * How a program begins on a Cortex-M: the table of vectors, and what has to be in memory before main.
 *
 * Where main returns, or the processor faults, the emulator is asked to end, with status 0 or 1 (semihosting). A chip without a
 * debugger takes that for a fault; put there what the board is to do instead, such as a reset.
 */
#include <stdint.h>

/* Of memory.ld. */
extern uint32_t stack_top[], data_begin[], data_end[], data_kept[], bss_begin[], bss_end[];

int main(void);
void begin(void);

enum { EXIT = 0x18, ENDED = 0x20026, FAILED = 0x20023 }; /* the request to end, and how it ended */

static void leave(uint32_t how)
{
    register uint32_t r0 __asm__("r0") = EXIT;
    register uint32_t r1 __asm__("r1") = how;

    for (;;)
        __asm__ volatile("bkpt 0xAB" : "+r"(r0) : "r"(r1) : "memory");
}

static void fault(void)
{
    leave(FAILED);
}

void begin(void)
{
    const uint32_t *kept = data_kept;

    for (uint32_t *word = data_begin; word < data_end; word++)
        *word = *kept++;
    for (uint32_t *word = bss_begin; word < bss_end; word++)
        *word = 0;
    leave(main() == 0 ? ENDED : FAILED);
}

/* The stack, and the exceptions of the processor: reset, NMI, and four faults. A chip's interrupts follow from the 17th entry. */
struct vectors {
    uint32_t *stack;
    void (*exceptions[15])(void);
};
__attribute__((section(".vectors"), used)) static const struct vectors vectors = {
    stack_top, {begin, fault, fault, fault, fault, fault},
};
