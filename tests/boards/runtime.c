/*
 * What compiled code may need of a board beside copying and filling memory, which examples/cortex-m3/needed.c has: what its
 * processor can't do with 64 bits, or can't divide. A toolchain for the board brings these along.
 */
#include <stdint.h>

/* Divides bit by bit. */
uint64_t divide(uint64_t number, uint64_t by, uint64_t *rest);
uint64_t divide(uint64_t number, uint64_t by, uint64_t *rest)
{
    uint64_t quotient = 0, left = 0;

    for (int bit = 0; bit < 64; bit++) {
        left = left << 1 | number >> 63;
        number <<= 1;
        quotient <<= 1;
        if (left >= by) {
            left -= by;
            quotient |= 1;
        }
    }
    *rest = left;
    return quotient;
}

#if defined __arm__
uint64_t __aeabi_llsl(uint64_t number, int count);
uint64_t __aeabi_llsr(uint64_t number, int count);
uint64_t __aeabi_lmul(uint64_t a, uint64_t b);

uint64_t __aeabi_llsl(uint64_t number, int count)
{
    for (; count > 0; count--)
        number <<= 1;
    return number;
}

uint64_t __aeabi_llsr(uint64_t number, int count)
{
    for (; count > 0; count--)
        number >>= 1;
    return number;
}

uint64_t __aeabi_lmul(uint64_t a, uint64_t b)
{
    uint64_t sum = 0;

    for (; b != 0; b >>= 1, a <<= 1)
        if (b & 1)
            sum += a;
    return sum;
}

/* The quotient in the first two registers, the rest in the next two. */
__asm__(".section .text.__aeabi_uldivmod, \"ax\"\n"
        ".globl __aeabi_uldivmod\n"
        ".type __aeabi_uldivmod, %function\n"
        "__aeabi_uldivmod:\n"
        "    push  {r4, lr}\n"
        "    sub   sp, #16\n"
        "    add   r4, sp, #8\n"
        "    str   r4, [sp]\n"
        "    bl    divide\n"
        "    ldr   r2, [sp, #8]\n"
        "    ldr   r3, [sp, #12]\n"
        "    add   sp, #16\n"
        "    pop   {r4, pc}\n");
#elif defined __riscv
uint64_t __udivdi3(uint64_t number, uint64_t by);
uint64_t __umoddi3(uint64_t number, uint64_t by);

uint64_t __udivdi3(uint64_t number, uint64_t by)
{
    uint64_t rest;

    return divide(number, by, &rest);
}

uint64_t __umoddi3(uint64_t number, uint64_t by)
{
    uint64_t rest;

    divide(number, by, &rest);
    return rest;
}
#endif
