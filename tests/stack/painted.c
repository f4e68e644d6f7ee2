/*
 * Prints each call for C with the octets of stack that it was seen to take, its return address counted, what the C library
 * takes below it too. Each runs on a painted stack of its own, on the longest input that it goes all the way with and on one
 * that it refuses; what has lost its paint was used.
 */
#include <stdio.h>
#include <string.h>

#include "csobvarit.h"

enum { STACK = 1 << 16, ON_STACK = 4, WORDS = 6 + ON_STACK, PAGES = 32 };

/* Calls a function with ten words, six of them in registers, on the stack that ends at `top`. */
void call_on(uint8_t *top, void (*function)(void), const uint64_t *words);
__asm__(".text\n"
        "call_on:\n"
        "    push %rbp\n"
        "    mov  %rsp, %rbp\n"
        "    mov  %rdi, %rsp\n"
        "    mov  %rsi, %rax\n"
        "    mov  %rdx, %r10\n"
        "    push 72(%r10)\n"
        "    push 64(%r10)\n"
        "    push 56(%r10)\n"
        "    push 48(%r10)\n"
        "    mov  (%r10), %rdi\n"
        "    mov  8(%r10), %rsi\n"
        "    mov  16(%r10), %rdx\n"
        "    mov  24(%r10), %rcx\n"
        "    mov  32(%r10), %r8\n"
        "    mov  40(%r10), %r9\n"
        "    call *%rax\n"
        "    mov  %rbp, %rsp\n"
        "    pop  %rbp\n"
        "    ret\n");

/* The octets that a call took, by one paint. */
static size_t seen(void (*function)(void), const uint64_t *words, int paint)
{
    static uint8_t stack[STACK];
    uint8_t *lowest = stack, *top = stack + STACK - (uintptr_t)stack % 16; /* calls want it aligned to 16 octets */

    memset(stack, paint, sizeof stack);
    call_on(top, function, words);
    while (*lowest == paint)
        lowest++;
    return (size_t)(top - ON_STACK * sizeof(uint64_t) - lowest);
}

/* Prints the most that a call took, by two paints: with these words, and with the word at one place set to 0. */
static void show(const char *name, void (*function)(void), const uint64_t *words, size_t spoiled)
{
    static const int paints[] = {0xA7, 0x58};
    size_t most = 0;

    for (size_t i = 0; i < 4; i++) {
        uint64_t given[WORDS];
        memcpy(given, words, sizeof given);
        if (i % 2 == 1)
            given[spoiled] = 0;
        size_t took = seen(function, given, paints[i / 2]);
        if (took > most)
            most = took;
    }
    printf("%s %zu\n", name, most);
}

/* A plan file of nothing but pages: as many different ones, and then repeats of them. */
static void fill_plan(uint8_t *plan, unsigned slots, unsigned pages)
{
    memcpy(plan, "CBP\0\1", 5);
    plan[5] = (uint8_t)slots;
    for (unsigned i = 0; i < slots; i++) {
        const uint8_t entry[] = {2, 0, (uint8_t)(i % pages), 0x12, (uint8_t)(i % pages), 0x11};
        memcpy(plan + 6 + 6 * i, entry, sizeof entry);
    }
}

#define AT(memory) (uint64_t)(uintptr_t)(memory)
#define LENT(memory) AT(memory), sizeof(memory) / sizeof(memory)[0]
#define SHOW(call, spoiled, ...) show(#call, (void (*)(void))call, (const uint64_t[WORDS]){__VA_ARGS__}, spoiled)

int main(void)
{
    static uint8_t state[CB_STATE], output[CB_OUTPUT], page[CB_OUTPUT], message[CB_OUTPUT], blocks[CB_BLOCKS];
    static uint8_t current[CB_PLAN], previous[CB_PLAN], collector[CB_COLLECTOR], collected[CB_COLLECTOR];
    static const uint8_t piece[CB_PIECE] = {0x30};
    static uint16_t text[CB_TEXT], wanted[CB_MOST_WANTED];
    static uint32_t slots[CB_SLOTS];
    static uint8_t verdicts[CB_SLOTS];

    for (size_t i = 0; i < CB_TEXT; i++)
        text[i] = 0x394; /* DELTA, of the highest code points */
    fill_plan(current, CB_SLOTS, PAGES);
    fill_plan(previous, CB_SLOTS, PAGES / 2);
    wanted[CB_MOST_WANTED - 1] = 0x1200 + PAGES - 1;

    SHOW(cb_start, 1, LENT(state));
    SHOW(cb_intake, 1, LENT(state), LENT(piece), LENT(output));
    SHOW(cb_write_text, 7, 1, 2, 0, 0x11, LENT(text), LENT(page));
    SHOW(cb_read_text, 2, LENT(page), 88, LENT(text));
    SHOW(cb_content, 2, LENT(page), 88);
    SHOW(cb_read_header, 1, LENT(page));
    SHOW(cb_start_collector, 1, LENT(collector));
    SHOW(cb_collect, 3, LENT(collector), LENT(page), 88, LENT(collected)); /* page 1 of 1, which is handed out */
    SHOW(cb_write_blocks, 3, LENT(page), 0, 88, LENT(blocks));
    SHOW(cb_write_schedule, 4, LENT(current), LENT(previous), 1, LENT(message));
    SHOW(cb_read_schedule, 2, LENT(message), 88);
    SHOW(cb_slots, 2, LENT(message), 88, LENT(slots));
    SHOW(cb_description, 2, LENT(message), 88, 47);
    SHOW(cb_read_plan, 1, LENT(current));
    SHOW(cb_check_schedule, 6, LENT(current), LENT(previous), LENT(message), 88);
    SHOW(cb_check_slots, 6, LENT(current), LENT(previous), LENT(message), 88, LENT(verdicts));
    SHOW(cb_decide, 4, 1, LENT(message), 88, CB_SLOTS, LENT(wanted), 0);
    SHOW(cb_enter, 0, 1, LENT(message), 88, CB_SLOTS, 0);
    return 0;
}
