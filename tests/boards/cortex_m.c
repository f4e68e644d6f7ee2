/*
 * Runs stored results on a bare Cortex-M3, which asks the machine beside it for files and output (semihosting): results FILE...
 * The stack below each call is painted, and at the end each call is told with the most octets that have lost their paint.
 * Code for a Cortex-M0 runs here too: the M3 has its instructions, and faults as it does where an access isn't aligned.
 */
#include "host.h"
#include "bare.h"

const char host_test[] = "tests/boards";

/* The requests of semihosting. */
enum { OPEN = 0x01, WRITE_TEXT = 0x04, READ = 0x06, COMMAND_LINE = 0x15, EXIT = 0x18 };
enum { ENDED = 0x20026, FAILED = 0x20023 }; /* how a program ended */

static long ask(long request, const void *words)
{
    register long r0 __asm__("r0") = request;
    register const void *r1 __asm__("r1") = words;

    __asm__ volatile("bkpt 0xAB" : "+r"(r0) : "r"(r1) : "memory");
    return r0;
}
#define ASK(request, ...) ask(request, (const long[]){__VA_ARGS__})

static char command_line[1 << 12];
static char *rest; /* of the names of files; NULL at its end */
static long from;

const char *host_open(void)
{
    char *name = rest;

    if (name == NULL)
        return NULL;
    rest = find(name, ' ');
    if (rest != NULL)
        *rest++ = '\0';
    from = ASK(OPEN, (long)name, 1 /* rb */, (long)length(name));
    return name;
}

long host_read(char *to, size_t size)
{
    long unread = from < 0 ? -1 : ASK(READ, from, (long)to, (long)size);

    return unread < 0 ? -1 : (long)size - unread;
}

void host_tell(const char *text)
{
    ask(WRITE_TEXT, text);
}

void host_say(const char *text)
{
    ask(WRITE_TEXT, text);
}

void host_end(int status)
{
    for (;;)
        ask(EXIT, (const void *)(status == 0 ? ENDED : FAILED));
}

/*
 * host_before paints what the stack can still take, and host_after finds the lowest word that has lost its paint. Neither
 * uses the stack before that, so what they find is the call's.
 */
void note(const char *call, uint32_t octets);
__asm__(".syntax unified\n"
        ".thumb\n"
        ".macro lowest, register\n"
        "    ldr   \\register, =stack_bottom\n"
        ".endm\n"
        ".macro paint, register\n"
        "    ldr   \\register, =0xA75813C6\n"
        ".endm\n"
        ".globl host_before\n"
        ".thumb_func\n"
        "host_before:\n"
        "    lowest r0\n"
        "    paint r1\n"
        "    mov   r2, sp\n"
        "1:  str   r1, [r0]\n"
        "    adds  r0, #4\n"
        "    cmp   r0, r2\n"
        "    blo   1b\n"
        "    bx    lr\n"
        ".globl host_after\n"
        ".thumb_func\n"
        "host_after:\n"
        "    lowest r1\n"
        "    paint r2\n"
        "1:  ldr   r3, [r1]\n"
        "    cmp   r3, r2\n"
        "    bne   2f\n"
        "    adds  r1, #4\n"
        "    cmp   r1, sp\n"
        "    blo   1b\n"
        "2:  mov   r2, sp\n"
        "    subs  r1, r2, r1\n"
        "    ldr   r3, =note\n"
        "    bx    r3\n"
        ".pool\n");

/* Called by registers.S. */
void tell_spoilt(void);
void tell_spoilt(void)
{
    host_say("tests/boards: a call changes a register that isn't its own\n");
    host_end(1);
}

static struct { const char *call; uint32_t octets; } seen[32];

void note(const char *call, uint32_t octets)
{
    size_t i = 0;

    while (seen[i].call != NULL && !equal(seen[i].call, call))
        i++;
    if (i == sizeof seen / sizeof seen[0] - 1)
        host_end(1);
    seen[i].call = call;
    if (octets > seen[i].octets)
        seen[i].octets = octets;
}

static void tell_seen(void)
{
    for (size_t i = 0; seen[i].call != NULL; i++) {
        host_tell("stack ");
        host_tell(seen[i].call);
        host_tell(" ");
        host_tell(DECIMAL(seen[i].octets));
        host_tell("\n");
    }
}

void begin(void);
void begin(void)
{
    long line[] = {(long)command_line, (long)sizeof command_line};
    int status;

#ifdef __ARM_ARCH_6M__
    *(volatile uint32_t *)0xE000ED14 |= 8; /* UNALIGN_TRP of the configuration and control register */
#endif
    if (ask(COMMAND_LINE, line) != 0)
        host_end(1);
    rest = find(command_line, ' '); /* behind the program's own name */
    if (rest != NULL)
        rest++;
    status = run_results();
    tell_seen();
    host_end(status);
}

static void fault(void)
{
    host_say("tests/boards: the processor faults\n");
    host_end(1);
}

extern char stack_top[];
__attribute__((section(".vectors"), used)) static const void *const vectors[16] = {
    stack_top, (const void *)begin, (const void *)fault, (const void *)fault, (const void *)fault, (const void *)fault,
    (const void *)fault,
};
