/*
 * Runs stored results under Linux by its system calls, without a C library: results FILE...
 * For ARM, AArch64 and RISC-V.
 */
#include "host.h"
#include "bare.h"

const char host_test[] = "tests/boards";

/* The numbers of system calls, the registers that have the number and four words, and where a program begins: with a pointer to
   the number of its words and the words. */
#if defined __arm__
enum { READ = 3, WRITE = 4, OPEN = 322, EXIT = 1 };
#define NUMBER "r7"
#define WORD(n) "r" #n
#define ASK "svc 0"
#define START "mov r0, sp\n bl begin\n"
#else
enum { READ = 63, WRITE = 64, OPEN = 56, EXIT = 93 };
#if defined __aarch64__
#define NUMBER "x8"
#define WORD(n) "x" #n
#define ASK "svc 0"
#define START "mov x0, sp\n bl begin\n"
#elif defined __riscv
#define NUMBER "a7"
#define WORD(n) "a" #n
#define ASK "ecall"
#define START "mv a0, sp\n call begin\n"
#endif
#endif
__asm__(".globl _start\n_start: " START);

static long ask(long call, long a, long b, long c, long d)
{
    register long number __asm__(NUMBER) = call;
    register long first __asm__(WORD(0)) = a, second __asm__(WORD(1)) = b, third __asm__(WORD(2)) = c, fourth __asm__(WORD(3)) = d;

    __asm__ volatile(ASK : "+r"(first) : "r"(number), "r"(second), "r"(third), "r"(fourth) : "memory");
    return first;
}

enum { HERE = -100, ONLY_READ = 0 };

static char **names; /* of the files that aren't opened yet */
static long from;

const char *host_open(void)
{
    if (*names == NULL)
        return NULL;
    from = ask(OPEN, HERE, (long)*names, ONLY_READ, 0);
    return *names++;
}

long host_read(char *to, size_t size)
{
    return ask(READ, from, (long)to, (long)size, 0);
}

void host_tell(const char *text)
{
    ask(WRITE, 1, (long)text, (long)length(text), 0);
}

void host_say(const char *text)
{
    ask(WRITE, 2, (long)text, (long)length(text), 0);
}

void host_end(int status)
{
    for (;;)
        ask(EXIT, status, 0, 0, 0);
}

/* Called by registers.S. */
void tell_spoilt(void);
void tell_spoilt(void)
{
    host_say("tests/boards: a call changes a register that isn't its own\n");
    host_end(1);
}

void host_before(void) {}
void host_after(const char *call) { (void)call; }

void begin(char **words);
void begin(char **words)
{
    names = words + 2;
    host_end(run_results());
}
