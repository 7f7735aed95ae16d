/* Measures what instructions cost on a core, one cost after another, by its cycle counter.
 *
 *     riscv64-unknown-elf-gcc -march=rv32im_zicsr -mabi=ilp32 -O2 -ffreestanding -DLINE=16 -DLINES=64 -c measure.c
 *
 * LINE is the length of a cache line, and LINES how many lines the cache has. Call measure() from your start-up code, with
 * interrupts off, at the addresses and with the memories of the real program. Then read `cost` with a debugger: the cycles of
 * one instruction in hundredths, for the keys of the platform. Take the largest of several runs, and of each kind of memory. */
#include <stdint.h>

#ifndef LINE
#define LINE 16
#endif
#ifndef LINES
#define LINES 64
#endif
#define TEXT(x) #x
#define NUMBER(x) TEXT(x)

struct cost {
    uint32_t hit, miss, load, store, used_load, taken, not_taken, mul, div;
} cost;
volatile uint32_t cell[64];

static inline uint32_t cycles(void)
{
    uint32_t now;
    __asm__ volatile ("csrr %0, mcycle" : "=r"(now) :: "memory");
    return now;
}

/* The cycles of 100 copies of some code, in hundredths of one; the second of two runs, whose code is cached. */
#define HUNDRED(result, code, ...)                                            \
    do {                                                                      \
        for (int run = 0; run < 2; run++) {                                   \
            uint32_t start = cycles();                                        \
            __asm__ volatile (".rept 100\n" code "\n.endr" __VA_ARGS__);      \
            (result) = cycles() - start;                                      \
        }                                                                     \
    } while (0)

/* Jumps from line to line through twice as many lines as the cache has, so that each of them is loaded. */
static uint32_t all_lines(void)
{
    uint32_t start = cycles();

    __asm__ volatile (".option push\n.option norvc\n.option norelax\n.balign " NUMBER(LINE) "\n"
                      ".rept 2 * " NUMBER(LINES) "\n j 1f\n .balign " NUMBER(LINE) "\n1:\n.endr\n.option pop" ::: "memory");
    return (cycles() - start) * 100 / (2 * LINES);
}

void measure(void)
{
    uint32_t worst[5] = {0, 1, 0xFFFFFFFF, 0x80000000, 0x7FFFFFFF}, value = 0;

    HUNDRED(cost.hit, "add %0, %0, %0", : "+r"(value));
    HUNDRED(cost.load, "lw %0, 0(%1)", : "=r"(value) : "r"(cell));
    HUNDRED(cost.used_load, "lw %0, 0(%1)\n add %0, %0, %0", : "=r"(value) : "r"(cell));
    HUNDRED(cost.store, "sw %0, 128(%1)", :: "r"(value), "r"(cell) : "memory");
    HUNDRED(cost.taken, "j 1f\n nop\n1:", ::);
    HUNDRED(cost.not_taken, "bne zero, zero, 1f\n1:", ::);
    cost.mul = cost.div = 0;
    for (int a = 0; a < 5; a++)
        for (int b = 0; b < 5; b++) {
            uint32_t now;
            HUNDRED(now, "mulhsu %0, %1, %2\n add %0, %0, %0", : "=&r"(value) : "r"(worst[a]), "r"(worst[b]));
            cost.mul = now > cost.mul ? now : cost.mul;
            HUNDRED(now, "div %0, %1, %2\n add %0, %0, %0", : "=&r"(value) : "r"(worst[a]), "r"(worst[b]));
            cost.div = now > cost.div ? now : cost.div;
        }
    cost.miss = all_lines();
}
