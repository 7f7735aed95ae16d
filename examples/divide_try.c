/* Calls each routine of divide.c with extreme operands, for scripts/levels. With PRINT it is a
 * program for qemu-riscv32: more operands, each case written with its results as 13 words. */
typedef unsigned int word;
typedef unsigned long long two_words;

word __mulsi3(word a, word b);
two_words __muldi3(two_words a, two_words b);
word __udivsi3(word a, word b);
word __umodsi3(word a, word b);
int __divsi3(int a, int b);
int __modsi3(int a, int b);

enum { EXTREMES = 7, EDGES = 18, CASES = 2000 };

static const word edge[EDGES] = {
    0, 1, 10, 0x7FFFFFFF, 0x80000000, 0xAAAAAAAA, 0xFFFFFFFF,
    2, 3, 7, 0xFF, 0x7FFF, 0x8000, 0x10000, 0x55555555, 0x7FFFFFFE, 0x80000001, 0xFFFFFFFE,
};

struct results {
    word a, b, product, quotient, rest, signed_quotient, signed_rest, high_a, high_b;
    two_words long_product, signed_product;
} __attribute__((packed, aligned(4)));

static void work_out(struct results *to, word a, word b)
{
    two_words x = (two_words)(a ^ b << 3) << 32 | a, y = (two_words)(b + (a << 5)) << 32 | b;

    to->a = a;
    to->b = b;
    to->product = __mulsi3(a, b);
    to->quotient = __udivsi3(a, b);
    to->rest = __umodsi3(a, b);
    to->signed_quotient = __divsi3(a, b);
    to->signed_rest = __modsi3(a, b);
    to->high_a = x >> 32;
    to->high_b = y >> 32;
    to->long_product = __muldi3(x, y);
    to->signed_product = __muldi3((int)a, (int)b);
}

#ifdef PRINT
/* A system call of Linux, which qemu carries out. */
static void call(word number, word a, const void *b, word c)
{
    register word a0 __asm__("a0") = a, a2 __asm__("a2") = c, a7 __asm__("a7") = number;
    register const void *a1 __asm__("a1") = b;

    __asm__ volatile("ecall" : "+r"(a0) : "r"(a1), "r"(a2), "r"(a7) : "memory");
}

static void one_case(word a, word b)
{
    struct results made;

    work_out(&made, a, b);
    call(64, 1, &made, sizeof made);
}

static word next_number(word seed)
{
    seed ^= seed << 13;
    seed ^= seed >> 17;
    return seed ^ seed << 5;
}

void try_all(void)
{
    word seed = 12345;

    for (word i = 0; i < EDGES; i++)
        for (word j = 0; j < EDGES; j++)
            one_case(edge[i], edge[j]);
    for (word k = 0; k < CASES; k++) {
        word a = seed = next_number(seed), b = seed = next_number(seed);
        one_case(a, b >> (a & 31));
    }
    call(93, 0, 0, 0);
}

__attribute__((naked, noreturn)) void _start(void) { __asm__("call try_all\n ecall"); }
#else
struct results last;

void try_all(void)
{
    for (word i = 0; i < EXTREMES; i++)         /* bound 7 */
        for (word j = 0; j < EXTREMES; j++)     /* bound 7 */
            work_out(&last, edge[i], edge[j]);
}
#endif
