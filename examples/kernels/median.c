/* The median of 9 numbers by a network of 19 exchanges. No loops: straight code with a branch at
 * each exchange. */
#include "kernel.h"

DATA int32_t median_input[9] = {9, 8, 7, 6, 5, 4, 3, 2, 1};
int32_t median_output;

/* Puts the smaller of two numbers first. */
#define EXCHANGE(a, b)                                                                            \
    if (a > b) {                                                                                  \
        int32_t other = a;                                                                        \
        a = b;                                                                                    \
        b = other;                                                                                \
    }

void median(void)
{
    int32_t p0 = median_input[0], p1 = median_input[1], p2 = median_input[2];
    int32_t p3 = median_input[3], p4 = median_input[4], p5 = median_input[5];
    int32_t p6 = median_input[6], p7 = median_input[7], p8 = median_input[8];

    /* Three rows of three, each sorted. */
    EXCHANGE(p0, p1) EXCHANGE(p1, p2) EXCHANGE(p0, p1)
    EXCHANGE(p3, p4) EXCHANGE(p4, p5) EXCHANGE(p3, p4)
    EXCHANGE(p6, p7) EXCHANGE(p7, p8) EXCHANGE(p6, p7)
    /* The greatest of the least, the middle of the middle, the least of the greatest. */
    EXCHANGE(p0, p3) EXCHANGE(p3, p6)
    EXCHANGE(p1, p4) EXCHANGE(p4, p7) EXCHANGE(p1, p4)
    EXCHANGE(p5, p8) EXCHANGE(p2, p5)
    /* The middle of these three. */
    EXCHANGE(p2, p4) EXCHANGE(p4, p6) EXCHANGE(p2, p4)
    median_output = p4;
}
