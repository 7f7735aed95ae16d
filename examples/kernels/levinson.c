/* A linear predictor of order 5 from an autocorrelation, by the recursion of Levinson and Durbin,
 * in fixed point with 12 fractional bits.
 * Loops: orders 1 to 5; in each a sum of up to 4 terms and an update of up to 2 pairs. */
#include "kernel.h"

enum { ORDER = 5, ONE = 1 << 12 };

DATA int16_t levinson_input[ORDER + 1] = {4000, 3200, 2100, 900, -100, -700};
int32_t levinson_output[ORDER + 1];

void levinson(void)
{
    int32_t *a = levinson_output;
    int32_t left = levinson_input[0];

    for (int32_t m = 1; m <= ORDER; m++) {
        int32_t total = levinson_input[m], k;

        for (int32_t n = 1; n < m; n++)
            total -= a[n] * levinson_input[m - n] >> 12;
        /* The reflection coefficient, between -1 and 1. */
        if (left <= 0)
            k = 0;
        else if (total >= left)
            k = ONE;
        else if (total <= -left)
            k = -ONE;
        else
            k = total * ONE / left;
        for (int32_t n = 1, o = m - 1; n <= o; n++, o--) {
            int32_t up = a[n], down = a[o];

            a[n] = up - (k * down >> 12);
            a[o] = down - (k * up >> 12);
        }
        a[m] = k;
        left -= (k * k >> 12) * left >> 12;
    }
}
