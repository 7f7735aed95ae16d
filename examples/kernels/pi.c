/* A PI controller in fixed point with anti-windup: its integral stands still while the output is at
 * a limit and the error drives it further. No loops. */
#include "kernel.h"

DATA int16_t pi_wanted = 1200, pi_measured = 900;
DATA int32_t pi_sum = 0;
int16_t pi_output;

__attribute__((noinline)) static int32_t limited(int32_t value, int32_t most)
{
    if (value > most)
        return most;
    if (value < -most)
        return -most;
    return value;
}

void pi(void)
{
    int32_t error = limited(pi_wanted - pi_measured, 8191);
    int32_t sum = limited(pi_sum, 1 << 20);
    int32_t wish = (410 * error + 29 * sum) >> 12;
    int32_t output = limited(wish, 2047);

    if (output == wish || (output > 0) != (error > 0))
        pi_sum = sum + error;
    pi_output = (int16_t)output;
}
