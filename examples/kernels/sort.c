/* Sorts a copy of 12 samples by insertion, and gives the two quartiles.
 * Loops: 12 copies; 11 insertions, each with up to 11 steps (the n-th takes at most n). */
#include "kernel.h"

enum { SAMPLES = 12 };

DATA int16_t sort_input[SAMPLES] = {5, 2, 9, -4, 7, 7, 1, 0, 12, -8, 3, 6};
int16_t sort_low, sort_high;
static int32_t sorted[SAMPLES];

void sort(void)
{
    for (int32_t n = 0; n < SAMPLES; n++)
        sorted[n] = sort_input[n];
    for (int32_t n = 1; n < SAMPLES; n++) {
        int32_t value = sorted[n];
        int32_t at = n;

        while (at > 0 && sorted[at - 1] > value) {
            sorted[at] = sorted[at - 1];
            at--;
        }
        sorted[at] = value;
    }
    sort_low = (int16_t)sorted[SAMPLES / 4];
    sort_high = (int16_t)sorted[3 * SAMPLES / 4];
}
