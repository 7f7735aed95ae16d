/* A filter of three second-order sections in series (transposed direct form), for a block of 4
 * samples. Loops: 4 samples, 3 sections each. */
#include "kernel.h"

enum { SECTIONS = 3, SAMPLES = 4 };

DATA int16_t biquad_input[SAMPLES] = {1000, -2000, 3000, 12000};
DATA uint32_t biquad_state[SECTIONS][2] = {{1}};
int16_t biquad_output[SAMPLES];
static const int16_t section[SECTIONS][5] = {
    {1024, 2048, 1024, -3300, 1500},
    {2048, -4000, 2040, -7600, 3720},
    {4096, 0, -4096, -6100, 2600},
};

void biquad(void)
{
    for (uint32_t n = 0; n < SAMPLES; n++) {
        int32_t x = biquad_input[n];

        for (uint32_t s = 0; s < SECTIONS; s++) {
            const int16_t *c = section[s];
            uint32_t *state = biquad_state[s];
            int32_t y = (int32_t)((uint32_t)(c[0] * x) + state[0]) >> 12;

            if (y > INT16_MAX)
                y = INT16_MAX;
            if (y < INT16_MIN)
                y = INT16_MIN;
            state[0] = (uint32_t)(c[1] * x) - (uint32_t)(c[3] * y) + state[1];
            state[1] = (uint32_t)(c[2] * x) - (uint32_t)(c[4] * y);
            x = y;
        }
        biquad_output[n] = (int16_t)x;
    }
}
