/* The Fourier transform of 16 points in fixed point, scaled by one half in each of its four stages.
 * Loops: 16 points are put into bit-reversed order; 4 stages, 8 butterflies each. */
#include "kernel.h"

enum { POINTS = 16, STAGES = 4 };

DATA int16_t fft_input[POINTS] = {100, 200, -300, 400, 500, -600, 700};
int16_t fft_real[POINTS], fft_imag[POINTS];
static const int16_t cosines[POINTS / 2] = {
    32767, 30274, 23170, 12540, 0, -12540, -23170, -30274,
};
static const int16_t sines[POINTS / 2] = {
    0, 12540, 23170, 30274, 32767, 30274, 23170, 12540,
};

void fft(void)
{
    for (uint32_t n = 0; n < POINTS; n++) {
        uint32_t m = (n & 1) << 3 | (n & 2) << 1 | (n & 4) >> 1 | n >> 3;

        fft_real[m] = fft_input[n];
        fft_imag[m] = 0;
    }
    for (uint32_t stage = 0; stage < STAGES; stage++) {
        uint32_t half = 1u << stage;

        for (uint32_t n = 0; n < POINTS / 2; n++) {
            uint32_t turn = n & (half - 1);
            uint32_t a = (n - turn) * 2 + turn, b = a + half;
            int32_t c = cosines[turn << (3 - stage)], s = sines[turn << (3 - stage)];
            int32_t re = (fft_real[b] * c >> 15) + (fft_imag[b] * s >> 15);
            int32_t im = (fft_imag[b] * c >> 15) - (fft_real[b] * s >> 15);
            int32_t re_a = fft_real[a], im_a = fft_imag[a];

            fft_real[a] = (int16_t)((re_a + re) >> 1);
            fft_imag[a] = (int16_t)((im_a + im) >> 1);
            fft_real[b] = (int16_t)((re_a - re) >> 1);
            fft_imag[b] = (int16_t)((im_a - im) >> 1);
        }
    }
}
