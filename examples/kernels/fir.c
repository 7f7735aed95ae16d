/* A FIR filter of 12 taps over a ring of samples, for a block of 4 samples.
 * Loops: 4 samples, 12 taps each. */
#include "kernel.h"

enum { TAPS = 12, SAMPLES = 4 };

DATA int16_t fir_input[SAMPLES] = {900, -120, 40, 3100};
DATA int16_t fir_ring[TAPS] = {5, -9, 30, 77};
DATA uint16_t fir_place = 3;
int16_t fir_output[SAMPLES];
static const int16_t taps[TAPS] = {
    -130, -412, 260, 2210, 5120, 7344, 7344, 5120, 2210, 260, -412, -130,
};

void fir(void)
{
    uint32_t place = fir_place < TAPS ? fir_place : 0;

    for (uint32_t n = 0; n < SAMPLES; n++) {
        int32_t total = 0;
        uint32_t at = place;

        fir_ring[place] = fir_input[n];
        for (uint32_t k = 0; k < TAPS; k++) {
            total += taps[k] * fir_ring[at];
            at = at == 0 ? TAPS - 1 : at - 1;
        }
        fir_output[n] = (int16_t)(total >> 15);
        place = place + 1 == TAPS ? 0 : place + 1;
    }
    fir_place = (uint16_t)place;
}
