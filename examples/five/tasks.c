/* Five tasks in one image, with loops, calls and shared functions. */
#include <stdint.h>

enum { TAPS = 8, SIZE = 4, BYTES = 24, SAMPLES = 12 };

int32_t window[TAPS], taps[TAPS] = {1, 3, 7, 12, 12, 7, 3, 1}, filtered;
int32_t wanted = 500, sum, command;
int32_t left[SIZE][SIZE], right[SIZE][SIZE], product[SIZE][SIZE];
uint8_t frame[BYTES];
uint16_t sum_of_frame;
int32_t samples[SAMPLES], median;

/* A limit that several tasks use. */
__attribute__((noinline)) static int32_t limited(int32_t value, int32_t most)
{
    if (value > most)
        return most;
    if (value < -most)
        return -most;
    return value;
}

/* Reads a sample and filters it. */
void filter_sample(void)
{
    int32_t total = 0;

    for (int32_t i = TAPS - 1; i > 0; i--)         /* bound 7 */
        window[i] = window[i - 1];
    window[0] = limited(command, 2000);
    for (int32_t i = 0; i < TAPS; i++)             /* bound 8 */
        total += window[i] * taps[i];
    filtered = total >> 5;
}

/* A controller with an integral part. */
void control_step(void)
{
    int32_t error = wanted - filtered;

    sum = limited(sum + error, 50000);
    command = limited((6 * error + sum / 16) >> 2, 4000);
}

/* A product of two matrices: three nested loops. */
void multiply_matrices(void)
{
    for (int32_t i = 0; i < SIZE; i++)             /* bound 4 */
        for (int32_t j = 0; j < SIZE; j++) {       /* bound 4 */
            int32_t total = 0;
            for (int32_t k = 0; k < SIZE; k++)     /* bound 4 */
                total += left[i][k] * right[k][j];
            product[i][j] = limited(total, 1 << 20);
        }
}

/* A sum of 16 bits over a frame. */
void check_frame(void)
{
    uint32_t total = 0;

    for (uint32_t i = 0; i < BYTES; i++) {         /* bound 24 */
        total = (total >> 1) + ((total & 1) << 15) + frame[i];
        total &= 0xFFFF;
    }
    sum_of_frame = total;
}

/* The median of some samples, by insertion. */
void sort_samples(void)
{
    for (int32_t i = 1; i < SAMPLES; i++) {        /* bound 11 */
        int32_t value = samples[i], j = i;
        while (j > 0 && samples[j - 1] > value) {  /* bound 11 */
            samples[j] = samples[j - 1];
            j--;
        }
        samples[j] = value;
    }
    median = limited(samples[SAMPLES / 2], 10000);
}
