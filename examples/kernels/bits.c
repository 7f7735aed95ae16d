/* Counts the bits that are set in 4 words, a turn for each. Loops: 4 words, up to 32 bits each. */
#include "kernel.h"

enum { WORDS = 4 };

DATA uint32_t bits_input[WORDS] = {0xFF, 0x12345678, 0x80000001, 0};
uint32_t bits_count;

void bits(void)
{
    uint32_t count = 0;

    for (uint32_t n = 0; n < WORDS; n++)
        for (uint32_t left = bits_input[n]; left != 0; left &= left - 1)
            count++;
    bits_count = count;
}
