/* The length of a vector: the integer square root of the sum of two squares, bit by bit.
 * Loop: 16 bits. */
#include "kernel.h"

DATA int16_t root_x = 3000, root_y = 4000;
uint16_t root_length;

void root(void)
{
    uint32_t rest = (uint32_t)(root_x * root_x) + (uint32_t)(root_y * root_y), found = 0;

    for (uint32_t bit = 1u << 30; bit != 0; bit >>= 2)
        if (rest >= found + bit) {
            rest -= found + bit;
            found = (found >> 1) + bit;
        } else {
            found >>= 1;
        }
    root_length = (uint16_t)found;
}
