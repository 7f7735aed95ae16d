/* Rotates a vector by an angle, with a cosine interpolated in a table of a quarter wave. No loops;
 * the cosine is called twice. */
#include "kernel.h"

enum { QUARTER = 16 };

DATA int16_t rotate_x = 1000, rotate_y = -500;
DATA uint16_t rotate_angle = 12345;
int16_t rotate_to_x, rotate_to_y;
static const int16_t wave[QUARTER + 1] = {
    32767, 32609, 32137, 31356, 30273, 28898, 27245, 25329, 23170,
    20787, 18204, 15446, 12539, 9512, 6393, 3212, 0,
};

/* A full turn is 65536. */
__attribute__((noinline)) static int32_t cosine(uint32_t angle)
{
    uint32_t part = angle & 0x3FFF, quarter = angle >> 14 & 3;

    if (quarter & 1)
        part = 0x4000 - part;
    uint32_t at = part >> 10, rest = part & 0x3FF;
    int32_t value = wave[at];
    if (rest != 0)
        value += ((wave[at + 1] - value) * (int32_t)rest) >> 10;
    return quarter == 1 || quarter == 2 ? -value : value;
}

void rotate(void)
{
    int32_t c = cosine(rotate_angle), s = cosine(rotate_angle + 0xC000);
    int32_t x = rotate_x, y = rotate_y;

    rotate_to_x = (int16_t)((c * (x >> 1) >> 14) - (s * (y >> 1) >> 14));
    rotate_to_y = (int16_t)((s * (x >> 1) >> 14) + (c * (y >> 1) >> 14));
}
