/* A sensor's characteristic of 33 points: binary search, then linear interpolation.
 * Loop: 5 halvings. Its test stands at the head, which is reached once more. */
#include "kernel.h"

enum { POINTS = 33 };

DATA int16_t lookup_input = 700;
int16_t lookup_output;
static const int16_t ends[POINTS] = {
    0, 20, 45, 75, 110, 150, 195, 245, 300, 360, 425,
    495, 570, 650, 735, 825, 920, 1020, 1125, 1235, 1350, 1470,
    1595, 1725, 1860, 2000, 2145, 2295, 2450, 2610, 2775, 2945, 3120,
};
static const int16_t values[POINTS] = {
    1250, 1102, 987, 901, 833, 777, 730, 689, 652, 619, 589,
    561, 535, 511, 488, 466, 445, 425, 405, 386, 368, 350,
    332, 315, 298, 281, 264, 247, 230, 212, 194, 175, 155,
};

void lookup(void)
{
    int32_t x = lookup_input;
    uint32_t low = 0, high = POINTS - 1;

    if (x < ends[0])
        x = ends[0];
    if (x > ends[POINTS - 1])
        x = ends[POINTS - 1];
    while (high - low > 1) {
        uint32_t middle = (low + high) / 2;

        if (ends[middle] <= x)
            low = middle;
        else
            high = middle;
    }
    lookup_output = (int16_t)(values[low] + (values[high] - values[low]) * (x - ends[low]) /
                                                (ends[high] - ends[low]));
}
