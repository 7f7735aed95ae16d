#include "helpers.h"

int32_t limited(int32_t value, int32_t low, int32_t high)
{
    if (value < low)
        return low;
    return value > high ? high : value;
}

uint32_t square_root(uint32_t value)
{
    uint32_t root = 0;

    for (uint32_t bit = 1u << 30; bit != 0; bit >>= 2) {  /* bound 16 */
        if (value >= root + bit) {
            value -= root + bit;
            root = (root >> 1) + bit;
        } else {
            root >>= 1;
        }
    }
    return root;
}

uint32_t with_byte(uint32_t crc, uint8_t byte)
{
    crc ^= (uint32_t)byte << 8;
    for (uint32_t bit = 0; bit < 8; bit++)                /* bound 8 */
        crc = crc & 0x8000 ? crc << 1 ^ 0x1021 : crc << 1;
    return crc & 0xFFFF;
}

uint32_t checksum(const uint8_t *bytes, uint32_t length)
{
    uint32_t crc = 0xFFFF;

    for (uint32_t i = 0; i < length; i++)                 /* bound 12 log=32 */
        crc = with_byte(crc, bytes[i]);
    return crc;
}

uint32_t put_number(char *text, uint32_t value)
{
    char digits[10];
    uint32_t count = 0, length = 0;

    do {                                                  /* bound 10 */
        digits[count++] = '0' + value % 10;
        value /= 10;
    } while (value != 0);
    while (count > 0)                                     /* bound 10 */
        text[length++] = digits[--count];
    return length;
}

int32_t value_at(const struct point *curve, uint32_t points, int32_t x)
{
    uint32_t low = 0, high = points - 1;

    if (x <= curve[low].x)
        return curve[low].y;
    if (x >= curve[high].x)
        return curve[high].y;
    while (high - low > 1) {                              /* bound 3 */
        uint32_t middle = (low + high) / 2;
        if (curve[middle].x <= x)
            low = middle;
        else
            high = middle;
    }
    return curve[low].y + (x - curve[low].x) * (curve[high].y - curve[low].y) / (curve[high].x - curve[low].x);
}
