/* Functions that several tasks use. */
#include "drive.h"

/* A checksum of 16 bits. The frame has as many bytes as its queue, all others have fewer. */
uint32_t checksum(const uint8_t *bytes, uint32_t count)
{
    uint32_t sum = 0xFFFF;

    for (uint32_t i = 0; i < count; i++) {                  /* bound 12 frame=16 */
        sum ^= bytes[i];
        for (uint32_t bit = 0; bit < 8; bit++)              /* bound 8 */
            sum = sum & 1 ? sum >> 1 ^ 0xA001 : sum >> 1;
    }
    return sum;
}

/* A product over a quotient, in 64 bits between. */
int32_t scaled(int32_t value, int32_t numerator, int32_t denominator)
{
    return (int32_t)((int64_t)value * numerator / denominator);
}
