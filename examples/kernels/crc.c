/* The checksum CRC-16 (polynomial 0x1021) of a message of 16 bytes, bit by bit.
 * Loops: 16 bytes, 8 bits each. */
#include "kernel.h"

enum { BYTES = 16 };

DATA uint8_t crc_message[BYTES] = "a short message";
uint16_t crc_sum;

void crc(void)
{
    uint32_t sum = 0xFFFF;

    for (uint32_t n = 0; n < BYTES; n++) {
        sum ^= (uint32_t)crc_message[n] << 8;
        for (uint32_t bit = 0; bit < 8; bit++) {
            sum <<= 1;
            if (sum & 0x10000)
                sum ^= 0x11021;
        }
    }
    crc_sum = (uint16_t)sum;
}
