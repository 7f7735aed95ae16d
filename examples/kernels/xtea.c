/* Enciphers two blocks of 8 bytes by XTEA in cipher block chaining.
 * Loops: 2 blocks, 32 rounds each. */
#include "kernel.h"

enum { BLOCKS = 2, ROUNDS = 32 };

DATA uint32_t xtea_key[4] = {0x01234567, 0x89ABCDEF, 0x02468ACE, 0x13579BDF};
DATA uint32_t xtea_text[BLOCKS][2] = {{1, 2}, {3, 4}};
uint32_t xtea_cipher[BLOCKS][2];

void xtea(void)
{
    uint32_t left = 0, right = 0;

    for (uint32_t n = 0; n < BLOCKS; n++) {
        uint32_t sum = 0;

        left ^= xtea_text[n][0];
        right ^= xtea_text[n][1];
        for (uint32_t round = 0; round < ROUNDS; round++) {
            left += ((right << 4 ^ right >> 5) + right) ^ (sum + xtea_key[sum & 3]);
            sum += 0x9E3779B9;
            right += ((left << 4 ^ left >> 5) + left) ^ (sum + xtea_key[sum >> 11 & 3]);
        }
        xtea_cipher[n][0] = left;
        xtea_cipher[n][1] = right;
    }
}
