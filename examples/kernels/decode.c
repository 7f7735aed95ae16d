/* Decodes 16 symbols of a canonical prefix code (a Huffman code) of 2 to 5 bits, which is given by
 * the number of codes of each length. Loops: 16 symbols, up to 5 bits each. */
#include "kernel.h"

enum { SYMBOLS = 16, LONGEST = 5, BYTES = 10 };

DATA uint8_t decode_input[BYTES] = {0x5A, 0x13, 0xC8, 0xF1};
uint8_t decode_output[SYMBOLS];
/* Complete: every string of bits begins with a code, so a symbol has at most LONGEST bits. */
static const uint8_t codes[LONGEST + 1] = {0, 0, 2, 3, 1, 2};
static const uint8_t letters[] = {'e', 't', 'a', 'o', 'n', 'i', 's', 'r'};

void decode(void)
{
    uint32_t bit = 0;

    for (uint32_t n = 0; n < SYMBOLS; n++) {
        uint32_t code = 0, first = 0, before = 0, letter = 0;

        for (uint32_t length = 1; length <= LONGEST; length++) {
            code = code << 1 | (decode_input[bit >> 3] >> (7 - (bit & 7)) & 1);
            bit++;
            if (code - first < codes[length]) {
                letter = letters[before + code - first];
                break;
            }
            before += codes[length];
            first = (first + codes[length]) << 1;
        }
        decode_output[n] = (uint8_t)letter;
    }
}
