/* The same two jobs written in several ways, whose bounds differ: a checksum of 32 bytes, and a sort of 12 numbers. */
#include <stdint.h>

enum { LENGTH = 32, SAMPLES = 12 };

uint8_t message[LENGTH];
uint32_t checksum;
int32_t samples[SAMPLES] = {12, 11, 10, 9, 8, 7, 6, 5, 4, 3, 2, 1}, others[SAMPLES] = {24, 22, 20, 18, 16, 14, 12, 10, 8, 6, 4, 2};

/* CRC-32, bit by bit: two nested loops. */
void sum_plain(void)
{
    uint32_t crc = 0xFFFFFFFFu;

    for (uint32_t i = 0; i < LENGTH; i++) {           /* bound 32 */
        crc ^= message[i];
        for (uint32_t bit = 0; bit < 8; bit++)        /* bound 8 */
            crc = crc & 1 ? crc >> 1 ^ 0xEDB88320u : crc >> 1;
    }
    checksum = ~crc;
}

/* The body of the outer loop in a function of its own. */
__attribute__((noinline)) static uint32_t with_byte(uint32_t crc, uint8_t byte)
{
    crc ^= byte;
    for (uint32_t bit = 0; bit < 8; bit++)            /* bound 8 */
        crc = crc & 1 ? crc >> 1 ^ 0xEDB88320u : crc >> 1;
    return crc;
}

void sum_called(void)
{
    uint32_t crc = 0xFFFFFFFFu;

    for (uint32_t i = 0; i < LENGTH; i++)             /* bound 32 */
        crc = with_byte(crc, message[i]);
    checksum = ~crc;
}

/* And called once before the loop: in the loop its code is surely cached. */
void sum_warmed(void)
{
    uint32_t crc = with_byte(0xFFFFFFFFu, message[0]);

    for (uint32_t i = 1; i < LENGTH; i++)             /* bound 31 */
        crc = with_byte(crc, message[i]);
    checksum = ~crc;
}

/* Insertion: the inner loop turns i times at most, and so 11 times where one bound holds for all i. */
void sort_plain(void)
{
    for (int32_t i = 1; i < SAMPLES; i++) {           /* bound 11 */
        int32_t value = samples[i], j = i;
        while (j > 0 && samples[j - 1] > value) {     /* bound 11 */
            samples[j] = samples[j - 1];
            j--;
        }
        samples[j] = value;
    }
}

/* In two loops: 6 numbers with at most 6 turns each, and 5 with at most 11. */
void sort_split(void)
{
    for (int32_t i = 1; i < 7; i++) {                 /* bound 6 */
        int32_t value = others[i], j = i;
        while (j > 0 && others[j - 1] > value) {     /* bound 6 */
            others[j] = others[j - 1];
            j--;
        }
        others[j] = value;
    }
    for (int32_t i = 7; i < SAMPLES; i++) {           /* bound 5 */
        int32_t value = others[i], j = i;
        while (j > 0 && others[j - 1] > value) {     /* bound 11 */
            others[j] = others[j - 1];
            j--;
        }
        others[j] = value;
    }
}

static inline uint32_t with_bit(uint32_t crc)
{
    return crc & 1 ? crc >> 1 ^ 0xEDB88320u : crc >> 1;
}

/* Without the inner loop. */
void sum_unrolled(void)
{
    uint32_t crc = 0xFFFFFFFFu;

    for (uint32_t i = 0; i < LENGTH; i++) {           /* bound 32 */
        crc = with_bit(with_bit(with_bit(with_bit(crc ^ message[i]))));
        crc = with_bit(with_bit(with_bit(with_bit(crc))));
    }
    checksum = ~crc;
}
