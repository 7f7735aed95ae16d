/* What several tasks of the controller use. */
#include <stdint.h>

struct point {
    int32_t x, y;
};

/* `value`, not below `low` and not above `high`. */
int32_t limited(int32_t value, int32_t low, int32_t high);

/* The square root, rounded down. */
uint32_t square_root(uint32_t value);

/* A checksum with one more byte (CRC-16 CCITT; it begins with 0xFFFF), and that of some bytes. */
uint32_t with_byte(uint32_t crc, uint8_t byte);
uint32_t checksum(const uint8_t *bytes, uint32_t length);

/* Writes a number in decimal and gives its length. */
uint32_t put_number(char *text, uint32_t value);

/* The value of a curve of some points in the order of x; beyond its ends that of the end. */
int32_t value_at(const struct point *curve, uint32_t points, int32_t x);
