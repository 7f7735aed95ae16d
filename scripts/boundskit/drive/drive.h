/* What the parts of the drive share. */
#include <stdint.h>

#define LOG_DEPTH 24
enum { CHANNELS = 4, FILTER = 9, TABLE = 13, HISTORY = 104, QUEUE = 16, LABEL = 12 };

uint32_t checksum(const uint8_t *bytes, uint32_t count);
int32_t scaled(int32_t value, int32_t numerator, int32_t denominator);
