/* Parses 16 received bytes of a serial line: flag, length, payload with escapes, checksum. A frame
 * may go on in the next job. Loop: 16 bytes. */
#include "kernel.h"

enum { BYTES = 16, ROOM = 12, FLAG = 0x7E, ESCAPE = 0x7D };
enum { HUNT, LENGTH, PAYLOAD, SUM };

DATA uint8_t frame_input[BYTES] = {0x7E, 3, 0x11, 0x7D, 0x5E, 0x22, 0xB4, 0x7E, 2, 5, 6, 13};
DATA uint8_t frame_state = HUNT, frame_length = 0, frame_count = 0;
DATA uint8_t frame_sum = 0, frame_escaped = 0;
uint8_t frame_payload[ROOM];
uint32_t frame_good, frame_bad;

void frame(void)
{
    for (uint32_t n = 0; n < BYTES; n++) {
        uint8_t byte = frame_input[n];

        if (byte == FLAG) {
            if (frame_state != HUNT && frame_state != LENGTH)
                frame_bad++;
            frame_state = LENGTH;
            frame_escaped = 0;
            continue;
        }
        if (byte == ESCAPE) {
            frame_escaped = 1;
            continue;
        }
        if (frame_escaped) {
            byte ^= 0x20;
            frame_escaped = 0;
        }
        switch (frame_state) {
        case LENGTH:
            frame_length = byte;
            frame_count = 0;
            frame_sum = byte;
            frame_state = byte == 0 || byte > ROOM ? HUNT : PAYLOAD;
            break;
        case PAYLOAD:
            if (frame_count < ROOM)
                frame_payload[frame_count] = byte;
            frame_count++;
            frame_sum += byte;
            if (frame_count >= frame_length)
                frame_state = SUM;
            break;
        case SUM:
            if (byte == frame_sum)
                frame_good++;
            else
                frame_bad++;
            frame_state = HUNT;
            break;
        default:
            break;
        }
    }
}
