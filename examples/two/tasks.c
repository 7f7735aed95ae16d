/* Two tasks in one image: a control step that runs often, and a checksum that it preempts. A task's
 * entry is a plain function: a job starts it, and is complete when it returns. */
#include <stdint.h>

struct control {
    int32_t wanted, measured, before, sum, output;
};

struct control state = {1000, 0, 0, 0, 0};

/* A PID controller's step, in fixed point with 8 bits behind the point. */
void control_step(void)
{
    int32_t error = state.wanted - state.measured;
    int32_t change = error - state.before;

    state.sum += error;
    if (state.sum > 100000)
        state.sum = 100000;
    else if (state.sum < -100000)
        state.sum = -100000;
    state.output = (96 * error + 8 * state.sum + 32 * change) >> 8;
    state.before = error;
    state.measured += state.output >> 4;
}

enum { LENGTH = 32 };

uint8_t message[LENGTH];
uint32_t checksum;

/* CRC-32, bit by bit: two nested loops. */
void check_message(void)
{
    uint32_t crc = 0xFFFFFFFFu;

    for (uint32_t i = 0; i < LENGTH; i++) {        /* bound 32 */
        crc ^= message[i];
        for (uint32_t bit = 0; bit < 8; bit++)     /* bound 8 */
            crc = crc & 1 ? crc >> 1 ^ 0xEDB88320u : crc >> 1;
    }
    checksum = ~crc;
}
