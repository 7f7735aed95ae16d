/* A motor drive of eight tasks, the highest first. Its data are those that make its loops turn most. */
#include "drive.h"

/* current: a filter of the last values of each phase. */
int32_t taps[FILTER] = {3, 5, 8, 12, 16, 12, 8, 5, 3}, phase[FILTER] = {9, 8, 7, 6, 5, 4, 3, 2, 1}, current;

void control_current(void)
{
    int32_t sum = 0;

    for (uint32_t i = 0; i < FILTER; i++)                   /* bound 9 */
        sum += taps[i] * phase[i];
    for (uint32_t i = FILTER - 1; i > 0; i--)               /* bound 8 */
        phase[i] = phase[i - 1];
    current = sum >> 6;
}

/* position: the counts of an encoder, in a ring. */
volatile uint16_t encoder[QUEUE] = {1, 2, 4, 8, 16, 32, 64, 128, 256, 512, 1024, 2048, 4096, 8192, 16384, 32768};
uint32_t position, edges, first_wait = QUEUE;

void count_position(void)
{
    uint32_t waiting = first_wait;

    while (waiting--) {                                     /* bound 16 */
        position += encoder[waiting];
        edges++;
    }
}

/* limits: the largest deviation of the history, which ends where a value is out of range. */
int32_t history[HISTORY];
uint32_t largest, out_of_range;

void watch_limits(void)
{
    uint32_t k, top = 0;

    for (k = 0; k < HISTORY; k++) {                         /* bound 104 */
        uint32_t size = history[k] < 0 ? -history[k] : history[k];
        if (size > 4000)
            out_of_range++;
        else if (size > top)
            top = size;
    }
    largest = top;
}

/* states: a machine for each channel. */
enum state { STOPPED, STARTING, TURNING, BRAKING, BROKEN };
enum state states[CHANNELS] = {STOPPED, STARTING, TURNING, BRAKING};
uint32_t is_wanted = 1, turns[CHANNELS];

void step_states(void)
{
    uint32_t channel = 0;

    do {                                                    /* bound 4 */
        switch (states[channel]) {
        case STOPPED:
            states[channel] = is_wanted ? STARTING : STOPPED;
            break;
        case STARTING:
            states[channel] = largest < 4000 ? TURNING : BROKEN;
            break;
        case TURNING:
            turns[channel]++;
            states[channel] = is_wanted ? TURNING : BRAKING;
            break;
        case BRAKING:
            states[channel] = STOPPED;
            break;
        default:
            break;
        }
    } while (++channel < CHANNELS);
}

/* heat: the temperature by a table, which is searched from its start, and scaled in 64 bits. */
const int32_t curve[TABLE] = {-40, -20, 0, 10, 20, 30, 40, 50, 60, 80, 100, 120, 150};
int32_t sensor = 149, heat;

void watch_heat(void)
{
    uint32_t at;

    for (at = 0; at < TABLE; at++)                          /* bound 13 */
        if (curve[at] > sensor)
            break;
    heat = scaled(sensor, 1 << 20, curve[at < TABLE ? at : 0]);
}

/* frame: sorts the queue, and has its checksum. */
uint8_t queue[QUEUE] = {16, 15, 14, 13, 12, 11, 10, 9, 8, 7, 6, 5, 4, 3, 2, 1};
uint32_t frame_sum;

void send_frame(void)
{
    for (uint32_t i = 0; i < QUEUE - 1; i++)                /* bound 15 */
        for (uint32_t j = i + 1; j < QUEUE; j++)            /* bound 15 */
            if (queue[j] < queue[i]) {
                uint8_t kept = queue[i];
                queue[i] = queue[j];
                queue[j] = kept;
            }
    frame_sum = checksum(queue, QUEUE);
}

/* root: the root of a number, by halving. */
uint32_t square = 0xFFFFFFFF, root;

void find_root(void)
{
    uint32_t rest = square, result = 0, bit = 1u << 30;

    while (bit != 0) {                                      /* bound 16 */
        if (rest >= result + bit) {
            rest -= result + bit;
            result = (result >> 1) + bit;
        } else {
            result >>= 1;
        }
        bit >>= 2;
    }
    root = result;
}

/* log: the digits of a number, by 64-bit divisions, and a checksum of them. */
uint8_t label[LABEL], lines[LOG_DEPTH];
uint64_t energy = 987654321098;
uint32_t label_sum;

void write_log(void)
{
    uint64_t rest = energy;
    uint32_t length = 0;

    do {                                                    /* bound 12 */
        label[length++] = '0' + (uint8_t)(rest % 10);
        rest /= 10;
    } while (rest != 0 && length < LABEL);
    label_sum = checksum(label, length);
    for (uint32_t i = 0; i < LOG_DEPTH; i++)                /* bound 24 */
        lines[i] = (uint8_t)(label_sum >> (i & 7));
}
