/* A controller of eight tasks, the highest first. The bounds in comments are how often a loop turns at most. */
#include "helpers.h"

enum { PHASES = 3, CHANNELS = 4, SAMPLES = 7, RAW = 24, PAYLOAD = 12, DRIVES = 5, POINTS = 8, SIGNAL = 24, SIZE = 16, LINE = 64 };

/* control: a PI controller for the current of each phase. */
int32_t wanted[PHASES] = {1200, -300, -900}, measured[PHASES] = {1100, -250, -850}, sum[PHASES], duty[PHASES];

void control_phases(void)
{
    for (uint32_t k = 0; k < PHASES; k++) {                  /* bound 3 */
        int32_t error = wanted[k] - measured[k];
        sum[k] = limited(sum[k] + error, -20000, 20000);
        duty[k] = limited((error * 614 + sum[k] * 41) >> 10, -1000, 1000);
    }
}

/* sample: the median of the last samples of each channel. */
int32_t samples[CHANNELS][SAMPLES] = {
    {512, 498, 505, 1023, 501, 499, 507}, {90, 80, 70, 60, 50, 40, 30}, {1, 2, 3, 4, 5, 6, 7}, {700, 7, 650, 8, 640, 9, 660},
};
int32_t middle[CHANNELS];

void take_samples(void)
{
    int32_t sorted[SAMPLES];

    for (uint32_t channel = 0; channel < CHANNELS; channel++) {  /* bound 4 */
        for (int32_t i = 0; i < SAMPLES; i++) {              /* bound 7 */
            int32_t j = i;
            for (; j > 0 && sorted[j - 1] > samples[channel][i]; j--)  /* bound 6 */
                sorted[j] = sorted[j - 1];
            sorted[j] = samples[channel][i];
        }
        middle[channel] = sorted[SAMPLES / 2];
    }
}

/* sequence: a state machine for each drive. */
enum state { OFF, CHARGING, READY, RUNNING, FAILED };
enum state drives[DRIVES] = {OFF, CHARGING, READY, RUNNING, FAILED};
int32_t volts[DRIVES] = {0, 290, 310, 320, 0}, hours[DRIVES];
uint32_t is_wanted = 1;

static enum state next_state(enum state state, int32_t voltage)
{
    switch (state) {
    case OFF:
        return is_wanted ? CHARGING : OFF;
    case CHARGING:
        return voltage > 300 ? READY : CHARGING;
    case READY:
        return is_wanted ? RUNNING : OFF;
    case RUNNING:
        return voltage > 400 || voltage < 200 ? FAILED : is_wanted ? RUNNING : READY;
    default:
        return is_wanted ? FAILED : OFF;
    }
}

void step_sequence(void)
{
    for (uint32_t k = 0; k < DRIVES; k++) {                  /* bound 5 */
        drives[k] = next_state(drives[k], volts[k]);
        if (drives[k] == RUNNING)
            hours[k]++;
    }
}

/* heat: temperatures by a curve of the sensor, and losses by the root of the mean square. */
const struct point sensor[POINTS] = {{100, 1200}, {180, 1000}, {300, 800}, {420, 650}, {560, 500}, {700, 350}, {850, 200}, {990, 0}};
int32_t heat, losses;

void watch_heat(void)
{
    int32_t squares = 0, hottest = 0;

    for (uint32_t k = 0; k < PHASES; k++)                    /* bound 3 */
        squares += duty[k] * duty[k] / PHASES;
    losses = square_root(squares);
    for (uint32_t channel = 0; channel < CHANNELS; channel++) {  /* bound 4 */
        int32_t value = value_at(sensor, POINTS, middle[channel]);
        if (value > hottest)
            hottest = value;
    }
    heat += (hottest + losses - heat) / 8;
}

/* receive: takes frames out of a stream of bytes. 0x7E ends a frame, and 0x7D stands before a byte that is changed. */
uint8_t raw[RAW] = {0x7E, 1, 2, 0x7D, 0x5E, 3, 0x7D, 0x5D, 4, 5, 6, 7, 8, 0x2A, 0x27, 0x7E, 11, 12, 0x7E, 0x7E, 13, 14, 15, 16};
uint8_t frame[PAYLOAD];
uint32_t good_frames, bad_frames, frame_length, frame_sum = 0xFFFF, is_changed;

static void end_frame(void)
{
#ifdef FIRST_TRY
    frame_sum = checksum(frame, frame_length);
#endif
    if (frame_length > 2 && frame_sum == 0)
        good_frames++;
    else if (frame_length > 0)
        bad_frames++;
    frame_length = 0;
    frame_sum = 0xFFFF;
}

static void take_byte(uint8_t byte)
{
    if (frame_length == PAYLOAD)
        return;
    frame[frame_length++] = byte;
#ifndef FIRST_TRY
    frame_sum = with_byte(frame_sum, byte);
#endif
}

void receive_bytes(void)
{
    for (uint32_t i = 0; i < RAW; i++) {                     /* bound 24 */
        if (raw[i] == 0x7E)
            end_frame();
        else if (raw[i] != 0x7D)
            take_byte(is_changed ? raw[i] ^ 0x20 : raw[i]);
        is_changed = raw[i] == 0x7D;
    }
}

/* swings: how often a signal turns round, from rising to falling and back. */
int32_t signal[SIGNAL] = {0, 3, 7, 9, 4, -2, -8, -9, -3, 2, 6, 5, 1, -4, -7, -1, 5, 8, 8, 2, -5, -6, 0, 4};
uint32_t swings;

void count_swings(void)
{
    uint32_t i = 0, count = 0;

    do {                                                     /* bound 12 */
#ifndef FIRST_TRY
        __asm__ volatile ("nop");  /* keeps the loops apart */
#endif
        while (i < SIGNAL - 1 && signal[i + 1] >= signal[i])  /* bound 23 */
            i++;
        while (i < SIGNAL - 1 && signal[i + 1] < signal[i])   /* bound 23 */
            i++;
        count++;
    } while (i < SIGNAL - 1);
    swings = count;
}

/* spectrum: a Fourier transform of 16 numbers in place, and the sizes of its lines. */
const int16_t cosine[SIZE / 2] = {16384, 15137, 11585, 6270, 0, -6270, -11585, -15137};
const int16_t sine[SIZE / 2] = {0, -6270, -11585, -15137, -16384, -15137, -11585, -6270};
int32_t real[SIZE] = {0, 900, 40, -880, 10, 910, -30, -890, 5, 905, 20, -870, -10, 880, 15, -900}, imaginary[SIZE];
uint32_t lines[SIZE / 2];

static void turn_bits(void)
{
    for (uint32_t i = 1, j = 0; i < SIZE; i++) {             /* bound 15 */
        uint32_t bit = SIZE / 2;
        for (; j & bit; bit >>= 1)                           /* bound 3 */
            j ^= bit;
        j ^= bit;
        if (i < j) {
            int32_t kept = real[i];
            real[i] = real[j];
            real[j] = kept;
        }
    }
}

static void join(uint32_t low, uint32_t high, uint32_t angle)
{
    int32_t x = (real[high] * cosine[angle] - imaginary[high] * sine[angle]) >> 14;
    int32_t y = (real[high] * sine[angle] + imaginary[high] * cosine[angle]) >> 14;

    real[high] = real[low] - x;
    imaginary[high] = imaginary[low] - y;
    real[low] += x;
    imaginary[low] += y;
}

void make_spectrum(void)
{
    turn_bits();
    for (uint32_t k = 0; k < SIZE; k++)                      /* bound 16 */
        imaginary[k] = 0;
    for (uint32_t half = 1; half < SIZE; half *= 2)          /* bound 4 */
        for (uint32_t start = 0; start < SIZE; start += 2 * half)  /* bound 8 */
            for (uint32_t k = 0; k < half; k++)              /* bound 8 */
                join(start + k, start + k + half, k * (SIZE / 2 / half));
    for (uint32_t k = 0; k < SIZE / 2; k++)                  /* bound 8 */
        lines[k] = square_root(real[k] * real[k] + imaginary[k] * imaginary[k]);
}

/* log: a line of text with numbers, a checksum behind it. */
char line[LINE];

void write_line(void)
{
    uint32_t length = 0;

    for (uint32_t channel = 0; channel < CHANNELS && length < 32 - 10; channel++) {  /* bound 4 */
        length += put_number(line + length, middle[channel]);
        line[length++] = ' ';
    }
    length += put_number(line + length, checksum((const uint8_t *)line, length));
    line[length++] = '\n';
}
