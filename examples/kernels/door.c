/* One step of the controller of a lift's door: a state machine with inputs, a timer and a count of
 * blocked attempts. No loops. */
#include "kernel.h"

enum { CLOSED, OPENING, OPEN, CLOSING, FAULT };
enum { CALL = 1, CLOSE = 2, BLOCKED = 4, IS_OPEN = 8, IS_CLOSED = 16, RESET = 32 };

DATA uint8_t door_inputs = CALL, door_state = CLOSED, door_tries = 0;
DATA uint16_t door_timer = 0;
uint8_t door_motor, door_lamp;

void door(void)
{
    uint32_t in = door_inputs, state = door_state, timer = door_timer, tries = door_tries;

    if (timer != 0)
        timer--;
    switch (state) {
    case CLOSED:
        if (in & CALL) {
            state = OPENING;
            timer = 300;
        }
        break;
    case OPENING:
        if (in & IS_OPEN) {
            state = OPEN;
            timer = 500;
        } else if (timer == 0) {
            state = FAULT;
        }
        break;
    case OPEN:
        if (in & (CALL | BLOCKED))
            timer = 500;
        else if (timer == 0 || in & CLOSE) {
            state = CLOSING;
            timer = 300;
        }
        break;
    case CLOSING:
        if (in & BLOCKED) {
            tries++;
            state = tries > 5 ? FAULT : OPENING;
            timer = 300;
        } else if (in & IS_CLOSED) {
            state = CLOSED;
            tries = 0;
        } else if (in & CALL) {
            state = OPENING;
            timer = 300;
        } else if (timer == 0) {
            state = FAULT;
        }
        break;
    default:
        if (in & RESET) {
            state = CLOSING;
            tries = 0;
            timer = 300;
        }
        break;
    }
    door_motor = state == OPENING ? 1 : state == CLOSING ? 2 : 0;
    door_lamp = state == FAULT || (state == CLOSING && (timer & 16) != 0);
    door_state = (uint8_t)state;
    door_timer = (uint16_t)timer;
    door_tries = (uint8_t)tries;
}
