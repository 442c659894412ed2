/* The motor's closed loop on a board: the controller's C from each state of states.h, and the design's plant in whole numbers. Prints the lines of `loop`. */
#include "target.h"
#include "motor.h"
#include "states.h"

/* The plant of design.toml. On a motor the sensors take its place. */
enum { DEN = 64 };
static const int64_t a[motor_STATES][motor_STATES] = { { 64, 19 }, { 0, 56 } };
static const int64_t b[motor_STATES][motor_INPUTS] = { { 26 }, { 31 } };

static motor_work work;
static motor_sum sums[motor_ENTRIES];

/* The floor of value over den, den positive. */
static int64_t floor_div(int64_t value, int64_t den)
{
    return (value / den) - ((value % den < 0) ? 1 : 0);
}

/* Moves the plant by the first inputs of the averaged plan, to the nearest grid state, ties upward. */
static void move(int32_t state[motor_STATES])
{
    const int64_t scale = (int64_t)motor_STEPS << (motor_BITS - motor_GRID);
    int32_t next[motor_STATES];
    int i;
    int k;
    for (i = 0; i < motor_STATES; i++) {
        int64_t sum = 0;
        for (k = 0; k < motor_STATES; k++) {
            sum += a[i][k] * state[k] * scale;
        }
        for (k = 0; k < motor_INPUTS; k++) {
            sum += b[i][k] * sums[k];
        }
        next[i] = (int32_t)floor_div((2 * sum) + (DEN * scale), 2 * DEN * scale);
    }
    for (i = 0; i < motor_STATES; i++) {
        state[i] = next[i];
    }
}

static void put_turn(int record, int turn, const int32_t state[motor_STATES])
{
    int i;
    put_number(record);
    put(" ");
    put_number(turn);
    for (i = 0; i < motor_STATES; i++) {
        put(" ");
        put_number(state[i]);
    }
    put(" ");
    put_number((int64_t)motor_STEPS << motor_BITS);
    for (i = 0; i < motor_INPUTS; i++) {
        put(" ");
        put_number(sums[i]);
    }
    put("\n");
}

int main(void)
{
    int record;
    for (record = 0; record < (int)(sizeof states / sizeof states[0]); record++) {
        int32_t state[motor_STATES];
        int turn;
        int i;
        for (i = 0; i < motor_STATES; i++) {
            state[i] = states[record][i];
        }
        for (turn = 1; turn <= TURNS; turn++) {
            if (motor_solve(&work, state, sums) != 0) {
                put("outside the box\n");
                break;
            }
            put_turn(record + 1, turn, state);
            move(state);
        }
    }
    return 0;
}
