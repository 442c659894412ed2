/* What a load takes from the drive, as a voltage: found from the speed that was measured a stage after a plan, and the speed that the plan alone leads to. */
#ifndef OBSERVER_H
#define OBSERVER_H
#include <stdint.h>
#include "motor.h"

/* The row of the speed in design.toml: (A_SPEED speed + B_SPEED voltage) / DEN. */
enum { DEN = 64, A_SPEED = 56, B_SPEED = 31 };
/* 2^FINE of the estimate are a step of the grid; it moves by 1/2^SLOW of what is missing a turn; and no estimate lies outside the box of the design. */
enum { FINE = 8, SLOW = 2, MOST = 192 };
/* Numbers of states times this have the scale of sums. */
static const int64_t SCALE = (int64_t)motor_STEPS << (motor_BITS - motor_GRID);

typedef struct {
    int64_t fine; /* the estimate over 2^(motor_GRID + FINE) */
} observer;

/* The floor of value over den, den positive. */
static int64_t floor_div(int64_t value, int64_t den)
{
    return (value / den) - ((value % den < 0) ? 1 : 0);
}

/* The estimate over 2^motor_GRID, the third number of the controller's state. */
static int32_t estimate(const observer *o)
{
    const int64_t nearest = floor_div(o->fine + (1 << (FINE - 1)), 1 << FINE);
    return (int32_t)(nearest > MOST ? MOST : nearest < -MOST ? -MOST : nearest);
}

/* What a turn showed: the speed before and after it, over 2^motor_GRID, and the sum of the voltage that was planned. */
static void observe(observer *o, int32_t before, int64_t voltage, int32_t after)
{
    const int64_t missing = ((int64_t)DEN * after - (int64_t)A_SPEED * before) * SCALE - (int64_t)B_SPEED * voltage;
    o->fine += floor_div(missing * (1 << FINE), (int64_t)B_SPEED * SCALE * (1 << SLOW));
    if (o->fine > (int64_t)MOST << FINE) {
        o->fine = (int64_t)MOST << FINE;
    }
    if (o->fine < -((int64_t)MOST << FINE)) {
        o->fine = -((int64_t)MOST << FINE);
    }
}

#endif
