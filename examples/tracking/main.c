/* The motor under a load that nothing measures, with the observer or without it: prints the lines of `loop`, and writes what was added to each next state.
   main LOAD TURNS ADDED [blind]: the load in 64ths of a volt, so many turns, and the file of what was added. */
#include <stdio.h>
#include <stdlib.h>
#include "motor.h"
#include "observer.h"

/* The rows of the angle and of the speed in design.toml. On a motor the sensors take their place. */
static const int64_t a[2][2] = { { 64, 15 }, { 0, 56 } };
static const int64_t b[2] = { 44, 31 };

static motor_work work;
static motor_sum sums[motor_ENTRIES];

/* The nearest grid state, ties upward, where the acting voltage differs from the planned one by so much, over 2^motor_GRID. */
static int32_t next(int i, const int32_t state[motor_STATES], int32_t differs)
{
    const int64_t exact = (a[i][0] * state[0] + a[i][1] * state[1] + b[i] * differs) * SCALE + b[i] * (int64_t)sums[0];
    return (int32_t)floor_div((2 * exact) + (DEN * SCALE), 2 * DEN * SCALE);
}

int main(int argc, char **argv)
{
    /* the target was just moved by 0.4 rad */
    int32_t state[motor_STATES] = { -410, 0, 0 };
    observer o = { 0 };
    const int32_t load = (argc > 3) ? (int32_t)atoi(argv[1]) : 0;
    FILE *added = (argc > 3) ? fopen(argv[3], "w") : NULL;
    int turn;
    if (added == NULL) {
        fprintf(stderr, "main LOAD TURNS ADDED [blind]\n");
        return 2;
    }
    for (turn = 1; turn <= atoi(argv[2]); turn++) {
        int32_t after[motor_STATES];
        int i;
        if (motor_solve(&work, state, sums) != 0) {
            fprintf(stderr, "outside the box before turn %d\n", turn);
            return 12;
        }
        printf("1 %d %ld %ld %ld %lld %lld\n", turn, (long)state[0], (long)state[1], (long)state[2], (long long)motor_STEPS << motor_BITS, (long long)sums[0]);
        /* the drive gives the planned voltage less the estimate, and the load is added by itself */
        after[0] = next(0, state, load - state[2]);
        after[1] = next(1, state, load - state[2]);
        observe(&o, state[1], sums[0], after[1]);
        after[2] = (argc > 4) ? 0 : estimate(&o);
        for (i = 0; i < motor_STATES; i++) {
            fprintf(added, "%s%ld", i ? "," : "", (long)(after[i] - ((i < 2) ? next(i, state, 0) : state[2])));
        }
        fprintf(added, "\n");
        for (i = 0; i < motor_STATES; i++) {
            state[i] = after[i];
        }
    }
    return fclose(added);
}
