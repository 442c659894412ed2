/* Runs the controller mpc from any state that 32 bits hold: Frama-C's Eva then tells each place where a value may leave its type. */
#include "mpc.h"

volatile int32_t any;

int main(void)
{
    static mpc_work work;
    static mpc_sum sums[mpc_ENTRIES];
    static int64_t inputs[mpc_INPUTS];
    int32_t state[mpc_STATES];
    int i;
    for (i = 0; i < mpc_STATES; i++) {
        state[i] = any;
    }
    if (mpc_solve(&work, state, sums) == 0) {
        mpc_first_inputs(sums, inputs);
    }
    return 0;
}
