/* Runs the controller mpc, as tables or as the straight C of the command c, from each state of states.h, and prints for each what it answers and, where that is 0, the sums in hexadecimal, the high word first. */
#include "target.h"
#include "mpc.h"
#include "states.h"

#if STRAIGHT
enum { mpc_ENTRIES = mpc_INPUTS * mpc_STAGES };
static int64_t sums[mpc_ENTRIES];
#else
static mpc_work work;
static mpc_sum sums[mpc_ENTRIES];
#endif

static void put_word(uint64_t value)
{
    char digits[17];
    int i;
    for (i = 0; i < 16; i++) {
        digits[i] = "0123456789abcdef"[(value >> (60 - (4 * i))) & 15u];
    }
    digits[16] = 0;
    put(digits);
}

int main(void)
{
    unsigned i;
    for (i = 0; i < sizeof states / sizeof states[0]; i++) {
#if STRAIGHT
        const int outside = mpc_solve(states[i], sums);
#else
        const int outside = mpc_solve(&work, states[i], sums);
#endif
        int j;
        put_number(outside);
        for (j = 0; outside == 0 && j < mpc_ENTRIES; j++) {
            put(" ");
#if WIDE
            put_word(sums[j].high);
            put_word(sums[j].low);
#else
            put_word((sums[j] < 0) ? UINT64_MAX : 0u);
            put_word((uint64_t)sums[j]);
#endif
        }
        put("\n");
    }
    return 0;
}
