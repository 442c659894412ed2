/* Steps and runs of the C of a controller beside what they must be, and again with each number of its tables and of its functions changed by 1.
 *
 * Built with the C itself in changed.c (its functions trap where something is undefined), whose functions have each number as (number + (changed == its place)), and layout.h:
 * WIDE, the members that a case sets (IN), those that it compares (OUT), and the tables (TABLE). Cases are numbers of 16 bytes each on standard input.
 * Prints `right` or `wrong` first, then each place that no case sees, as `table place` or `number place`, and last how many were changed. */
#include <inttypes.h>
#include <setjmp.h>
#include <signal.h>
#include <stdint.h>
#include <stdio.h>
#include <stdlib.h>
#include <string.h>
static int changed = -1;
/* the tables, too, can be written here */
#define const
#include "changed.c"
#undef const
#include "layout.h"
typedef __int128 word;
#if WIDE
#define SET(member, value) ((member).low = (uint64_t)(value), (member).high = (uint64_t)((value) >> 64))
#define NOT(member, value) ((member).low != (uint64_t)(value) || (member).high != (uint64_t)((value) >> 64))
#else
#define SET(member, value) ((member) = (value))
#define NOT(member, value) ((word)(member) != (value))
#endif
#define COUNT(list) ((int)(sizeof(list) / sizeof((list)[0])))
/* room behind it, for a changed loop that runs too far */
static struct {
    mpc_work work;
    mpc_sum sums[mpc_ENTRIES];
    char room[1 << 16];
} held;
static word *steps, *runs, *averages;
static long step_count, run_count, average_count, step_size, run_size;

static word *take(long *count, long size)
{
    word head[1], *list;
    if (fread(head, sizeof(word), 1, stdin) != 1) exit(3);
    *count = (long)head[0];
    list = malloc((size_t)(*count * size + 1) * sizeof(word));
    if (!list || fread(list, sizeof(word), (size_t)(*count * size), stdin) != (size_t)(*count * size)) exit(3);
    return list;
}

static int wrong_step(const word *at)
{
    int32_t state[mpc_STATES];
    int i;
    for (i = 0; i < mpc_STATES; i++) state[i] = (int32_t)*at++;
    memset(&held.work, 0xa5, sizeof held.work);
    memset(held.sums, 0xa5, sizeof held.sums);
    mpc_start(&held.work, state, held.sums);
#define IN(member) for (i = 0; i < COUNT(held.work.member); i++) { if (NOT(held.work.member[i], (word)0)) return 1; SET(held.work.member[i], *at); at++; }
    INS
    mpc_step(&held.work, held.sums);
#define OUT(member) for (i = 0; i < COUNT(held.work.member); i++) { if (NOT(held.work.member[i], *at)) return 1; at++; }
    OUTS
    for (i = 0; i < mpc_ENTRIES; i++) { if (NOT(held.sums[i], *at)) return 1; at++; }
    return 0;
}

static int wrong_run(const word *at)
{
    int32_t state[mpc_STATES];
    int i;
    for (i = 0; i < mpc_STATES; i++) state[i] = (int32_t)*at++;
    memset(&held.work, 0xa5, sizeof held.work);
    if (mpc_solve(&held.work, state, held.sums) != (int)*at++) return 1;
    for (i = 0; at[-1] == 0 && i < mpc_ENTRIES; i++) if (NOT(held.sums[i], at[i])) return 1;
    return 0;
}

static int wrong_average(const word *at)
{
#if !WIDE
    int64_t inputs[mpc_INPUTS];
    int i;
    for (i = 0; i < mpc_ENTRIES; i++) held.sums[i] = (mpc_sum)*at++;
    mpc_first_inputs(held.sums, inputs);
    for (i = 0; i < mpc_INPUTS; i++) if ((word)inputs[i] != *at++) return 1;
#else
    (void)at;
#endif
    return 0;
}

static sigjmp_buf trapped;
static void trap(int number) { siglongjmp(trapped, number); }

/* Whether some case sees it, by what comes out or by a trap of the sanitizer. */
static int wrong(void)
{
    volatile long t;
    if (sigsetjmp(trapped, 1)) return 1;
    for (t = 0; t < step_count; t++) if (wrong_step(steps + t * step_size)) return 1;
    for (t = 0; t < run_count; t++) if (wrong_run(runs + t * run_size)) return 1;
    for (t = 0; t < average_count; t++) if (wrong_average(averages + t * (mpc_ENTRIES + mpc_INPUTS))) return 1;
    return 0;
}

static int changes;

/* Each number of a table one greater; where its type has no greater one, or it is a count, one less. */
static void change_table(const char *name, void *table, size_t size, int count, int less)
{
    int i;
    for (i = 0; i < count; i++) {
        unsigned char *at = (unsigned char *)table + (size_t)i * size, kept[16];
        const int is_most = size <= 8 && at[size - 1] == 0x7f && (size == 1 || at[0] == 0xff);
        size_t k;
        memcpy(kept, at, size);
        if (is_most || less) {
            for (k = 0; k < size && at[k]-- == 0; k++) { }
        } else {
            for (k = 0; k < size && ++at[k] == 0; k++) { }
        }
        if (!wrong()) printf("%s %d\n", name, i);
        memcpy(at, kept, size);
        changes++;
    }
}

int main(int count, char **words)
{
    (void)words;
    step_size = mpc_STATES + mpc_ENTRIES;
#undef IN
#undef OUT
#define IN(member) step_size += COUNT(held.work.member);
#define OUT(member) step_size += COUNT(held.work.member);
    INS
    OUTS
    run_size = mpc_STATES + 1 + mpc_ENTRIES;
    steps = take(&step_count, step_size);
    runs = take(&run_count, run_size);
    averages = take(&average_count, mpc_ENTRIES + mpc_INPUTS);
    if (wrong()) { puts("wrong"); return 1; }
    puts("right");
    if (count == 1) return 0;
    signal(SIGILL, trap);
    signal(SIGTRAP, trap);
    signal(SIGSEGV, trap);
#define TABLE(name, count, less) change_table(#name, mpc_##name, sizeof mpc_##name[0], count, less);
    TABLES
    for (changed = 0; changed < NUMBERS; changed++, changes++) if (!wrong()) printf("number %d\n", changed);
    printf("changes %d\n", changes);
    return 0;
}
