/* The functions of two words beside 128-bit integers, and with each of their numbers changed by 1: prints `right`, and each place that isn't seen. */
#include <setjmp.h>
#include <signal.h>
#include <stdint.h>
#include <stdio.h>
static int changed = -1;
typedef struct {
    uint64_t low;
    uint64_t high;
} mpc_wide;
#include "two_words.c"
typedef __int128 word;
typedef unsigned __int128 bits;
static uint64_t seed = 20260101;
static sigjmp_buf trapped;
static void trap(int number) { siglongjmp(trapped, number); }

static uint64_t next(void)
{
    seed = seed * 6364136223846793005u + 1442695040888963407u;
    return seed ^ (seed >> 29);
}

/* Numbers of all lengths, and those next to powers of two. */
static bits number(void)
{
    const unsigned kind = (unsigned)(next() >> 60), shift = (unsigned)(next() >> 57);
    const bits any = ((bits)next() << 64) | next();
    if (kind < 4) return (bits)((word)any >> shift);
    if (kind < 8) return ((bits)1 << shift) - (kind & 1);
    if (kind < 12) return -((bits)1 << shift) - (kind & 1);
    return any;
}

static mpc_wide of(bits v)
{
    mpc_wide r;
    r.low = (uint64_t)v;
    r.high = (uint64_t)(v >> 64);
    return r;
}

static int differs(mpc_wide a, bits v) { return a.low != (uint64_t)v || a.high != (uint64_t)(v >> 64); }

static int wrong(void)
{
    volatile int t;
    if (sigsetjmp(trapped, 1)) return 1;
    seed = 20260101;
    for (t = 0; t < 4000; t++) {
        const bits a = number(), b = number();
        const unsigned k = (unsigned)t % 128u;
        const mpc_wide x = of(a), y = of(b);
        if (differs(mpc_of((int64_t)a), (bits)(word)(int64_t)a) || differs(mpc_add(x, y), a + b) || differs(mpc_negative(x), -a)) return 1;
        if (differs(mpc_times(x, y), a * b) || differs(mpc_raised(x, k), a << k) || differs(mpc_floor(x, k), (bits)((word)a >> k))) return 1;
        if (mpc_less(x, y) != ((word)a < (word)b) || mpc_less(x, x)) return 1;
    }
    return 0;
}

int main(void)
{
    signal(SIGILL, trap);
    signal(SIGTRAP, trap);
    if (wrong()) { puts("wrong"); return 1; }
    puts("right");
    for (changed = 0; changed < NUMBERS; changed++) if (!wrong()) printf("%d\n", changed);
    return 0;
}
