/* The same machines in plain C, for controllers of all versions, with sizes and shifts at run time and no test of any value.
   It reads a controller text and a states text and puts the plan line of each state.
   A word is of 128 bits, or, with -DWORD=int64_t, of 64 throughout, which serves controllers of a width of at most 64. A factor is such a word, or, with
   -DFACTOR=int64_t, one of 64 bits: then the matrices, the state, the multipliers and the plan are copied to such words, and sums keep 128 bits. */
#include <stdint.h>
#include <stdio.h>
#include <stdlib.h>
#include <string.h>

#ifndef WORD
#define WORD __int128
#endif
typedef WORD word;

#ifndef FACTOR
#define FACTOR word
#endif
typedef FACTOR factor;

static FILE *text;

static void fail(const char *what) {
    fprintf(stderr, "machine: %s\n", what);
    exit(1);
}

static void key(const char *name) {
    char found[32];
    if (fscanf(text, "%31s", found) != 1 || strcmp(found, name) != 0) fail(name);
}

static word number(void) {
    char digits[64];
    if (fscanf(text, " %63[-0-9]", digits) != 1) fail("number");
    int at = digits[0] == '-';
    word value = 0;
    for (int minus = at; digits[at]; at++) value = 10 * value + (minus ? '0' - digits[at] : digits[at] - '0');
    return value;
}

static void put(word value) {
    char digits[48];
    int at = 47;
    int minus = value < 0;
    digits[at] = 0;
    do {
        int digit = (int)(value % 10);
        digits[--at] = (char)('0' + (minus ? -digit : digit));
        value /= 10;
    } while (value);
    if (minus) digits[--at] = '-';
    fputs(digits + at, stdout);
}

static word *zeros(size_t count) {
    word *list = calloc(count, sizeof(word));
    if (!list) fail("memory");
    return list;
}

static factor *factors(size_t count) {
    factor *list = calloc(count, sizeof(factor));
    if (!list) fail("memory");
    return list;
}

/* A matrix: each row on a line of its own behind its key. */
static factor *matrix(const char *name, int rows, int cols) {
    factor *a = factors((size_t)rows * cols);
    for (int i = 0; i < rows; i++) {
        key(name);
        for (int j = 0; j < cols; j++) a[(size_t)i * cols + j] = (factor)number();
    }
    return a;
}

static word dot(const factor *xs, const factor *ys, int count) {
    word sum = 0;
    for (int i = 0; i < count; i++) sum += (word)xs[i] * ys[i];
    return sum;
}

static struct {
    int version, n, nu, m, f, g, s, steps;
    word clamp;
    /* By how many bits a row's step exponent is below the greatest. */
    int *lowering;
    factor *P, *T, *W, *G, *E, *b;
} c;

static void read_exponents(void) {
    c.lowering = calloc(c.m, sizeof(int));
    if (!c.lowering) fail("memory");
    key("exps");
    for (int i = 0; i < c.m; i++) c.lowering[i] = c.s - (int)number();
}

static void read_controller(const char *name) {
    text = fopen(name, "r");
    if (!text) fail(name);
    key("mpc-controller");
    c.version = (int)number();
    key("size");
    c.n = (int)number();
    c.nu = (int)number();
    c.nu *= (int)number();
    c.m = (int)number();
    key("bits");
    c.f = (int)number();
    c.g = (int)number();
    c.s = (int)number();
    number();
    key("steps");
    c.steps = (int)number();
    key("clamp");
    c.clamp = number();
    key("words");
    number();
    if (c.version > 1) read_exponents();
    free(matrix("lo", 1, c.n));
    free(matrix("hi", 1, c.n));
    c.P = matrix("P", c.nu, c.n);
    c.T = matrix("T", 1, c.nu);
    c.W = matrix("W", c.nu, c.m);
    c.G = matrix("G", c.m, c.nu);
    c.E = matrix("E", c.m, c.n);
    c.b = matrix("b", 1, c.m);
    key("end");
    fclose(text);
}

/* What a run's state adds to each sum is the same in all its steps, and is computed once, in nu + m words more than the machine has. */
static void load(const factor *x, word *own, word *row) {
    for (int j = 0; j < c.nu; j++)
        own[j] = (dot(c.P + (size_t)j * c.n, x, c.n) + (word)c.T[j] * ((word)1 << c.f)) * ((word)1 << c.s);
    for (int i = 0; i < c.m; i++) row[i] = dot(c.E + (size_t)i * c.n, x, c.n) - (word)c.b[i] * ((word)1 << c.f);
}

static factor kept(word next, word top) {
    next = next > 0 ? next : 0;
    return (factor)(next < top ? next : top);
}

/* In version 2 the multipliers are kept raised, as the plan is made of them: each is lowered, moved and raised again. */
static void move_raised(const word *row, const factor *u, factor *l) {
    for (int i = 0; i < c.m; i++) {
        word moved = (dot(c.G + (size_t)i * c.nu, u, c.nu) + row[i]) >> c.f;
        int k = c.lowering[i];
        factor old = l[i] >> k, top = (factor)c.clamp >> k;
        l[i] = kept(old + moved, top) << k;
    }
}

static void move(const word *row, const factor *u, factor *l) {
    for (int i = 0; i < c.m; i++) l[i] = kept(l[i] + ((dot(c.G + (size_t)i * c.nu, u, c.nu) + row[i]) >> c.f), c.clamp);
}

/* The accelerated machine of version 3: the plan is made at the means of the multipliers and of what was reached of them, by the steps' weights. */
static void means(int k, const factor *l, const word *reached, factor *mean) {
    word weight = k + 2, divisor = ((word)k + 1) * (k + 4);
    for (int i = 0; i < c.m; i++) mean[i] = (factor)((reached[i] + weight * l[i]) / divisor << c.lowering[i]);
}

static void move_weighted(int k, const word *row, const factor *u, factor *l) {
    for (int i = 0; i < c.m; i++) {
        word residual = (dot(c.G + (size_t)i * c.nu, u, c.nu) + row[i]) >> c.f;
        l[i] = kept(l[i] + (word)(k + 2) * residual, 2 * c.clamp >> c.lowering[i]);
    }
}

static void plan(const word *own, const factor *l, factor *u) {
    for (int j = 0; j < c.nu; j++) u[j] = (factor)-((own[j] + dot(c.W + (size_t)j * c.m, l, c.m)) >> (c.f + c.s));
}

static void fast_step(int k, const word *own, const word *row, factor *mean, factor *u, factor *l, word *reached, word *sums) {
    means(k, l, reached, mean);
    plan(own, mean, u);
    move_weighted(k, row, u, l);
    for (int i = 0; i < c.m; i++) reached[i] += (word)(k + 2) * l[i];
    for (int j = 0; j < c.nu; j++) sums[j] += (word)(k + 2) * u[j];
}

static void step(const word *own, const word *row, factor *u, factor *l, word *sums) {
    plan(own, l, u);
    if (c.version == 2)
        move_raised(row, u, l);
    else
        move(row, u, l);
    for (int j = 0; j < c.nu; j++) sums[j] += u[j];
}

int main(int count, char **words) {
    if (count != 3) fail("usage: machine CONTROLLER STATES");
    read_controller(words[1]);
    factor *x = factors(c.n), *u = factors(c.nu), *l = factors(c.m), *mean = factors(c.m);
    word *sums = zeros(c.nu), *own = zeros(c.nu), *row = zeros(c.m), *reached = zeros(c.m);
    word weights = c.version == 3 ? (word)c.steps * (c.steps + 3) / 2 : c.steps;
    text = fopen(words[2], "r");
    if (!text) fail(words[2]);
    while (fscanf(text, " %*[^-0-9]"), !feof(text)) {
        for (int i = 0; i < c.n; i++) {
            x[i] = (factor)(number() * ((word)1 << (c.f - c.g)));
            if (fscanf(text, ",") != 0) break;
        }
        memset(u, 0, c.nu * sizeof(factor));
        memset(l, 0, c.m * sizeof(factor));
        memset(reached, 0, c.m * sizeof(word));
        memset(sums, 0, c.nu * sizeof(word));
        load(x, own, row);
        for (int k = 0; k < c.steps; k++) {
            if (c.version == 3)
                fast_step(k, own, row, mean, u, l, reached, sums);
            else
                step(own, row, u, l, sums);
        }
        put(weights << c.f);
        for (int j = 0; j < c.nu; j++) {
            putchar(' ');
            put(sums[j]);
        }
        putchar('\n');
    }
    return 0;
}
