/*
 * Times the desk against M4RI and against plain C loops. Every figure is in microseconds and is the
 * minimum over repetitions, each the lesser of the wall clock and the process's processor time (other
 * programs may be running); where one repetition does several different things (wires, lamps), it is
 * their mean. Answers are tested against the wires, outside what is timed.
 */
#include <m4ri/m4ri.h>
#include <stdint.h>
#include <stdio.h>
#include <stdlib.h>
#include <string.h>
#include <time.h>

#include "lights.h"

typedef uint64_t u64;

static double clock_us(clockid_t clock) {
    struct timespec t;
    clock_gettime(clock, &t);
    return t.tv_sec * 1e6 + t.tv_nsec * 1e-3;
}

typedef struct { double processor, wall; } Start;

static Start start(void) {
    Start s;
    s.processor = clock_us(CLOCK_PROCESS_CPUTIME_ID);
    s.wall = clock_us(CLOCK_MONOTONIC);
    return s;
}

/* keeps in `best` the time since the start, over so many things, if it is less */
static void stop(Start s, unsigned things, double *best) {
    double wall = clock_us(CLOCK_MONOTONIC) - s.wall, processor = clock_us(CLOCK_PROCESS_CPUTIME_ID) - s.processor;
    double t = (wall < processor ? wall : processor) / things;
    if (t < *best) *best = t;
}

/* splitmix64 */
static u64 seed = 1;
static u64 rnd(void) {
    u64 z = (seed += 0x9E3779B97F4A7C15u);
    z = (z ^ z >> 30) * 0xBF58476D1CE4E5B9u;
    z = (z ^ z >> 27) * 0x94D049BB133111EBu;
    return z ^ z >> 31;
}

static void fail(const char *what) {
    fprintf(stderr, "bench: failed: %s\n", what);
    exit(1);
}

/* ---- a board in lent memory */

enum { MOST = LIGHTS_MOST, WORDS = MOST / 64 };

typedef struct {
    unsigned n;
    u64 wires[MOST * WORDS], rows[MOST * WORDS], done[MOST * WORDS];
    uint16_t pivots[MOST];
    u64 lit[WORDS], marks[WORDS];
    uint8_t answer[LIGHTS_ANSWER_BYTES(MOST)];
} Desk;

#define SLICE(s) s, sizeof s / sizeof s[0]
#define MEMORY(d) SLICE(d->wires), SLICE(d->rows), SLICE(d->done), SLICE(d->pivots), SLICE(d->lit), SLICE(d->marks)

static unsigned width(const Desk *d) { return (d->n + 63) / 64; }

static void copy(Desk *to, const Desk *from) {
    size_t table = from->n * width(from) * sizeof(u64), row = width(from) * sizeof(u64);
    to->n = from->n;
    memcpy(to->wires, from->wires, table);
    memcpy(to->rows, from->rows, table);
    memcpy(to->done, from->done, table);
    memcpy(to->pivots, from->pivots, from->n * sizeof(uint16_t));
    memcpy(to->lit, from->lit, row);
    memcpy(to->marks, from->marks, row);
}

static void desk_open(Desk *d, unsigned n) {
    d->n = n;
    if (lights_open(n, MEMORY(d)) != n) fail("open");
}

static void desk_call(Desk *d, uint8_t call, unsigned lamps, unsigned i, unsigned j) {
    uint8_t bytes[5] = {call, i & 255, i >> 8, j & 255, j >> 8};
    if (lights_call(d->n, MEMORY(d), bytes, 1 + 2 * lamps, SLICE(d->answer)) < 0 || d->answer[0] == LIGHTS_SAYS_REFUSED) fail("call");
}

static void wire(Desk *d, unsigned i, unsigned j) { desk_call(d, LIGHTS_WIRE, 2, i, j); }
static void turn(Desk *d, unsigned i) { desk_call(d, LIGHTS_TURN, 1, i, 0); }
static void press(Desk *d, unsigned i) { desk_call(d, LIGHTS_PRESS, 1, i, 0); }
static void out(Desk *d) { desk_call(d, LIGHTS_OUT, 0, 0, 0); }

static int answered(const Desk *d, unsigned i) { return d->answer[3 + i / 8] >> i % 8 & 1; }
static int has(const Desk *d, unsigned i, unsigned j) { return d->wires[i * width(d) + j / 64] >> j % 64 & 1; }

static const char *kind(const Desk *d) {
    static const char *const kinds[] = {"refused", "number", "lit", "fewest", "some", "never"};
    return kinds[d->answer[0]];
}

/* the answer to `out` is right: the presses put all out, or the lamps show that none do */
static void test_out(const Desk *d) {
    int never = d->answer[0] == LIGHTS_SAYS_NEVER, odd = 0;
    for (unsigned i = 0; i < d->n; i++) {
        int sum = 0, on = d->lit[i / 64] >> i % 64 & 1;
        for (unsigned j = 0; j < d->n; j++) sum ^= has(d, i, j) & answered(d, j);
        if (never ? sum : sum != on) fail("a wrong answer");
        odd ^= on & answered(d, i);
    }
    if (never && !odd) fail("an even set");
}

/* ---- M4RI: [A | I] brought into reduced echelon form; the copy is not timed */

static double m4ri(const Desk *d, unsigned reps) {
    double best = 1e18;
    mzd_t *whole = mzd_init(d->n, 2 * d->n), *m = mzd_init(d->n, 2 * d->n);
    for (unsigned i = 0; i < d->n; i++) {
        for (unsigned j = 0; j < d->n; j++) mzd_write_bit(whole, i, j, has(d, i, j));
        mzd_write_bit(whole, i, d->n + i, 1);
    }
    for (unsigned r = 0; r < reps; r++) {
        mzd_copy(m, whole);
        Start t = start();
        mzd_echelonize_m4ri(m, 1, 0);
        stop(t, 1, &best);
    }
    mzd_free(whole);
    mzd_free(m);
    return best;
}

/* ---- walls, wired from an open board; each returns how many wires it has */

static unsigned dense(Desk *d, unsigned n) {
    unsigned calls = 0;
    for (unsigned i = 0; i < n; i++)
        for (unsigned j = 0; j < i; j++)
            if (rnd() & 1) wire(d, i, j), calls++;
    return calls;
}

static unsigned side(unsigned n) {
    unsigned s = 1;
    while (s * s < n) s++;
    return s;
}

static unsigned grid(Desk *d, unsigned n) {
    unsigned s = side(n), calls = 0;
    for (unsigned i = 0; i < n; i++) {
        if (i % s + 1 < s) wire(d, i, i + 1), calls++;
        if (i + s < n) wire(d, i, i + s), calls++;
    }
    return calls;
}

/* ---- what is timed */

static Desk fresh, desk;
enum { CHANGES = 32 };
typedef struct { double open, wire, first, m4ri, wired, turned; const char *kind; } Times;

static Times times(unsigned (*wall)(Desk *, unsigned), unsigned n) {
    Times best = {1e18, 1e18, 1e18, 1e18, 1e18, 1e18, ""};
    unsigned reps = n > 256 ? 40 : n > 64 ? 400 : 2000, lamps[CHANGES], others[CHANGES];
    for (unsigned r = 0; r < 5; r++) {
        Start t = start();
        desk_open(&fresh, n);
        stop(t, 1, &best.open);
        seed = n;
        t = start();
        unsigned calls = wall(&fresh, n);
        stop(t, calls, &best.wire);
    }
    for (unsigned i = 0; i < n; i++)
        if (rnd() & 1) press(&fresh, i);
    for (unsigned c = 0; c < CHANGES; c++) {
        lamps[c] = rnd() % n;
        others[c] = (lamps[c] + 1 + rnd() % (n - 1)) % n;
    }
    for (unsigned r = 0; r < reps; r++) { /* (a) */
        copy(&desk, &fresh);
        Start t = start();
        out(&desk);
        stop(t, 1, &best.first);
    }
    test_out(&desk);
    best.kind = kind(&desk);
    best.m4ri = m4ri(&fresh, reps);
    for (unsigned r = 0; r < reps; r++) { /* (b) each wire comes or goes, and then is as it was again */
        Start t = start();
        for (unsigned c = 0; c < 2 * CHANGES; c++) {
            wire(&desk, lamps[c / 2], others[c / 2]);
            out(&desk);
        }
        stop(t, 2 * CHANGES, &best.wired);
    }
    for (unsigned r = 0; r < reps; r++) { /* (c) and so each lamp */
        Start t = start();
        for (unsigned c = 0; c < 2 * CHANGES; c++) {
            turn(&desk, lamps[c / 2]);
            out(&desk);
        }
        stop(t, 2 * CHANGES, &best.turned);
    }
    for (unsigned c = 0; c < CHANGES; c++) {
        wire(&desk, lamps[c], others[c]);
        turn(&desk, lamps[c]);
        out(&desk);
        test_out(&desk);
    }
    return best;
}

/* ---- (d) the same quiet sets by a plain loop */

unsigned loop_over_sets(const u64 *sets, unsigned count, unsigned width, u64 *way, u64 *least);
unsigned loop_over_sets_popcnt(const u64 *sets, unsigned count, unsigned width, u64 *way, u64 *least);

static double ways(void) {
    static u64 sets[16 * WORDS], way[WORDS], first[WORDS], least[WORDS];
    desk_open(&desk, MOST);
    for (unsigned i = 0; i < 80; i++) /* 16 times five in a row, each with one quiet set; the other lamps have no wires */
        if (i % 5 < 4) wire(&desk, i, i + 1);
    for (unsigned i = 0; i < MOST; i++)
        if (rnd() & 1) {
            press(&desk, i);
            first[i / 64] ^= 1ull << i % 64;
        }
    for (unsigned k = 0; k < 16; k++) /* 1, 1, 0, 1, 1 changes nothing */
        for (unsigned i = 0; i < 5; i++)
            if (i != 2) sets[k * WORDS + (5 * k + i) / 64] |= 1ull << (5 * k + i) % 64;
    desk_call(&desk, LIGHTS_WAYS, 0, 0, 0);
    if (desk.answer[1] + 256 * desk.answer[2] != 17) fail("not 2^16 ways");
    double lights = 1e18, plain = 1e18, popcnt = 1e18;
    unsigned found = 0, presses = 0;
    for (unsigned r = 0; r < 40; r++) {
        Start t = start();
        out(&desk);
        stop(t, 1, &lights);
        memcpy(way, first, sizeof way);
        t = start();
        found = loop_over_sets(sets, 16, WORDS, way, least);
        stop(t, 1, &plain);
        memcpy(way, first, sizeof way);
        t = start();
        found = loop_over_sets_popcnt(sets, 16, WORDS, way, least);
        stop(t, 1, &popcnt);
    }
    test_out(&desk);
    for (unsigned i = 0; i < MOST; i++) presses += answered(&desk, i);
    if (desk.answer[0] != LIGHTS_SAYS_FEWEST || presses != found) fail("not the fewest presses");
    printf("\n(d) 1,024 lamps, 65,536 ways: fewest presses (%u)\n", presses);
    printf("    out %.0f us; plain C loop, -O2 %.0f us: %.2f times; the loop with -O2 -mpopcnt %.0f us: %.2f times\n", lights, plain, lights / plain, popcnt, lights / popcnt);
    return lights / plain;
}

/* ---- (e) 40 lamps by all presses */

unsigned loop_over_presses(const u64 *columns, unsigned bits, u64 lit);

static void all_presses(void) {
    enum { N = 40, BITS = 28 };
    u64 columns[N];
    seed = N;
    desk_open(&fresh, N);
    dense(&fresh, N);
    for (unsigned i = 0; i < N; i++)
        if (rnd() & 1) press(&fresh, i);
    for (unsigned i = 0; i < N; i++) columns[i] = fresh.wires[i];
    double lights = 1e18, loop = 1e18;
    for (unsigned r = 0; r < 4000; r++) {
        copy(&desk, &fresh);
        Start t = start();
        out(&desk);
        stop(t, 1, &lights);
    }
    test_out(&desk);
    volatile unsigned sink = 0;
    for (unsigned r = 0; r < 3; r++) {
        Start t = start();
        sink += loop_over_presses(columns, BITS, fresh.lit[0]);
        stop(t, 1, &loop);
    }
    printf("\n(e) 40 lamps, random: out from nothing %.1f us (%s)\n", lights, kind(&desk));
    printf("    all presses, measured on 2^28 and scaled to 2^40: %.0f s, %.0f million times\n", loop * 4096 * 1e-6, loop * 4096 / lights * 1e-6);
}

static void bar(const char *what, double value, int reached) { printf("    %-46s %8.2f  %s\n", what, value, reached ? "reached" : "NOT reached"); }

int main(void) {
    static const unsigned sizes[] = {64, 256, 1024};
    static const struct { const char *name; unsigned (*wall)(Desk *, unsigned); } walls[] = {{"random", dense}, {"grid", grid}};
    static Times t[2][3];
    printf("Microseconds, minimum over repetitions. open: lights_open; wire: one wire call; (a) the first out after all wires; (b) a wire, then out;\n");
    printf("(c) a turn, then out; M4RI: [A | I] into reduced echelon form.\n\n");
    printf("wall   lamps    open   wire       (a)      M4RI       (b)      (c)  (a)/M4RI  M4RI/(b)  M4RI/(c)  answer\n");
    for (unsigned w = 0; w < 2; w++)
        for (unsigned s = 0; s < 3; s++) {
            Times *x = &t[w][s];
            *x = times(walls[w].wall, sizes[s]);
            printf("%-6s %5u %7.2f %6.3f %9.1f %9.1f %9.2f %8.2f %9.2f %9.1f %9.1f  %s\n", walls[w].name, sizes[s], x->open, x->wire, x->first, x->m4ri, x->wired, x->turned,
                   x->first / x->m4ri, x->m4ri / x->wired, x->m4ri / x->turned, x->kind);
            fflush(stdout);
        }
    printf("\nGrowth\nwall   lamps            (a)      M4RI       (b)      (c)\n");
    for (unsigned w = 0; w < 2; w++)
        for (unsigned s = 1; s < 3; s++) {
            const Times *x = &t[w][s], *y = &t[w][s - 1];
            printf("%-6s %4u to %4u %9.1f %9.1f %9.1f %8.1f\n", walls[w].name, sizes[s - 1], sizes[s], x->first / y->first, x->m4ri / y->m4ri, x->wired / y->wired, x->turned / y->turned);
        }
    double d = ways();
    all_presses();
    printf("\nBars, at 1,024 lamps\n");
    for (unsigned w = 0; w < 2; w++) {
        const Times *x = &t[w][2];
        printf("  %s\n", walls[w].name);
        bar("(a) from nothing, times M4RI, at most 2.5", x->first / x->m4ri, x->first <= 2.5 * x->m4ri);
        bar("(b) a wire, times faster, at least 8", x->m4ri / x->wired, x->m4ri >= 8 * x->wired);
        bar("(c) a turn, times faster, at least 50", x->m4ri / x->turned, x->m4ri >= 50 * x->turned);
    }
    printf("  65,536 ways\n");
    bar("(d) fewest, times a plain C loop, at most 2", d, d <= 2);
    return 0;
}
