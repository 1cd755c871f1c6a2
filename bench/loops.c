/* The plain loops that the desk is compared with. Compiled by cc -O2, and the first also by cc -O2 -mpopcnt (as LOOP). */
#include <stdint.h>
#include <string.h>

typedef uint64_t u64;

#ifndef LOOP
#define LOOP loop_over_sets
#endif

/* The least of the sums of `way` with each of the sums of some sets, in the order of the Gray code: one row added and one row counted for each. */
unsigned LOOP(const u64 *sets, unsigned count, unsigned width, u64 *way, u64 *least) {
    unsigned best = ~0u;
    for (u64 t = 0;; ) {
        unsigned set = 0;
        for (unsigned k = 0; k < width; k++) set += __builtin_popcountll(way[k]);
        if (set < best) {
            best = set;
            memcpy(least, way, width * sizeof *way);
        }
        if (++t == (u64)1 << count) return best;
        const u64 *from = sets + __builtin_ctzll(t) * width;
        for (unsigned k = 0; k < width; k++) way[k] ^= from[k];
    }
}

#ifndef SETS_ALONE
/* How many of the first 2^bits sets of presses put all out, on at most 64 lamps. */
unsigned loop_over_presses(const u64 *columns, unsigned bits, u64 lit) {
    unsigned found = 0;
    for (u64 t = 0;; ) {
        found += lit == 0;
        if (++t == (u64)1 << bits) return found;
        lit ^= columns[__builtin_ctzll(t)];
    }
}
#endif
