/* Five lamps in a row, the first and the last of them on: which buttons put all out? */
#include <stdio.h>

#include "lights.h"

enum { LAMPS = 5 };

/* The memory of the board. */
static uint64_t wires[LIGHTS_TABLE_WORDS(LAMPS)], rows[LIGHTS_TABLE_WORDS(LAMPS)], done[LIGHTS_TABLE_WORDS(LAMPS)];
static uint16_t pivots[LAMPS];
static uint64_t lit[LIGHTS_ROW_WORDS(LAMPS)], marks[LIGHTS_ROW_WORDS(LAMPS)];

#define SLICE(s) s, sizeof s / sizeof s[0]
#define MEMORY SLICE(wires), SLICE(rows), SLICE(done), SLICE(pivots), SLICE(lit), SLICE(marks)

static unsigned two(const uint8_t *bytes) { return bytes[0] + 256u * bytes[1]; }

static void say(const char *what, const uint8_t *answer) {
    static const char *const says[] = {"refused", "number", "lit", "fewest presses", "some presses", "never, by"};
    printf("%s: %s ", what, says[answer[0]]);
    if (answer[0] == LIGHTS_SAYS_REFUSED) {
        printf("%u at %u\n", answer[1], two(answer + 2));
    } else if (answer[0] == LIGHTS_SAYS_NUMBER) {
        printf("%u\n", two(answer + 1));
    } else {
        for (unsigned i = 0; i < two(answer + 1); i++) {
            putchar('0' + (answer[3 + i / 8] >> i % 8 & 1));
        }
        putchar('\n');
    }
}

/* Performs a call and prints what is answered; a call has at most two lamps. */
static int ask(const char *what, uint8_t call, unsigned lamps, unsigned i, unsigned j) {
    uint8_t bytes[5] = {call, i & 255, i >> 8, j & 255, j >> 8};
    uint8_t answer[LIGHTS_ANSWER_BYTES(LAMPS)];
    int64_t r = lights_call(LAMPS, MEMORY, bytes, 1 + 2 * lamps, SLICE(answer));
    if (r < 0) {
        printf("%s: refused %u at %u\n", what, LIGHTS_REFUSAL(r), LIGHTS_PLACE(r));
        return 0;
    }
    say(what, answer);
    return 1;
}

int main(void) {
    int64_t none = lights_words(LIGHTS_MOST + 1);
    printf("a board of %d lamps: refused %u at %u\n", LIGHTS_MOST + 1, LIGHTS_REFUSAL(none), LIGHTS_PLACE(none));
    int64_t more = lights_open(LAMPS + 1, MEMORY);
    printf("six lamps in the memory of five: refused %u at %u\n", LIGHTS_REFUSAL(more), LIGHTS_PLACE(more));
    if (lights_words(LAMPS) != LIGHTS_TABLE_WORDS(LAMPS) || lights_open(LAMPS, MEMORY) != LAMPS) {
        return 1;
    }
    for (unsigned i = 0; i + 1 < LAMPS; i++) {
        ask("wire", LIGHTS_WIRE, 2, i, i + 1);
    }
    ask("wire to itself", LIGHTS_WIRE, 2, 3, 3);
    ask("turn", LIGHTS_TURN, 1, 0, 0);
    ask("turn", LIGHTS_TURN, 1, 4, 0);
    ask("lit", LIGHTS_LIT, 0, 0, 0);
    ask("out", LIGHTS_OUT, 0, 0, 0);
    ask("ways", LIGHTS_WAYS, 0, 0, 0);
    ask("turn", LIGHTS_TURN, 1, 4, 0);
    ask("out", LIGHTS_OUT, 0, 0, 0);
    ask("ways", LIGHTS_WAYS, 0, 0, 0);
    return 0;
}
