/*
 * Counts the steps that judging a list of cycles takes: each offset is followed until its cycle is home or a smaller offset shows, as
 * crates/cycles does. Prints steps a word; nothing is timed, so every machine prints the same.
 */
#include <stdint.h>
#include <stdio.h>

static double steps_a_word(uint64_t m, uint64_t n) {
    uint64_t steps = 0;
    for (uint64_t x = 0; x < m * n; x++) {
        uint64_t at = x;
        do {
            at = at % n * m + at / n;
            steps++;
        } while (at > x);
    }
    return (double)steps / (double)(m * n);
}

/* Sides of a large block: the next of a fixed run of numbers. */
static uint64_t drawn(uint64_t *state, uint64_t low, uint64_t high) {
    *state = *state * 6364136223846793005u + 1442695040888963407u;
    return low + (*state >> 33) % (high - low + 1);
}

int main(void) {
    enum { SHAPES = 150 };
    uint64_t state = 1, worst_m = 0, worst_n = 0;
    double worst = 0;
    printf("steps a word, 1000 by 1047: %.1f\n", steps_a_word(1000, 1047));
    printf("steps a word, 1024 by 1024: %.1f\n", steps_a_word(1024, 1024));
    for (int k = 0; k < SHAPES; k++) {
        uint64_t m = drawn(&state, 256, 4096);
        uint64_t most = 1048576 / m;
        uint64_t n = drawn(&state, most - most / 8, most);
        double steps = steps_a_word(m, n);
        if (steps > worst) worst = steps, worst_m = m, worst_n = n;
    }
    printf("steps a word, the most of %d large shapes: %.1f, %llu by %llu\n", SHAPES, worst, (unsigned long long)worst_m, (unsigned long long)worst_n);
    return 0;
}
