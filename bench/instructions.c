/*
 * Makes one call of the library as often as asked, for bench/instructions, which counts what a call more costs.
 * Usage: instructions CALL M N TIMES
 */
#include <stdint.h>
#include <stdlib.h>
#include <string.h>

#include "zibsnarda.h"

static uint32_t block[1 << 20], scratch[4096], column[4096];

static uint32_t turn(size_t m, size_t n) { return zib_turn(block, m * n, scratch, m > n ? m : n, m, n); }
static uint32_t back(size_t m, size_t n) { return zib_turn_back(block, m * n, scratch, m > n ? m : n, m, n); }
static uint32_t halves(size_t m, size_t n) { return zib_turn_halves(block, m * n, m, n); }
static uint32_t remove_camera(size_t m, size_t n) { return zib_remove_camera(block, m * n, m, n, n / 2); }
static uint32_t add_camera(size_t m, size_t n) { return zib_add_camera(block, m * n, m, n - 1, n / 2, column, m); }

/* one swap of an m by n block of chunks */
static uint32_t swap(size_t m, size_t n, size_t chunk) {
    static const size_t middle[1] = {1};
    struct zib_shape shape = {{1, m, n, chunk, 0}};
    return zib_chain(block, m * n * chunk, scratch, m > n ? m : n, shape, middle, 1).number;
}
static uint32_t swap_fours(size_t m, size_t n) { return swap(m, n, 4); }
static uint32_t swap_sixteens(size_t m, size_t n) { return swap(m, n, 16); }

static const struct {
    const char *name;
    uint32_t (*make)(size_t m, size_t n);
} calls[] = {{"turn", turn}, {"back", back}, {"halves", halves}, {"remove", remove_camera}, {"add", add_camera}, {"swap4", swap_fours}, {"swap16", swap_sixteens}};

int main(int count, char **words) {
    if (count != 5) return 2;
    size_t k = 0;
    while (k < sizeof calls / sizeof *calls && strcmp(calls[k].name, words[1]) != 0) k++;
    if (k == sizeof calls / sizeof *calls) return 2;
    size_t m = strtoul(words[2], NULL, 10), n = strtoul(words[3], NULL, 10);
    uint32_t number = 0;
    for (long times = strtol(words[4], NULL, 10); times > 0; times--) number |= calls[k].make(m, n);
    return number != 0;
}
