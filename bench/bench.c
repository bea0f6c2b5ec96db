/*
 * Times the turns of the library beside other ways to turn a block, and beside a mere copy of it.
 *
 * Every method's result is compared with a plain out-of-place turn before anything is timed. The repetitions are
 * interleaved: each round runs every method once, so that a slow spell of the machine hits all of them. Before each
 * timed stretch the block is filled anew, so it is as warm as its size allows. Small blocks are turned many times in
 * one stretch. One thread.
 *
 * Usage: bench --equal             compare only
 *        bench TITLE PLOT          compare, time, print the tables, write the plot
 */
#define _GNU_SOURCE
#include <stdio.h>
#include <stdlib.h>
#include <string.h>
#include <time.h>

#ifdef RIVALS
#include <cblas.h>
#include <fftw3.h>
#endif

#include "bench.h"
#include "zibsnarda.h"

enum { MOST_WORDS = 1 << 20, LONGEST = 4096, ROUNDS = 21, STRETCH = 200000 /* words in a timed stretch, at least */ };

const struct shape shapes[SHAPES] = {{64, 15},   {64, 16},   {60, 15},     {50, 16},     {100, 15},   {32, 16},
                                     {40, 40},   {720, 64},  {256, 256},   {2, 4096},    {16, 4096},  {4096, 16},
                                     {1000, 1000}, {1024, 1024}, {4096, 256}, {256, 4096}, {1000, 1047}, {1920, 544}};
struct found found[MOST_METHODS][SHAPES];

static size_t m, n; /* the shape of this round */
static _Alignas(64) uint32_t block[MOST_WORDS], other[MOST_WORDS], before[MOST_WORDS], after[MOST_WORDS];
static uint32_t scratch[LONGEST];
static unsigned char seen[MOST_WORDS / 8 + 1];

static void copied(void) { memcpy(other, block, m * n * sizeof *block); }

static void out_of_place(void) {
    for (size_t i = 0; i < m; i++)
        for (size_t j = 0; j < n; j++) other[j * m + i] = block[i * n + j];
    memcpy(block, other, m * n * sizeof *block);
}

/* Where the word comes from that the turn puts at an offset. */
static size_t source(size_t at) { return at % m * n + at / m; }

static void follow(size_t start, int marks) {
    uint32_t first = block[start];
    size_t at = start;
    for (;;) {
        size_t from = source(at);
        if (marks) seen[at / 8] |= 1 << at % 8;
        if (from == start) break;
        block[at] = block[from];
        at = from;
    }
    block[at] = first;
}

/* Without a table a cycle is followed from its least offset, so each offset is first shown to be one or not. */
static void cycles(void) {
    for (size_t start = 0; start < m * n; start++) {
        size_t at = source(start);
        while (at > start) at = source(at);
        if (at == start) follow(start, 0);
    }
}

static void cycles_with_table(void) {
    memset(seen, 0, m * n / 8 + 1);
    for (size_t start = 0; start < m * n; start++)
        if (!(seen[start / 8] & 1 << start % 8)) follow(start, 1);
}

static uint32_t refused; /* any number that came back */

static void strips(void) { refused |= zib_turn(block, m * n, scratch, LONGEST, m, n); }
static void reverse(void) { refused |= zib_turn_back(block, m * n, scratch, LONGEST, m, n); }
static void passes(void) { refused |= zib_turn_passes(block, m * n, scratch, LONGEST, m, n); }
static void passes_back(void) { refused |= zib_turn_back_passes(block, m * n, scratch, LONGEST, m, n); }
static void halves(void) { refused |= zib_turn_halves(block, m * n, m, n); }

#ifdef EARLIER
/* the same calls of an earlier revision, renamed in its archive by bench/compare */
uint32_t earlier_turn(uint32_t *, size_t, uint32_t *, size_t, size_t, size_t);
uint32_t earlier_turn_back(uint32_t *, size_t, uint32_t *, size_t, size_t, size_t);
static void earlier_there(void) { earlier_turn(block, m * n, scratch, LONGEST, m, n); }
static void earlier_back(void) { earlier_turn_back(block, m * n, scratch, LONGEST, m, n); }
#endif

#ifdef RIVALS
static fftwf_plan estimated, measured;

static void fftw_estimate(void) { fftwf_execute(estimated); }
static void fftw_measure(void) { fftwf_execute(measured); }
static void openblas(void) { cblas_simatcopy(CblasRowMajor, CblasTrans, m, n, 1.0f, (float *)block, n, m); }

static fftwf_plan plan(unsigned how) {
    fftwf_iodim64 dims[2] = {{(ptrdiff_t)m, (ptrdiff_t)n, 1}, {(ptrdiff_t)n, 1, (ptrdiff_t)m}};
    return fftwf_plan_guru64_r2r(0, NULL, 2, dims, (float *)block, (float *)block, NULL, how);
}

static void make_plans(void) {
    if (estimated) fftwf_destroy_plan(estimated);
    if (measured) fftwf_destroy_plan(measured);
    estimated = plan(FFTW_ESTIMATE);
    measured = plan(FFTW_MEASURE);
    if (!estimated || !measured) {
        fprintf(stderr, "FFTW has no plan for %zu by %zu\n", m, n);
        exit(1);
    }
}
#else
static void make_plans(void) {}
#endif

const struct method methods[] = {
    {"memcpy of the block (limit)", "the block again", "#999999", copied, COPIES},
    {"zibsnarda, strips", "1,184 words", "#d62728", strips, TURNS},
    {"zibsnarda, reverse", "1,184 words", "#ff9896", reverse, TURNS_BACK},
    {"zibsnarda, passes", "max(m, n) words", "#e377c2", passes, TURNS},
    {"zibsnarda, passes-back", "max(m, n) words", "#f7b6d2", passes_back, TURNS_BACK},
    {"zibsnarda, recursion", "call stack only", "#8c1515", halves, TURNS},
    {"out of place, copied back", "the block again", "#1f77b4", out_of_place, TURNS},
    {"cycles, no table", "none", "#9467bd", cycles, TURNS},
    {"cycles, bit table", "mn bits", "#c5b0d5", cycles_with_table, TURNS},
#ifdef RIVALS
    {"FFTW in place, ESTIMATE", "buffers of its own", "#98df8a", fftw_estimate, TURNS},
    {"FFTW in place, MEASURE", "buffers of its own", "#2ca02c", fftw_measure, TURNS},
    {"OpenBLAS simatcopy", "the block again", "#ff7f0e", openblas, TURNS},
#endif
#ifdef EARLIER
    {"before, turn", "max(m, n) words", "#000000", earlier_there, TURNS},
    {"before, back", "max(m, n) words", "#000000", earlier_back, TURNS_BACK},
#endif
};
const size_t method_count = sizeof methods / sizeof methods[0];

static void take_shape(struct shape s) {
    m = s.m, n = s.n;
    make_plans(); /* first, for planning overwrites the block */
    /* words that are plain floats too, since two of the rivals move floats */
    for (size_t k = 0; k < m * n; k++) {
        float v = (float)k;
        memcpy(&before[k], &v, sizeof v);
    }
    for (size_t i = 0; i < m; i++)
        for (size_t j = 0; j < n; j++) after[j * m + i] = before[i * n + j];
}

static void fill(const uint32_t *with) { memcpy(block, with, m * n * sizeof *block); }

static int equal(const struct method *way) {
    const uint32_t *given = way->kind == TURNS_BACK ? after : before;
    const uint32_t *wanted = way->kind == TURNS ? after : before;
    fill(given);
    memset(other, 0, m * n * sizeof *other);
    way->run();
    return memcmp(way->kind == COPIES ? other : block, wanted, m * n * sizeof *block) == 0;
}

static double now(void) {
    struct timespec t;
    clock_gettime(CLOCK_MONOTONIC, &t);
    return t.tv_sec * 1e9 + t.tv_nsec;
}

/* ns a word of one timed stretch */
static double stretch(const struct method *way) {
    size_t turns = STRETCH / (m * n) + 1;
    fill(before);
    double start = now();
    for (size_t k = 0; k < turns; k++) {
        way->run();
        __asm__ volatile("" ::: "memory"); /* so that no copy is dropped as unused */
    }
    return (now() - start) / (double)(turns * m * n);
}

static int rising(const void *a, const void *b) {
    double x = *(const double *)a, y = *(const double *)b;
    return (x > y) - (x < y);
}

static void measure(size_t shape) {
    static double times[MOST_METHODS][ROUNDS];
    for (size_t round = 0; round < ROUNDS; round++)
        for (size_t w = 0; w < method_count; w++) times[w][round] = stretch(&methods[w]);
    for (size_t w = 0; w < method_count; w++) {
        qsort(times[w], ROUNDS, sizeof times[w][0], rising);
        found[w][shape] = (struct found){times[w][0], times[w][ROUNDS / 2]};
    }
}

static double least(struct found f) { return f.least; }
static double median(struct found f) { return f.median; }
static double speed(struct found f) { return 1000 / f.least; }

static void table(const char *what, double (*value)(struct found), int decimals) {
    printf("\n%-30s", what);
    for (size_t s = 0; s < SHAPES; s++) {
        char name[48];
        snprintf(name, sizeof name, "%zux%zu", shapes[s].m, shapes[s].n);
        printf("%10s", name);
    }
    printf("\n");
    for (size_t w = 0; w < method_count; w++) {
        printf("%-30s", methods[w].name);
        for (size_t s = 0; s < SHAPES; s++) printf("%10.*f", decimals, value(found[w][s]));
        printf("\n");
    }
}

static void report(const char *title) {
    printf("%s\n%d rounds, interleaved; one thread; the block filled anew before each timed stretch; all results compared first.\n", title, ROUNDS);
    table("ns a word, least", least, 3);
    table("ns a word, median", median, 3);
    table("million words a second, best", speed, 1);
    printf("\nMemory beside the block\n");
    for (size_t w = 0; w < method_count; w++) printf("%-30s  %s\n", methods[w].name, methods[w].memory);
}

int main(int count, char **words) {
    int timed = count == 3;
    if (!timed && !(count == 2 && strcmp(words[1], "--equal") == 0)) {
        fprintf(stderr, "usage: bench --equal | bench TITLE PLOT\n");
        return 2;
    }
    for (size_t s = 0; s < SHAPES; s++) {
        take_shape(shapes[s]);
        for (size_t w = 0; w < method_count; w++)
            if (!equal(&methods[w])) {
                printf("%s is wrong at %zu by %zu\n", methods[w].name, m, n);
                return 1;
            }
        if (timed) measure(s);
    }
    if (!timed) {
        printf("%zu methods agree on %d shapes\n", method_count, SHAPES);
        return 0;
    }
    if (refused) {
        printf("a call was refused\n");
        return 1;
    }
    report(words[1]);
    return write_plot(words[2], words[1]);
}
