/*
 * Times swaps of adjacent axes and whole plans on blocks of four axes, beside an out-of-place copy with the same order copied back and beside FFTW's
 * in-place tensor of rank 0, where it has a plan. Every result is compared with a plain one first; the repetitions are interleaved, and before
 * each timed stretch the block is filled anew. One thread.
 *
 * Usage: chains --equal             compare only
 *        chains TITLE PLOT          compare, time, print the table, write the plot
 */
#define _GNU_SOURCE
#include <math.h>
#include <stdint.h>
#include <stdio.h>
#include <stdlib.h>
#include <string.h>
#include <time.h>

#ifdef RIVALS
#include <fftw3.h>
#endif

#include "zibsnarda.h"

enum { AXES = 4, MOST_WORDS = 1 << 20, LONGEST = 4096, ROUNDS = 21, STRETCH = 200000 /* words in a timed stretch, at least */, CASES = 28 };

/* a case: the lengths, and the swap, or the order by its number where there is none */
struct task {
    size_t lengths[AXES];
    int swap;
    size_t order;
};

static const size_t blocks[6][AXES] = {{64, 16, 16, 16}, {64, 15, 16, 16}, {16, 64, 256, 4}, {3, 100, 90, 37}, {4096, 4, 64, 1}, {2, 2, 2, 4096}};
/* of these swap 1 alone: sides that do not halve to squares, with few and with many places */
static const size_t odd[4][AXES] = {{1, 64, 15, 4}, {1, 500, 523, 4}, {1, 1000, 131, 8}, {1, 100, 90, 16}};
static struct task tasks[CASES];
static struct task now_at; /* the case of this round */

static size_t words;
static size_t outer, m, n, chunk; /* of a swap: the axes before it, the two, the words after them */
static size_t stands[AXES];       /* which axis stands at each place afterwards */
static _Alignas(64) uint32_t block[MOST_WORDS], other[MOST_WORDS], before[MOST_WORDS], after[MOST_WORDS];
static uint32_t scratch[LONGEST];

static void make_tasks(void) {
    static const size_t orders[3] = {9, 16, 23};
    size_t at = 0;
    for (size_t b = 0; b < 6; b++)
        for (int k = 0; k < 3; k++) {
            memcpy(tasks[at].lengths, blocks[b], sizeof blocks[b]);
            tasks[at++].swap = k;
        }
    for (size_t b = 0; b < 4; b++) {
        memcpy(tasks[at].lengths, odd[b], sizeof odd[b]);
        tasks[at++].swap = 1;
    }
    for (size_t b = 0; b < 6; b += 3)
        for (size_t k = 0; k < 3; k++) {
            memcpy(tasks[at].lengths, blocks[b], sizeof blocks[b]);
            tasks[at].swap = -1;
            tasks[at++].order = orders[k];
        }
}

/* order number k of four axes, in dictionary order */
static void order_of(size_t k, size_t *axes) {
    size_t left[AXES] = {0, 1, 2, 3}, count = AXES, ways = 6;
    for (size_t place = 0; place < AXES; place++) {
        size_t pick = k / ways;
        axes[place] = left[pick];
        memmove(left + pick, left + pick + 1, (--count - pick) * sizeof *left);
        k %= ways;
        ways = count > 1 ? ways / count : 1;
    }
}

static void copied(void) { memcpy(other, block, words * sizeof *block); }

/* A swap out of place: the plain loop over words, or over chunks where there are words after the two axes. */
static void swap_copied(void) {
    if (chunk == 1) {
        for (size_t e = 0; e < outer; e++)
            for (size_t i = 0; i < m; i++)
                for (size_t j = 0; j < n; j++) other[e * m * n + j * m + i] = block[e * m * n + i * n + j];
    } else {
        for (size_t e = 0; e < outer; e++)
            for (size_t i = 0; i < m; i++)
                for (size_t j = 0; j < n; j++) memcpy(other + ((e * n + j) * m + i) * chunk, block + ((e * m + i) * n + j) * chunk, chunk * sizeof *block);
    }
    memcpy(block, other, words * sizeof *block);
}

/* An order out of place: the words in their old order, each to where its axes stand. */
static void order_copied(void) {
    const size_t *d = now_at.lengths;
    size_t step[AXES], far = 1;
    for (size_t place = AXES; place-- > 0;) {
        step[stands[place]] = far;
        far *= d[stands[place]];
    }
    const uint32_t *from = block;
    for (size_t a = 0; a < d[0]; a++)
        for (size_t b = 0; b < d[1]; b++)
            for (size_t c = 0; c < d[2]; c++) {
                uint32_t *to = other + a * step[0] + b * step[1] + c * step[2];
                for (size_t e = 0; e < d[3]; e++) to[e * step[3]] = *from++;
            }
    memcpy(block, other, words * sizeof *block);
}

static void out_of_place(void) {
    if (now_at.swap < 0)
        order_copied();
    else
        swap_copied();
}

static struct zib_shape shape_now(void) {
    struct zib_shape shape = {{0}};
    memcpy(shape.lengths, now_at.lengths, sizeof now_at.lengths);
    return shape;
}

static void zibsnarda(void) {
    size_t swap = (size_t)now_at.swap;
    struct zib_answer a = now_at.swap < 0 ? zib_request(block, words, scratch, LONGEST, shape_now(), 1, now_at.order)
                                          : zib_chain(block, words, scratch, LONGEST, shape_now(), &swap, 1);
    if (a.number) {
        fprintf(stderr, "refused: %u\n", a.number);
        exit(1);
    }
}

#ifdef EARLIER
/* the same calls of an earlier revision, renamed in its archive by bench/compare */
struct zib_answer earlier_chain(uint32_t *, size_t, uint32_t *, size_t, struct zib_shape, const size_t *, size_t);
struct zib_answer earlier_request(uint32_t *, size_t, uint32_t *, size_t, struct zib_shape, size_t, size_t);
static void earlier(void) {
    size_t swap = (size_t)now_at.swap;
    if (now_at.swap < 0)
        earlier_request(block, words, scratch, LONGEST, shape_now(), 1, now_at.order);
    else
        earlier_chain(block, words, scratch, LONGEST, shape_now(), &swap, 1);
}
#endif

#ifdef RIVALS
static fftwf_plan estimated, measured;

static void fftw_estimate(void) { fftwf_execute(estimated); }
static void fftw_measure(void) { fftwf_execute(measured); }

static fftwf_plan plan(unsigned how) {
    const size_t *d = now_at.lengths;
    fftwf_iodim64 dims[AXES];
    ptrdiff_t far = 1;
    for (size_t axis = AXES; axis-- > 0;) {
        dims[axis].n = (ptrdiff_t)d[axis];
        dims[axis].is = far;
        far *= (ptrdiff_t)d[axis];
    }
    far = 1;
    for (size_t place = AXES; place-- > 0;) {
        dims[stands[place]].os = far;
        far *= (ptrdiff_t)d[stands[place]];
    }
    return fftwf_plan_guru64_r2r(0, NULL, AXES, dims, (float *)block, (float *)block, NULL, how);
}

static void make_plans(void) {
    if (estimated) fftwf_destroy_plan(estimated);
    if (measured) fftwf_destroy_plan(measured);
    estimated = plan(FFTW_ESTIMATE);
    measured = plan(FFTW_MEASURE);
}
#else
static void make_plans(void) {}
#endif

static const struct method {
    const char *name, *colour;
    void (*run)(void);
} methods[] = {
    {"memcpy of the block (limit)", "#999999", copied},
    {"zibsnarda", "#d62728", zibsnarda},
    {"out of place, copied back", "#1f77b4", out_of_place},
#ifdef RIVALS
    {"FFTW in place, ESTIMATE", "#98df8a", fftw_estimate},
    {"FFTW in place, MEASURE", "#2ca02c", fftw_measure},
#endif
#ifdef EARLIER
    {"before", "#000000", earlier},
#endif
};
enum { METHODS = sizeof methods / sizeof methods[0], OURS = 1, COPY = 2 };
static double least[METHODS][CASES]; /* ns a word; 0 where a method has no way */

/* FFTW has no plan for some tensors in place. */
static int has_way(size_t w) {
#ifdef RIVALS
    if (methods[w].run == fftw_estimate) return estimated != NULL;
    if (methods[w].run == fftw_measure) return measured != NULL;
#endif
    (void)w;
    return 1;
}

static void take(size_t t) {
    now_at = tasks[t];
    words = 1;
    for (size_t a = 0; a < AXES; a++) words *= now_at.lengths[a];
    if (now_at.swap < 0)
        order_of(now_at.order, stands);
    else {
        size_t k = (size_t)now_at.swap;
        outer = chunk = 1;
        for (size_t a = 0; a < AXES; a++) {
            stands[a] = a == k ? k + 1 : a == k + 1 ? k : a;
            if (a < k) outer *= now_at.lengths[a];
            if (a > k + 1) chunk *= now_at.lengths[a];
        }
        m = now_at.lengths[k], n = now_at.lengths[k + 1];
    }
    make_plans(); /* first, for planning overwrites the block */
    for (size_t k = 0; k < words; k++) { /* words that are plain floats too */
        float v = (float)k;
        memcpy(&before[k], &v, sizeof v);
    }
    memcpy(block, before, words * sizeof *block);
    order_copied();
    memcpy(after, block, words * sizeof *block);
}

static int equal(size_t w) {
    memcpy(block, before, words * sizeof *block);
    memset(other, 0, words * sizeof *other);
    methods[w].run();
    return memcmp(w == 0 ? other : block, w == 0 ? before : after, words * sizeof *block) == 0;
}

static double now(void) {
    struct timespec t;
    clock_gettime(CLOCK_MONOTONIC, &t);
    return (double)t.tv_sec * 1e9 + (double)t.tv_nsec;
}

static double stretch(size_t w) {
    size_t turns = STRETCH / words + 1;
    memcpy(block, before, words * sizeof *block);
    double start = now();
    for (size_t k = 0; k < turns; k++) {
        methods[w].run();
        __asm__ volatile("" ::: "memory"); /* so that no copy is dropped as unused */
    }
    return (now() - start) / (double)(turns * words);
}

static void measure(size_t t) {
    for (size_t round = 0; round < ROUNDS; round++)
        for (size_t w = 0; w < METHODS; w++) {
            if (!has_way(w)) continue;
            double took = stretch(w);
            if (round == 0 || took < least[w][t]) least[w][t] = took;
        }
}

static void name_of(size_t t, char *name, size_t room) {
    const size_t *d = tasks[t].lengths;
    int at = snprintf(name, room, "%zux%zux%zux%zu ", d[0], d[1], d[2], d[3]);
    if (tasks[t].swap < 0)
        snprintf(name + at, room - (size_t)at, "order %zu", tasks[t].order);
    else
        snprintf(name + at, room - (size_t)at, "swap %d", tasks[t].swap);
}

static double ratio(size_t t) { return least[OURS][t] / least[COPY][t]; }

/* the words after the two axes; 0 for an order */
static size_t chunk_of(size_t t) {
    size_t c = tasks[t].swap < 0 ? 0 : 1;
    for (size_t a = (size_t)(tasks[t].swap + 2); a < AXES; a++) c *= tasks[t].lengths[a];
    return c;
}

/* the greatest ratio to the copy among the swaps whose chunks have so many words */
static double worst(size_t from, size_t to) {
    double most = 0;
    for (size_t t = 0; t < CASES; t++)
        if (chunk_of(t) >= from && chunk_of(t) <= to) most = fmax(most, ratio(t));
    return most;
}

static void report(const char *title) {
    printf("\nSwaps and plans on four axes. %s\n%d rounds, interleaved; one thread; ns a word, least; all results compared first.\n\n%-28s%8s", title, ROUNDS, "", "chunk");
    for (size_t w = 0; w < METHODS; w++) printf("  %s", methods[w].name);
    printf("  times the copy\n");
    for (size_t t = 0; t < CASES; t++) {
        char name[64];
        name_of(t, name, sizeof name);
        printf("%-28s%8zu", name, chunk_of(t));
        for (size_t w = 0; w < METHODS; w++) {
            int wide = (int)strlen(methods[w].name) + 2;
            if (least[w][t] > 0)
                printf("%*.3f", wide, least[w][t]);
            else
                printf("%*s", wide, "no plan");
        }
        printf("%16.2f\n", ratio(t));
    }
    printf("\nThe most times the copy: %.2f where chunks have 16 words or more (goal 1.2 on x86-64), %.2f from 4 to 15 (goal 1.7); 64x16x16x16 swap 2: %.2f (goal 1.6)\n",
           worst(16, MOST_WORDS), worst(4, 15), ratio(2));
}

/* the plot: cases across, ns a word upwards on a logarithmic scale */
enum { WIDTH = 1240, HEIGHT = 640, LEFT = 70, RIGHT = 990, TOP = 50, BOTTOM = 470 };
static double low, high;

static double across(size_t t) { return LEFT + 20 + (double)t * (RIGHT - LEFT - 40) / (CASES - 1); }
static double up(double v) { return BOTTOM - (log10(v) - low) / (high - low) * (BOTTOM - TOP); }

static int write_plot(const char *path, const char *title) {
    FILE *f = fopen(path, "w");
    if (!f) return 1;
    low = 9, high = -9;
    for (size_t w = 0; w < METHODS; w++)
        for (size_t t = 0; t < CASES; t++)
            if (least[w][t] > 0) low = fmin(low, floor(log10(least[w][t]))), high = fmax(high, ceil(log10(least[w][t])));
    fprintf(f, "<svg xmlns='http://www.w3.org/2000/svg' width='%d' height='%d' font-family='sans-serif' font-size='13'>\n", WIDTH, HEIGHT);
    fprintf(f, "<rect width='100%%' height='100%%' fill='white'/>\n<text x='%d' y='26'>Swaps and plans on four axes, ns a word, least. %s</text>\n", LEFT, title);
    for (double p = low; p <= high; p++) {
        fprintf(f, "<line x1='%d' x2='%d' y1='%.1f' y2='%.1f' stroke='#ccc'/>\n", LEFT, RIGHT, up(pow(10, p)), up(pow(10, p)));
        fprintf(f, "<text x='%d' y='%.1f' text-anchor='end'>%g</text>\n", LEFT - 8, up(pow(10, p)) + 4, pow(10, p));
    }
    for (size_t t = 0; t < CASES; t++) {
        char name[64];
        name_of(t, name, sizeof name);
        fprintf(f, "<text x='%.1f' y='%d' text-anchor='end' font-size='11' transform='rotate(-55 %.1f %d)'>%s</text>\n", across(t) + 4, BOTTOM + 16, across(t) + 4, BOTTOM + 16, name);
    }
    for (size_t w = 0; w < METHODS; w++) {
        for (size_t t = 0; t < CASES; t++)
            if (least[w][t] > 0) fprintf(f, "<circle cx='%.1f' cy='%.1f' r='4' fill='%s'/>\n", across(t), up(least[w][t]), methods[w].colour);
        fprintf(f, "<rect x='%d' y='%d' width='16' height='10' fill='%s'/>", RIGHT + 20, TOP + 10 + 26 * (int)w, methods[w].colour);
        fprintf(f, "<text x='%d' y='%d'>%s</text>\n", RIGHT + 44, TOP + 20 + 26 * (int)w, methods[w].name);
    }
    fprintf(f, "</svg>\n");
    return fclose(f) != 0;
}

int main(int count, char **given) {
    int timed = count == 3;
    if (!timed && !(count == 2 && strcmp(given[1], "--equal") == 0)) {
        fprintf(stderr, "usage: chains --equal | chains TITLE PLOT\n");
        return 2;
    }
    make_tasks();
    for (size_t t = 0; t < CASES; t++) {
        take(t);
        for (size_t w = 0; w < METHODS; w++)
            if (has_way(w) && !equal(w)) {
                char name[64];
                name_of(t, name, sizeof name);
                printf("%s is wrong at %s\n", methods[w].name, name);
                return 1;
            }
        if (timed) measure(t);
    }
    if (!timed) {
        printf("%d methods agree on %d cases\n", METHODS, CASES);
        return 0;
    }
    report(given[1]);
    return write_plot(given[2], given[1]);
}
