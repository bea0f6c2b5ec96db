/* What the benchmark measures and what it found. */
#ifndef BENCH_H
#define BENCH_H

#include <stddef.h>
#include <stdint.h>

enum { SHAPES = 18, MOST_METHODS = 14 };

struct shape {
    size_t m, n;
};

struct method {
    const char *name;
    const char *memory; /* beside the block */
    const char *colour; /* in the plot */
    void (*run)(void);  /* on `block`, for the shape of this round */
    enum { TURNS, TURNS_BACK, COPIES } kind;
};

/* ns a word: the smallest and the median of the repetitions. */
struct found {
    double least, median;
};

extern const struct shape shapes[SHAPES];
extern const struct method methods[];
extern const size_t method_count;
extern struct found found[MOST_METHODS][SHAPES];

int write_plot(const char *path, const char *title);

#endif
