/*
 * Times the calls beside the turns, each beside what it is measured against, in one run: the least of interleaved
 * rounds, one thread.
 */
#define _GNU_SOURCE
#include <stdio.h>
#include <stdlib.h>
#include <string.h>
#include <time.h>

#include "zibsnarda.h"

enum { ROUNDS = 21 };

static double now(void) {
    struct timespec t;
    clock_gettime(CLOCK_MONOTONIC, &t);
    return (double)t.tv_sec * 1e9 + (double)t.tv_nsec;
}

static void repeats(size_t m, size_t n) {
    double least = 1e18;
    struct zib_home home = {0, 0};
    for (int round = 0; round < ROUNDS; round++) {
        double start = now();
        home = zib_repeats(m, n);
        double took = now() - start;
        if (took < least) least = took;
    }
    printf("%-30s%10.2f ms, %.2f ns a repeat, count %zu\n", "repeats, 266 by 3942", least / 1e6, least / (double)home.count, home.count);
}

enum { MOST_WORDS = 1 << 20 };
static _Alignas(64) uint32_t block[MOST_WORDS], other[MOST_WORDS], column[4096];

static uint32_t refusals; /* any number that came back */

/* Removing and adding a camera's column beside memmove of the block, as multiples of it. */
static void cameras(size_t frames, size_t count) {
    size_t words = frames * count, turns = 200000 / words + 1;
    double least[3] = {1e18, 1e18, 1e18};
    for (int round = 0; round < ROUNDS; round++) {
        double took[3] = {0, 0, 0};
        for (size_t k = 0; k < turns; k++) {
            double start = now();
            memmove(other, block, words * sizeof *block);
            __asm__ volatile("" ::: "memory");
            double moved = now();
            refusals |= zib_remove_camera(block, words, frames, count, count / 2);
            double removed = now();
            refusals |= zib_add_camera(block, words, frames, count - 1, count / 2, column, frames);
            double added = now();
            took[0] += moved - start;
            took[1] += removed - moved;
            took[2] += added - removed;
        }
        for (int w = 0; w < 3; w++)
            if (took[w] < least[w]) least[w] = took[w];
    }
    double all = (double)(turns * words);
    printf("cameras, %4zu by %4zu: memmove %6.3f ns a word, remove %6.3f (%.1f times), add %6.3f (%.1f times)\n", frames, count,
           least[0] / all, least[1] / all, least[1] / least[0], least[2] / all, least[2] / least[0]);
}

static _Alignas(64) uint32_t band[64 * 4096];

static size_t less(size_t a, size_t b) { return a < b ? a : b; }

/* The block to tiles, or back, by a second block: run by run into it, then copied back. */
static void tiles_copied(size_t m, size_t n, size_t r, size_t s, int into) {
    size_t at = 0;
    for (size_t top = 0; top < m; top += r)
        for (size_t left = 0; left < n; left += s)
            for (size_t i = top; i < less(m, top + r); i++) {
                size_t run = less(s, n - left), from = i * n + left;
                if (into)
                    memcpy(other + at, block + from, run * sizeof *block);
                else
                    memcpy(other + from, block + at, run * sizeof *block);
                at += run;
            }
    __asm__ volatile("" ::: "memory");
    memcpy(block, other, m * n * sizeof *block);
    __asm__ volatile("" ::: "memory");
}

/* Tiles, there and back, beside an out-of-place copy with copy back, as multiples of it. */
static void tiles(size_t m, size_t n, size_t r, size_t s) {
    size_t words = m * n, turns = 200000 / words + 1;
    double least[4] = {1e18, 1e18, 1e18, 1e18};
    for (int round = 0; round < ROUNDS; round++) {
        double took[4] = {0, 0, 0, 0};
        for (size_t k = 0; k < turns; k++) {
            double start = now();
            tiles_copied(m, n, r, s, 1);
            double copied = now();
            tiles_copied(m, n, r, s, 0);
            double copied_back = now();
            refusals |= zib_to_tiles(block, words, band, r * n, m, n, r, s);
            double tiled = now();
            refusals |= zib_from_tiles(block, words, band, r * n, m, n, r, s);
            double end = now();
            took[0] += copied - start;
            took[1] += copied_back - copied;
            took[2] += tiled - copied_back;
            took[3] += end - tiled;
        }
        for (int w = 0; w < 4; w++)
            if (took[w] < least[w]) least[w] = took[w];
    }
    double all = (double)(turns * words);
    printf("tiles, %4zu by %4zu in %2zu by %2zu: copied %6.3f and back %6.3f ns a word, to tiles %6.3f (%.2f times), from tiles %6.3f (%.2f times)\n",
           m, n, r, s, least[0] / all, least[1] / all, least[2] / all, least[2] / least[0], least[3] / all, least[3] / least[1]);
}

/* The longest result sheet, 1,024 rows of one word of ten digits, written and read back, beside memmove of its bytes. */
static void results(void) {
    static uint8_t text[16384], copy[16384];
    struct zib_sheet_shape shape = {{1024, 1, 1, 1}};
    double least[3] = {1e18, 1e18, 1e18};
    size_t bytes = 0;
    for (size_t k = 0; k < 1024; k++) column[k] = UINT32_MAX;
    for (int round = 0; round < ROUNDS; round++) {
        double start = now();
        bytes = zib_write_result(shape, 23, column, 1024, text, sizeof text).count;
        double written = now();
        refusals |= zib_read_result(text, bytes, other, 1024).number;
        double read = now();
        memmove(copy, text, bytes);
        __asm__ volatile("" ::: "memory");
        double took[3] = {written - start, read - written, now() - read};
        for (int w = 0; w < 3; w++)
            if (took[w] < least[w]) least[w] = took[w];
    }
    if (bytes == 0) {
        fputs("the result sheet was refused\n", stderr);
        exit(1);
    }
    printf("result sheet of %zu bytes: written %6.3f ns a byte, read back %6.3f, memmove %6.3f\n", bytes, least[0] / (double)bytes,
           least[1] / (double)bytes, least[2] / (double)bytes);
}

/* A block of five axes whose first two and last two are exchanged: copied to another buffer so laid out and back as it then stands, and by the chain 0, 3. */
static void five(size_t d0, size_t d1, size_t d2, size_t d3, size_t d4) {
    struct zib_shape shape = {{d0, d1, d2, d3, d4}};
    static const size_t swaps[2] = {0, 3};
    size_t words = d0 * d1 * d2 * d3 * d4;
    double least[2] = {1e18, 1e18};
    uint32_t refused = 0;
    for (int round = 0; round < ROUNDS; round++) {
        double start = now();
        const uint32_t *from = block;
        for (size_t a = 0; a < d0; a++)
            for (size_t b = 0; b < d1; b++)
                for (size_t c = 0; c < d2; c++)
                    for (size_t d = 0; d < d3; d++)
                        for (size_t e = 0; e < d4; e++) other[(((b * d0 + a) * d2 + c) * d4 + e) * d3 + d] = *from++;
        memcpy(block, other, words * sizeof *block);
        __asm__ volatile("" ::: "memory");
        double copied = now();
        refused |= zib_chain5(block, words, column, 4096, shape, swaps, 2).number;
        double run = now();
        if (copied - start < least[0]) least[0] = copied - start;
        if (run - copied < least[1]) least[1] = run - copied;
    }
    if (refused) {
        fputs("five axes were refused\n", stderr);
        exit(1);
    }
    printf("five axes, %zu by %zu by %zu by %zu by %zu, chain 0, 3: copied and back %6.3f ns a word, within the buffer %6.3f (%.2f times)\n", d0, d1, d2, d3, d4,
           least[0] / (double)words, least[1] / (double)words, least[1] / least[0]);
}

/* The right list of the cycles of m by n, found with a table of the offsets that were seen; how many words it has. */
static size_t right_list(size_t m, size_t n, uint32_t *list) {
    static unsigned char seen[MOST_WORDS];
    size_t last = m * n - 1, count = 0;
    memset(seen, 0, sizeof seen);
    for (size_t x = 0; x <= last; x++) {
        size_t at = x, length = 0;
        if (seen[x]) continue;
        for (; !seen[at]; length++) {
            seen[at] = 1;
            if (at < last) at = at * m % last;
        }
        list[count++] = (uint32_t)x;
        list[count++] = (uint32_t)length;
    }
    return count;
}

/* Judging the right list of cycles, and running it, which judges it too. */
static void cycles(size_t m, size_t n) {
    static uint32_t list[2 * MOST_WORDS];
    size_t count = right_list(m, n, list);
    double least[2] = {1e18, 1e18};
    uint32_t refused = 0;
    for (int round = 0; round < ROUNDS; round++) {
        double start = now();
        refused |= zib_judge_cycles(list, count, m, n).number;
        double judged = now();
        refused |= zib_run_cycles(list, count, block, m * n, m, n).number;
        double run = now();
        if (judged - start < least[0]) least[0] = judged - start;
        if (run - judged < least[1]) least[1] = run - judged;
    }
    printf("cycles, %4zu by %4zu: %zu pairs judged in %.2f ms, %.2f ns a word; run in %.2f ms, %.2f ns a word%s\n", m, n, count / 2,
           least[0] / 1e6, least[0] / (double)(m * n), least[1] / 1e6, least[1] / (double)(m * n), refused ? "; REFUSED" : "");
}

int main(void) {
    printf("\nOther calls, least of %d rounds\n", ROUNDS);
    repeats(266, 3942); /* the longest count of any block */
    cameras(64, 16);
    cameras(1000, 16);
    cameras(1000, 1000);
    cameras(4096, 256);
    tiles(1080, 960, 64, 64);
    tiles(1000, 1047, 16, 16);
    tiles(64, 16, 8, 8);
    results();
    five(2, 64, 16, 16, 32);
    cycles(1000, 1047);
    cycles(1024, 1024);
    return refusals != 0;
}
