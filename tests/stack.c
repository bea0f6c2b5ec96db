/*
 * How much stack the calls take: each is run on a stack of its own that was painted before, and what is no longer painted afterwards is what it
 * took, with what this file's own step to the call takes. Every call is tried on many shapes, since how deep a recursion goes depends on the
 * shape. Prints the deepest call with the numbers that it was given. Fails where a call takes more than the header says, or is refused.
 * Usage: stack MOST
 */
#include <stdio.h>
#include <stdlib.h>
#include <string.h>
#include <ucontext.h>

#include "zibsnarda.h"

enum { STACK = 1 << 18, PAINT = 0xA5, WORDS = 1 << 20, NUMBERS = 8 };

static uint32_t block[WORDS], scratch[64 * 4096], list[2 * WORDS];
static size_t list_words;
static int64_t run[4 * 1000];
static uint8_t text[16384], out[16384];
static size_t written; /* bytes of the sheet in out */
static _Alignas(64) unsigned char stack[STACK];
static ucontext_t home, away;

/* The numbers that the call is given, and what it answers. */
static size_t given[NUMBERS];
static volatile size_t answer;

/* What the header says; the calls made and those that failed; and the deepest. */
static size_t most, calls, bad;
static struct {
    size_t bytes, numbers, given[NUMBERS];
    const char *name;
} deepest;

/* Flat blocks: m and n, then what else the call takes. */
static void turn(void) { answer = zib_turn(block, given[0] * given[1], scratch, 4096, given[0], given[1]); }
static void turn_back(void) { answer = zib_turn_back(block, given[0] * given[1], scratch, 4096, given[0], given[1]); }
static void turn_passes(void) { answer = zib_turn_passes(block, given[0] * given[1], scratch, 4096, given[0], given[1]); }
static void turn_back_passes(void) { answer = zib_turn_back_passes(block, given[0] * given[1], scratch, 4096, given[0], given[1]); }
static void turn_halves(void) { answer = zib_turn_halves(block, given[0] * given[1], given[0], given[1]); }
static void lines(void) { answer = zib_lines(given[0], given[1]).number; }
static void repeats(void) { answer = zib_repeats(given[0], given[1]).number; }
static void tick(void) {
    struct zib_line_record record = {given[2]};
    answer = zib_tick(block, given[0] * given[1], scratch, 4096, &record, given[0], given[1]);
}
static void resume(void) {
    uint32_t progress = (uint32_t)given[2];
    answer = zib_resume(block, given[0] * given[1], scratch, 4096, &progress, given[0], given[1], ZIB_ENOUGH_STORES);
}
static void remove_camera(void) { answer = zib_remove_camera(block, WORDS, given[0], given[1], given[2]); }
static void add_camera(void) { answer = zib_add_camera(block, WORDS, given[0], given[1], given[2], scratch, given[0]); }
static void to_tiles(void) { answer = zib_to_tiles(block, given[0] * given[1], scratch, 64 * 4096, given[0], given[1], given[2], given[3]); }
static void from_tiles(void) { answer = zib_from_tiles(block, given[0] * given[1], scratch, 64 * 4096, given[0], given[1], given[2], given[3]); }
static void judge_cycles(void) { answer = zib_judge_cycles(list, list_words, given[0], given[1]).number; }
static void run_cycles(void) { answer = zib_run_cycles(list, list_words, block, given[0] * given[1], given[0], given[1]).number; }

/* Axes: the lengths, then a swap, or a release and an order. */
static struct zib_shape shape(size_t fifth) { return (struct zib_shape){{given[0], given[1], given[2], given[3], fifth}}; }
static size_t volume(size_t fifth) { return given[0] * given[1] * given[2] * given[3] * fifth; }
static void chain(void) { answer = zib_chain(block, volume(1), scratch, 4096, shape(0), given + 4, 1).number; }
static void request(void) { answer = zib_request(block, volume(1), scratch, 4096, shape(0), given[4], given[5]).number; }
static void chain5(void) { answer = zib_chain5(block, volume(given[4]), scratch, 4096, shape(given[4]), given + 5, 1).number; }
static void request5(void) { answer = zib_request5(block, volume(given[4]), scratch, 4096, shape(given[4]), given[5], given[6]).number; }
static void chain_of_32(void) {
    size_t swaps[32];
    for (size_t k = 0; k < 32; k++) swaps[k] = k % 3;
    answer = zib_chain(block, volume(1), scratch, 4096, shape(0), swaps, 32).number;
}
static void plan(void) { answer = zib_plan(given[0]).number; }
static void plan5(void) { answer = zib_plan5(given[0]).number; }

/* Sheets: four lengths, then an order; the readers take what was written. */
static struct zib_sheet_shape page(void) { return (struct zib_sheet_shape){{given[0], given[1], given[2], given[3]}}; }
static void answer_written(struct zib_written w) { answer = w.number, written = w.count; }
static void write_sheet(void) { answer_written(zib_write_result(page(), given[4], block, 1024, out, sizeof out)); }
static void write_release(void) { answer_written(zib_write_release(page(), 2, given[4], block, 1024, out, sizeof out)); }
static void read_result(void) { answer = zib_read_result(out, written, scratch, 1024).number; }
static void read_sheet(void) { answer = zib_read_sheet(text, written, scratch, 1024).number; }
static void job(void) { answer = zib_job(text, written, block, scratch, out).number; }

/* The join desk: how many readings or shifts. */
static void offset_delay(void) { answer = zib_offset_delay(run, 4).number; }
static void to_frames(void) { answer = zib_to_frames(-3, 1001).number; }
static void join(void) { answer = zib_join(run, given[0], 4096).number; }
static void choose_number(void) { answer = zib_choose_number(run, given[0], run, given[0]); }
static void choose(void) {
    struct zib_part part = {run, 4};
    zib_choose(run, given[0], run, given[0], &part);
    answer = part.count != 4;
}

/* How many bytes of the stack a call leaves unpainted; they are painted again. */
static size_t taken(void (*call)(void)) {
    static const size_t piece = 256;
    size_t left = 0;
    getcontext(&away);
    away.uc_stack.ss_sp = stack, away.uc_stack.ss_size = sizeof stack, away.uc_link = &home;
    makecontext(&away, call, 0);
    swapcontext(&home, &away);
    while (left + piece < sizeof stack && stack[left] == PAINT && memcmp(stack + left, stack + left + 1, piece) == 0) left += piece;
    while (left < sizeof stack && stack[left] == PAINT) left++;
    memset(stack + left, PAINT, sizeof stack - left);
    return sizeof stack - left;
}

static void show(const char *name, const size_t *numbers, size_t count, size_t bytes) {
    printf("stack: %zu bytes, %s", bytes, name);
    for (size_t k = 0; k < count; k++) printf("%s%zu", k == 0 ? " of " : ", ", numbers[k]);
}

static void attempt(const char *name, void (*call)(void), const size_t *numbers, size_t count) {
    memcpy(given, numbers, count * sizeof *numbers);
    answer = 99;
    size_t bytes = taken(call);
    calls++;
    if (bytes > deepest.bytes) {
        deepest.bytes = bytes, deepest.name = name, deepest.numbers = count;
        memcpy(deepest.given, numbers, count * sizeof *numbers);
    }
    if (bytes <= most && answer == 0) return;
    show(name, numbers, count, bytes);
    printf(": %s\n", answer != 0 ? "refused" : "more than the header says");
    bad++;
}

/* TRY(turn, 64, 16): zib_turn, given 64 and 16. */
#define TRY(call, ...) attempt("zib_" #call, call, (size_t[]){__VA_ARGS__}, sizeof((size_t[]){__VA_ARGS__}) / sizeof(size_t))

/* The right list of cycles, each found from its least place. */
static void list_cycles(size_t m, size_t n) {
    size_t last = m * n - 1;
    list_words = 0;
    for (size_t start = 0; start <= last; start++) {
        size_t length = 1, place = start;
        if (start != last)
            for (place = start * m % last; place > start; place = place * m % last) length++;
        if (place < start) continue;
        list[list_words++] = (uint32_t)start;
        list[list_words++] = (uint32_t)length;
    }
}

static void flat(size_t m, size_t n) {
    static const size_t sides[] = {1, 7, 64};
    size_t count = zib_lines(m, n).count;
    TRY(turn, m, n);
    TRY(turn_back, m, n);
    TRY(turn_passes, m, n);
    TRY(turn_back_passes, m, n);
    TRY(turn_halves, m, n);
    TRY(lines, m, n);
    TRY(resume, m, n, 0);
    for (size_t k = 0; k < 4; k++) TRY(tick, m, n, (count - 1) * k / 3);
    if (n > 1) TRY(remove_camera, m, n, n / 2);
    if (n < 4096 && m * (n + 1) <= WORDS) TRY(add_camera, m, n, n / 2);
    for (size_t k = 0; k < 9; k++) {
        TRY(to_tiles, m, n, sides[k / 3], sides[k % 3]);
        TRY(from_tiles, m, n, sides[k / 3], sides[k % 3]);
    }
    if (m * n > 4096) return; /* these take many steps a word */
    TRY(repeats, m, n);
    list_cycles(m, n);
    TRY(judge_cycles, m, n);
    TRY(run_cycles, m, n);
}

static void flats(void) {
    static const size_t sides[] = {1, 2, 3, 4, 5, 7, 8, 15, 16, 17, 31, 33, 63, 64, 65, 127, 255, 257, 511, 1000, 1023, 1024, 1047, 2047, 2049, 4095, 4096};
    static const size_t largest[][2] = {{1000, 1047}, {1024, 1024}, {4096, 255}, {255, 4096}, {4096, 256}, {256, 4096}, {4095, 256}, {511, 2049}};
    size_t count = sizeof sides / sizeof *sides;
    for (size_t i = 0; i < count; i++)
        for (size_t j = 0; j < count; j++)
            if (sides[i] * sides[j] <= 10000) flat(sides[i], sides[j]);
    for (size_t k = 0; k < sizeof largest / sizeof *largest; k++) {
        size_t m = largest[k][0], n = largest[k][1];
        TRY(turn, m, n);
        TRY(turn_back, m, n);
        TRY(turn_passes, m, n);
        TRY(turn_back_passes, m, n);
        TRY(turn_halves, m, n);
        TRY(tick, m, n, 0);
    }
    TRY(repeats, 266, 3942);
}

/* Thin and tall pairs at every place, squares, and chunks behind them. */
static const size_t shapes[][5] = {
    {2, 4096, 1, 1, 1}, {4096, 2, 1, 1, 1}, {1, 2, 4096, 1, 1}, {1, 4096, 2, 1, 1}, {1, 1, 2, 4096, 1}, {1, 1, 4096, 2, 1}, {2, 1, 1, 4096, 1},
    {1, 1, 1, 2, 4096}, {1, 1, 1, 4096, 2}, {4095, 2, 1, 1, 1}, {2, 4095, 1, 1, 1}, {3, 4096, 1, 1, 1}, {4096, 3, 1, 1, 1}, {255, 63, 1, 1, 1},
    {64, 64, 1, 1, 1}, {64, 64, 4, 1, 1}, {1, 64, 64, 3, 1}, {2, 1024, 4, 1, 1}, {1024, 2, 4, 1, 1}, {2, 1024, 1, 5, 1}, {2, 512, 16, 1, 1},
    {512, 2, 17, 1, 1}, {3, 5, 7, 11, 1}, {3, 5, 7, 11, 2}, {4, 4, 8, 8, 1}, {16, 15, 8, 8, 1}, {2, 2, 2, 2, 2}, {2, 3, 2, 3, 64}, {31, 33, 2, 2, 3},
};

static void axes(const size_t *d) {
    for (size_t k = 0; k < 4; k++) TRY(chain5, d[0], d[1], d[2], d[3], d[4], k);
    if (d[4] != 1) return;
    for (size_t k = 0; k < 3; k++) TRY(chain, d[0], d[1], d[2], d[3], k);
    TRY(chain_of_32, d[0], d[1], d[2], d[3]);
    for (size_t order = 0; order < 24; order++) {
        TRY(request, d[0], d[1], d[2], d[3], 1, order);
        TRY(request, d[0], d[1], d[2], d[3], 2, order);
    }
}

static void all_axes(void) {
    size_t count = sizeof shapes / sizeof *shapes;
    for (size_t k = 0; k < count; k++) axes(shapes[k]);
    for (size_t order = 0; order < 120; order++) {
        TRY(plan5, order);
        if (order < 24) TRY(plan, order);
        TRY(request5, 2, 4096, 1, 1, 1, 1, order);
        TRY(request5, 1, 2, 3, 5, 7, 2, order);
    }
    for (size_t k = 0; k < count; k++) TRY(request5, shapes[k][0], shapes[k][1], shapes[k][2], shapes[k][3], shapes[k][4], 1, 119);
    TRY(request, 16, 15, 64, 64, 2, 23);
    TRY(request5, 4, 4, 15, 64, 64, 2, 119);
}

static void sheets(size_t a, size_t b, size_t c, size_t d) {
    for (size_t order = 0; order < 24; order += 23) {
        TRY(write_release, a, b, c, d, order);
        TRY(read_result, a, b, c, d);
        TRY(write_sheet, a, b, c, d, order);
        TRY(read_result, a, b, c, d);
    }
    for (char swap = '0'; swap < '3'; swap++) {
        TRY(write_sheet, a, b, c, d, 0);
        memcpy(text, out, sizeof text);
        char *second = strstr((char *)text, "order\t0"); /* as long as the line of a chain of one swap */
        memcpy(second, "chain\t", 6);
        second[6] = swap;
        TRY(read_sheet, a, b, c, d);
        TRY(job, a, b, c, d);
    }
}

static void desk(void) {
    static const size_t counts[] = {4, 400, 4000};
    TRY(offset_delay, 4);
    TRY(to_frames, 1);
    for (size_t k = 0; k < 3; k++) {
        TRY(join, counts[k] / 4);
        TRY(choose, counts[k]);
        TRY(choose_number, counts[k]);
    }
}

int main(int argc, char **argv) {
    most = argc > 1 ? strtoul(argv[1], NULL, 10) : 0;
    memset(stack, PAINT, sizeof stack);
    flats();
    all_axes();
    sheets(4, 4, 8, 8);
    sheets(1, 1, 1, 1024);
    sheets(1024, 1, 1, 1);
    sheets(2, 512, 1, 1);
    sheets(1, 2, 512, 1);
    sheets(1, 1, 2, 512);
    desk();
    show(deepest.name, deepest.given, deepest.numbers, deepest.bytes);
    printf(": the deepest of %zu calls\n", calls);
    return bad > 0;
}
