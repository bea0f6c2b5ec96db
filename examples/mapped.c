/*
 * Turns a block in a mapped file, so that a process that is killed can be started again.
 *
 * Usage: mapped --new FILE M N         makes FILE of the M * N words on standard input
 *        mapped FILE M N BUDGET        calls of BUDGET stores until the turn is done
 *        mapped FILE M N --sync        one stage after the other, each of them on the disk before it is counted, for a power cut
 *
 * FILE is words of 32 bits: m, n, the progress word, scratch of max(m, n) words, the block. A progress word tells nothing without its sides, so
 * they stand beside it, and a start with others is refused before a word is touched. The exit status is 0 where the turn is done or the file
 * is made; else it is 1, and a line on standard error says why.
 */
#define _POSIX_C_SOURCE 200112L
#include <errno.h>
#include <fcntl.h>
#include <stdio.h>
#include <stdlib.h>
#include <string.h>
#include <sys/mman.h>
#include <sys/stat.h>
#include <unistd.h>
#include <zibsnarda.h>

/* The turn that is asked for, and the words of its file. */
struct turn {
    size_t m, n, longest, words, lines, stages, bytes;
    uint32_t *sides, *progress, *scratch, *block;
};

/* Every step below answers 0, or 1 after it has said what failed. */
static int failed(const char *what) {
    fprintf(stderr, "mapped: %s\n", what);
    return 1;
}

static int refused(uint32_t number) {
    fprintf(stderr, "mapped: refused with %u\n", (unsigned)number);
    if (number != ZIB_PAST_STAGES) return 1;
    failed("the progress word is past the last stage; the sides are those in the file, so the file is damaged: look for a copy of it");
    return failed("setting the word to 0 comes last: it begins a turn, and destroys one that was under way");
}

/* Digits to the end: strtoul alone takes a sign, spaces and whatever follows. */
static int read_number(const char *text, size_t *number) {
    char *end;
    if (text[0] < '0' || text[0] > '9') return failed("a side or budget is not a number");
    errno = 0;
    *number = strtoul(text, &end, 10);
    return *end == '\0' && errno == 0 ? 0 : failed("a side or budget is not a number");
}

static int measure(struct turn *t, const char *m, const char *n) {
    if (read_number(m, &t->m) || read_number(n, &t->n)) return 1;
    struct zib_line_count lines = zib_lines(t->m, t->n);
    if (lines.number != 0) return refused(lines.number);
    t->longest = t->m < t->n ? t->n : t->m;
    t->words = t->m * t->n;
    t->lines = lines.count;
    t->stages = 2 * lines.count + 1;
    t->bytes = sizeof(uint32_t) * (3 + t->longest + t->words);
    return 0;
}

static int map_words(struct turn *t, int file) {
    t->sides = mmap(NULL, t->bytes, PROT_READ | PROT_WRITE, MAP_SHARED, file, 0);
    if (t->sides == MAP_FAILED) return failed("the file cannot be mapped");
    t->progress = t->sides + 2;
    t->scratch = t->progress + 1;
    t->block = t->scratch + t->longest;
    return 0;
}

static int to_disk(const struct turn *t) {
    return msync(t->sides, t->bytes, MS_SYNC) == 0 ? 0 : failed("the file cannot be written to the disk");
}

/* The sides come last, when all words are on the disk: a file that was not finished has sides 0 by 0, and no start takes it. */
static int fill(struct turn *t, int file) {
    if (posix_fallocate(file, 0, (off_t)t->bytes) != 0) return failed("there is no room for the file");
    if (map_words(t, file)) return 1;
    if (fread(t->block, sizeof(uint32_t), t->words, stdin) != t->words) return failed("standard input has fewer words than the block");
    if (getchar() != EOF) return failed("standard input has more words than the block");
    if (to_disk(t)) return 1;
    t->sides[0] = (uint32_t)t->m;
    t->sides[1] = (uint32_t)t->n;
    return to_disk(t);
}

static int make(struct turn *t, const char *path) {
    int file = open(path, O_RDWR | O_CREAT | O_EXCL, 0666);
    if (file < 0) return failed("the file is there already, or cannot be made");
    if (fill(t, file) == 0) return 0;
    unlink(path);
    return 1;
}

static int find(struct turn *t, const char *path) {
    struct stat found;
    int file = open(path, O_RDWR);
    if (file < 0 || fstat(file, &found) != 0) return failed("the file cannot be opened");
    if ((size_t)found.st_size != t->bytes) return failed("the file has not the size of a block with these sides");
    if (map_words(t, file)) return 1;
    if (t->sides[0] == t->m && t->sides[1] == t->n) return 0;
    fprintf(stderr, "mapped: the sides in the file are %u by %u\n", (unsigned)t->sides[0], (unsigned)t->sides[1]);
    return 1;
}

static int call(const struct turn *t, size_t budget) {
    uint32_t number = zib_resume(t->block, t->words, t->scratch, t->longest, t->progress, t->m, t->n, budget);
    return number == 0 ? 0 : refused(number);
}

/* Every call makes this many stores; one that is too small for a stage would begin it anew for ever. */
static int by_budget(const struct turn *t, const char *text) {
    size_t budget;
    if (read_number(text, &budget)) return 1;
    if (budget <= t->longest) return failed("the budget must be above the longer side, so that every stage is finished some time");
    do {
        if (call(t, budget)) return 1;
    } while (*t->progress < t->stages);
    return 0;
}

/* How many words a stage stores: a column has m, a row n, and the clearing the longer side. Pass 1 is left out where the lines are m + n. */
static size_t stage_words(const struct turn *t, size_t stage) {
    size_t line = stage / 2, before = t->lines - t->m - t->n;
    if (line == t->lines) return t->longest;
    return line >= before && line < before + t->m ? t->n : t->m;
}

/*
 * The words of a stage, then the disk; the same words again and the progress word, then the disk.
 *
 * The disk also comes first, at every start: whoever went before may have been killed with a progress word in memory that the disk has not. Words
 * of the next stage could then reach the disk ahead of it, and after a power cut a stage would be made again from words that are gone.
 */
static int by_stage(const struct turn *t) {
    if (to_disk(t)) return 1;
    do {
        size_t words = stage_words(t, *t->progress);
        if (call(t, words) || to_disk(t) || call(t, words + 1) || to_disk(t)) return 1;
    } while (*t->progress < t->stages);
    return 0;
}

static int go_on(struct turn *t, const char *path, const char *how) {
    if (find(t, path)) return 1;
    if (strcmp(how, "--sync") == 0 ? by_stage(t) : by_budget(t, how)) return 1;
    return *t->progress == t->stages ? 0 : failed("somebody else wrote to the progress word");
}

int main(int count, char **args) {
    struct turn t;
    if (count != 5) return failed("usage: mapped --new FILE M N, mapped FILE M N BUDGET, or mapped FILE M N --sync");
    int fresh = strcmp(args[1], "--new") == 0;
    if (measure(&t, args[2 + fresh], args[3 + fresh])) return 1;
    if (fresh ? make(&t, args[2]) : go_on(&t, args[1], args[4])) return 1;
    printf("%zu by %zu %s, %zu stages\n", t.m, t.n, fresh ? "to be turned" : "turned", t.stages);
    return fflush(stdout) == 0 ? 0 : failed("standard output cannot be written");
}
