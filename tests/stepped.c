/*
 * Runs zib_resume one instruction at a time and looks at the mapped words after each. They are always what the stages that the progress word counts have
 * left, and only where the next stage writes they may differ. So a process that is killed at any instruction leaves a stage's words before its
 * progress word, and that before the next stage's words. What the stages leave is worked out here, from the equations of document 01.
 *
 * Usage: stepped M N [M N]...
 * Each shape is one check. The last line is 'N passed, M failed'; the exit status is 0 only where nothing failed.
 */
#define _GNU_SOURCE
#include <signal.h>
#include <stdio.h>
#include <stdlib.h>
#include <string.h>
#include <sys/mman.h>
#include <sys/ptrace.h>
#include <sys/wait.h>
#include <unistd.h>

#include "zibsnarda.h"

enum { MOST = 1 << 16 }; /* words of a file: the progress word, scratch, the block */

struct turn {
    size_t m, n, a, b, longest, first, lines, stages, words; /* first: the lines of pass 1 */
};

/* A word of a line: its place in the block, and the place whose word it receives. */
struct move {
    size_t to, from;
};

/* The file as it must be: what the stages done have left, what the next one leaves, and which places that writes. */
struct state {
    uint32_t done, words[MOST], next[MOST];
    unsigned char written[MOST];
};

struct found {
    long instructions, torn, wrong;
};

static struct turn turn_of(size_t m, size_t n) {
    size_t c = m, rest = n;
    while (rest != 0) {
        size_t left = c % rest;
        c = rest, rest = left;
    }
    struct turn t = {.m = m, .n = n, .a = m / c, .b = n / c, .longest = m < n ? n : m, .first = c > 1 ? n : 0};
    t.lines = t.first + m + n;
    t.stages = 2 * t.lines + 1;
    t.words = 1 + t.longest + m * n;
    return t;
}

/* The words of a line in rising place; answers how many. */
static size_t line_moves(const struct turn *t, size_t line, struct move *moves) {
    size_t m = t->m, n = t->n, row = line - t->first;
    if (line >= t->first && row < m) { /* pass 2, which document 01 tells by where words go */
        for (size_t j = 0; j < n; j++) {
            size_t to = ((row + j / t->b) % m + j * m) % n;
            moves[to] = (struct move){row * n + to, row * n + j};
        }
        return n;
    }
    size_t j = line < t->first ? line : row - m;
    for (size_t i = 0; i < m; i++) {
        size_t from = line < t->first ? (i + j / t->b) % m : (j + i * n - i / t->a) % m;
        moves[i] = (struct move){i * n + j, from * n + j};
    }
    return m;
}

static void write_next(struct state *s, size_t place, uint32_t word) {
    s->next[place] = word;
    s->written[place] = 1;
}

/* The next stage: a line into scratch, a line back, or the clearing. */
static void look_ahead(const struct turn *t, struct state *s) {
    static struct move moves[MOST];
    size_t block = 1 + t->longest, line = s->done / 2;
    memcpy(s->next, s->words, sizeof s->next);
    memset(s->written, 0, sizeof s->written);
    if (line == t->lines)
        for (size_t k = 0; k < t->longest && s->done < t->stages; k++) write_next(s, 1 + k, 0);
    else
        for (size_t k = 0, count = line_moves(t, line, moves); k < count; k++) {
            if (s->done % 2 == 0) write_next(s, 1 + k, s->words[block + moves[k].from]);
            else write_next(s, block + moves[k].to, s->words[1 + k]);
        }
}

/* The file after an instruction. A word where the next stage writes that is neither the old one nor the new one is torn, and counted apart. */
static void compare(const struct turn *t, struct state *s, const volatile uint32_t *file, struct found *found) {
    if (s->done < t->stages && file[0] == s->done + 1) {
        memcpy(s->words, s->next, sizeof s->words);
        s->done++;
        look_ahead(t, s);
    }
    found->wrong += file[0] != s->done;
    for (size_t k = 1; k < t->words; k++) {
        uint32_t word = file[k];
        if (word == s->words[k]) continue;
        if (!s->written[k]) found->wrong++;
        else found->torn += word != s->next[k];
    }
}

/* The whole turn in a process of its own, which stops before it. */
static pid_t start(const struct turn *t, uint32_t *file) {
    pid_t child = fork();
    if (child != 0) return child;
    if (ptrace(PTRACE_TRACEME, 0, NULL, NULL) != 0) _exit(99);
    raise(SIGSTOP);
    _exit((int)zib_resume(file + 1 + t->longest, t->m * t->n, file + 1, t->longest, file, t->m, t->n, 10000000));
}

/* Its instructions one after the other. Answers whether it came to its end and the call answered 0. */
static int step_through(const struct turn *t, struct state *s, uint32_t *file, struct found *found) {
    int status, began = 0;
    pid_t child = start(t, file);
    while (waitpid(child, &status, 0) == child && WIFSTOPPED(status) && WSTOPSIG(status) == (began ? SIGTRAP : SIGSTOP)) {
        found->instructions += began;
        compare(t, s, file, found);
        began = ptrace(PTRACE_SINGLESTEP, child, NULL, NULL) == 0;
    }
    if (WIFSTOPPED(status)) kill(child, SIGKILL);
    return WIFEXITED(status) && WEXITSTATUS(status) == 0;
}

/* The turn itself, scratch cleared and every stage counted. */
static int turned(const struct turn *t, const uint32_t *file, const uint32_t *before) {
    size_t block = 1 + t->longest, wrong = file[0] != t->stages;
    for (size_t k = 1; k < block; k++) wrong += file[k] != 0;
    for (size_t i = 0; i < t->m; i++)
        for (size_t j = 0; j < t->n; j++) wrong += file[block + j * t->m + i] != before[block + i * t->n + j];
    return wrong == 0;
}

static int check(size_t m, size_t n, uint32_t *file) {
    static struct state s;
    static uint32_t before[MOST];
    struct turn t = turn_of(m, n);
    struct found found = {0, 0, 0};
    for (size_t k = 1; k < t.words; k++) before[k] = 0x01010101u * (uint32_t)(k % 251 + 1) + (uint32_t)k; /* all different, none 0 */
    memcpy(file, before, sizeof before);
    memcpy(s.words, before, sizeof before);
    s.done = 0;
    look_ahead(&t, &s);
    int ended = step_through(&t, &s, file, &found);
    int good = ended && found.wrong == 0 && found.instructions > (long)t.stages && turned(&t, file, before);
    printf("%zu by %zu: %ld instructions, %zu stages, %ld words wrong, %ld torn%s\n", m, n, found.instructions, t.stages, found.wrong, found.torn,
           good ? "" : ended ? ": FAILED" : ": FAILED, the call was refused or did not come to its end");
    return good;
}

int main(int count, char **args) {
    uint32_t *file = mmap(NULL, sizeof(uint32_t) * MOST, PROT_READ | PROT_WRITE, MAP_SHARED | MAP_ANONYMOUS, -1, 0);
    int good = 0, bad = 0;
    for (int k = 1; file != MAP_FAILED && k + 1 < count; k += 2) {
        size_t m = strtoul(args[k], NULL, 10), n = strtoul(args[k + 1], NULL, 10);
        int right = m >= 1 && n >= 1 && m <= 255 && n <= 255 && check(m, n, file);
        good += right, bad += !right;
    }
    bad += good + bad == 0;
    printf("%d passed, %d failed\n", good, bad);
    return bad > 0;
}
