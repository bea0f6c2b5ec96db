/*
 * Calls the archive for the test program: reads requests on standard input, writes answers on standard output.
 *
 * A request is 64-bit numbers: call, side, count of numbers, the numbers, count of buffers, then for each buffer its
 * length in bytes and whether the call may write to it; the buffers' bytes follow, one after another.
 * The answer is the count of numbers, the numbers, and the bytes of all buffers as the call left them.
 *
 * Every buffer lies against a page that nobody may touch: its end (side 0) or its start (side 1). A read or a write
 * past it kills this program, and so does a write to a buffer that is lent for reading.
 */
#define _GNU_SOURCE
#include <stdio.h>
#include <stdlib.h>
#include <string.h>
#include <sys/mman.h>
#include <unistd.h>

#include "zibsnarda.h"

/* Under valgrind no byte outside the lent ones may be touched, on either side; see tests/sanitised. */
#ifdef WATCHED
#include <valgrind/memcheck.h>
#define CLOSE(from, bytes) VALGRIND_MAKE_MEM_NOACCESS(from, bytes)
#define OPEN(from, bytes) VALGRIND_MAKE_MEM_UNDEFINED(from, bytes)
#else
#define CLOSE(from, bytes) ((void)(from), (void)(bytes))
#define OPEN(from, bytes) ((void)(from), (void)(bytes))
#endif

enum { MOST_BUFFERS = 4, MOST_NUMBERS = 64 };
enum { ROOM = 5 << 20 }; /* the largest block is 4 MiB; a tail comes on top */
enum { PIECE = 1 << 14 };

enum {
    TURN = 1,
    TURN_BACK = 2,
    TURN_HALVES = 3,
    CHAIN = 4,
    REQUEST = 5,
    PLAN = 6,
    READ_SHEET = 7,
    WRITE_SHEET = 8,
    JOB = 9,
    REPEATS = 10,
    REMOVE_CAMERA = 11,
    ADD_CAMERA = 12,
    TO_TILES = 13,
    FROM_TILES = 14,
    READ_RESULT = 15,
    TICK = 16,
    LINES = 17,
    JUDGE_CYCLES = 18,
    RUN_CYCLES = 19,
    OFFSET_DELAY = 20,
    TO_FRAMES = 21,
    JOIN = 22,
    CHOOSE = 23,
    CHOOSE_NUMBER = 24,
    WRITE_RELEASE = 30,
    CHAIN5 = 31,
    REQUEST5 = 32,
    PLAN5 = 33,
    RESUME = 34,
    TURN_PASSES = 35,
    TURN_BACK_PASSES = 36,
    /* these touch what they must not, to show that the guards bite */
    WRITE_PAST_END = 100,
    READ_PAST_END = 101,
    WRITE_BEFORE_START = 102,
    WRITE_TO_LENT = 103
};

struct buffer {
    unsigned char *room; /* ROOM bytes between two guard pages */
    unsigned char *at;   /* where the lent bytes stand */
    uint64_t bytes;
    uint64_t writable;
};

static struct buffer buffers[MOST_BUFFERS];
static uint64_t numbers[MOST_NUMBERS];
static uint64_t answer[MOST_NUMBERS];
static uint64_t answered;

static void fail(const char *why) {
    fprintf(stderr, "driver: %s\n", why);
    exit(2);
}

/* Reads in pieces: a pipe hands over a little at a time, and valgrind looks at all that is asked for each time. */
static void get(void *to, size_t bytes) {
    unsigned char *at = to;
    while (bytes != 0) {
        size_t piece = bytes < PIECE ? bytes : PIECE;
        if (fread(at, 1, piece, stdin) != piece) fail("a request ends early");
        at += piece;
        bytes -= piece;
    }
}

static void put(const void *from, size_t bytes) {
    if (bytes != 0 && fwrite(from, 1, bytes, stdout) != bytes) fail("cannot write");
}

static uint64_t get_number(void) {
    uint64_t v;
    get(&v, sizeof v);
    return v;
}

static void give(uint64_t v) { answer[answered++] = v; }

static int64_t *readings(int k) { return (int64_t *)buffers[k].at; }
static size_t reading_count(int k) { return buffers[k].bytes / sizeof(int64_t); }
static uint32_t *words(int k) { return (uint32_t *)buffers[k].at; }
static size_t word_count(int k) { return buffers[k].bytes / sizeof(uint32_t); }

static void give_all(const size_t *from, size_t count) {
    for (size_t k = 0; k < count; k++) give(from[k]);
}

static void give_answer(struct zib_answer a) {
    give(a.number);
    give(a.place);
    give_all(a.lengths, 5);
    give(a.order);
    give(a.swaps);
}

static void give_plan(struct zib_planned p) {
    give(p.number);
    give_all(p.swaps, 10);
    give(p.count);
}

static void give_sheet(struct zib_sheet s) {
    give(s.number);
    give(s.place);
    give_all(s.lengths, 4);
    give_all(s.swaps, 32);
    give(s.count);
}

static void give_written(struct zib_written w) {
    give(w.number);
    give(w.count);
}

static void give_lines(struct zib_line_count l) {
    give(l.number);
    give(l.count);
}

static void give_tick(struct zib_line_record lines) {
    give(zib_tick(words(0), word_count(0), words(1), word_count(1), &lines, numbers[0], numbers[1]));
    give(lines.done);
}

static void give_home(struct zib_home h) {
    give(h.number);
    give(h.count);
}

static void give_result(struct zib_result_sheet s) {
    give(s.number);
    give(s.place);
    give_all(s.lengths, 4);
    give(s.release);
    give(s.order);
}

static void give_measured(struct zib_measured m) {
    give(m.number);
    give((uint64_t)m.offset);
    give((uint64_t)m.delay);
}

static void give_frames(struct zib_frames f) {
    give(f.number);
    give((uint64_t)f.frames);
}

static void give_joined(struct zib_joined j) {
    give(j.number);
    give((uint64_t)j.first);
    give((uint64_t)j.end);
}

/* Where the part stands: its path, its first reading's place in that run, its length; then its readings. The runs lie in rooms of their own. */
static void give_part(struct zib_part part) {
    uint64_t from_first = (uint64_t)((unsigned char *)part.readings - buffers[0].at);
    uint64_t from_second = (uint64_t)((unsigned char *)part.readings - buffers[1].at);
    give(from_first <= buffers[0].bytes ? 0 : from_second <= buffers[1].bytes ? 1 : 2);
    give(from_first <= buffers[0].bytes ? from_first : from_second);
    give(part.count);
    for (size_t k = 0; k < part.count; k++) give((uint64_t)part.readings[k]);
}

static struct zib_part choose(void) {
    static const int64_t some = 0;
    struct zib_part part = {&some, 1};
    zib_choose(readings(0), reading_count(0), readings(1), reading_count(1), &part);
    return part;
}

static void give_told(struct zib_job_answer told) {
    give(told.number);
    give(told.place);
    give(told.count);
}

static void give_judged(struct zib_judged j) {
    give(j.number);
    give(j.place);
}

static void make_rooms(void) {
    size_t page = (size_t)sysconf(_SC_PAGESIZE);
    for (int k = 0; k < MOST_BUFFERS; k++) {
        unsigned char *all = mmap(NULL, ROOM + 2 * page, PROT_NONE, MAP_PRIVATE | MAP_ANONYMOUS, -1, 0);
        if (all == MAP_FAILED) fail("no memory");
        buffers[k].room = all + page;
        if (mprotect(buffers[k].room, ROOM, PROT_READ | PROT_WRITE) != 0) fail("mprotect");
        CLOSE(buffers[k].room, ROOM);
    }
}

static void read_request(uint64_t side) {
    uint64_t count = get_number();
    if (count > MOST_NUMBERS) fail("too many numbers");
    get(numbers, count * sizeof numbers[0]);
    count = get_number();
    if (count > MOST_BUFFERS) fail("too many buffers");
    for (uint64_t k = 0; k < MOST_BUFFERS; k++) buffers[k].bytes = 0;
    for (uint64_t k = 0; k < count; k++) {
        buffers[k].bytes = get_number();
        buffers[k].writable = get_number();
        if (buffers[k].bytes > ROOM) fail("a buffer is too large");
        buffers[k].at = side == 0 ? buffers[k].room + ROOM - buffers[k].bytes : buffers[k].room;
        OPEN(buffers[k].at, buffers[k].bytes);
    }
    for (uint64_t k = 0; k < count; k++) get(buffers[k].at, buffers[k].bytes);
}

/* The pages of what is lent for reading. */
static void protect(int prot) {
    uintptr_t page = (uintptr_t)sysconf(_SC_PAGESIZE);
    for (int k = 0; k < MOST_BUFFERS; k++) {
        unsigned char *from = (unsigned char *)((uintptr_t)buffers[k].at & ~(page - 1));
        if (buffers[k].bytes != 0 && !buffers[k].writable && mprotect(from, (size_t)(buffers[k].at - from) + buffers[k].bytes, prot) != 0)
            fail("mprotect");
    }
}

static void run(uint64_t call) {
    volatile unsigned char *at = buffers[0].at;
    struct zib_shape shape = {{numbers[0], numbers[1], numbers[2], numbers[3], numbers[4]}};
    struct zib_sheet_shape sheet = {{numbers[0], numbers[1], numbers[2], numbers[3]}};
    switch (call) {
    case TURN:
        give(zib_turn(words(0), word_count(0), words(1), word_count(1), numbers[0], numbers[1]));
        break;
    case TURN_BACK:
        give(zib_turn_back(words(0), word_count(0), words(1), word_count(1), numbers[0], numbers[1]));
        break;
    case TURN_HALVES:
        give(zib_turn_halves(words(0), word_count(0), numbers[0], numbers[1]));
        break;
    case CHAIN:
        give_answer(zib_chain(words(0), word_count(0), words(1), word_count(1), shape, (size_t *)buffers[2].at, buffers[2].bytes / sizeof(size_t)));
        break;
    case REQUEST:
        give_answer(zib_request(words(0), word_count(0), words(1), word_count(1), shape, numbers[5], numbers[6]));
        break;
    case PLAN:
        give_plan(zib_plan(numbers[0]));
        break;
    case CHAIN5:
        give_answer(zib_chain5(words(0), word_count(0), words(1), word_count(1), shape, (size_t *)buffers[2].at, buffers[2].bytes / sizeof(size_t)));
        break;
    case REQUEST5:
        give_answer(zib_request5(words(0), word_count(0), words(1), word_count(1), shape, numbers[5], numbers[6]));
        break;
    case PLAN5:
        give_plan(zib_plan5(numbers[0]));
        break;
    case READ_SHEET:
        give_sheet(zib_read_sheet(buffers[0].at, buffers[0].bytes, words(1), word_count(1)));
        break;
    case WRITE_SHEET:
        give_written(zib_write_result(sheet, numbers[4], words(0), word_count(0), buffers[1].at, buffers[1].bytes));
        break;
    case JOB:
        give_told(zib_job(buffers[0].at, buffers[0].bytes, words(1), words(2), buffers[3].at));
        break;
    case REPEATS:
        give_home(zib_repeats(numbers[0], numbers[1]));
        break;
    case REMOVE_CAMERA:
        give(zib_remove_camera(words(0), word_count(0), numbers[0], numbers[1], numbers[2]));
        break;
    case ADD_CAMERA:
        give(zib_add_camera(words(0), word_count(0), numbers[0], numbers[1], numbers[2], words(1), word_count(1)));
        break;
    case TO_TILES:
        give(zib_to_tiles(words(0), word_count(0), words(1), word_count(1), numbers[0], numbers[1], numbers[2], numbers[3]));
        break;
    case FROM_TILES:
        give(zib_from_tiles(words(0), word_count(0), words(1), word_count(1), numbers[0], numbers[1], numbers[2], numbers[3]));
        break;
    case READ_RESULT:
        give_result(zib_read_result(buffers[0].at, buffers[0].bytes, words(1), word_count(1)));
        break;
    case TICK:
        give_tick((struct zib_line_record){numbers[2]});
        break;
    case LINES:
        give_lines(zib_lines(numbers[0], numbers[1]));
        break;
    case OFFSET_DELAY:
        give_measured(zib_offset_delay(readings(0), reading_count(0)));
        break;
    case TO_FRAMES:
        give_frames(zib_to_frames((int64_t)numbers[0], numbers[1]));
        break;
    case JOIN:
        give_joined(zib_join(readings(0), reading_count(0), numbers[0]));
        break;
    case CHOOSE:
        give_part(choose());
        break;
    case CHOOSE_NUMBER:
        give(zib_choose_number(readings(0), reading_count(0), readings(1), reading_count(1)));
        break;
    case JUDGE_CYCLES:
        give_judged(zib_judge_cycles(words(0), word_count(0), numbers[0], numbers[1]));
        break;
    case RUN_CYCLES:
        give_judged(zib_run_cycles(words(0), word_count(0), words(1), word_count(1), numbers[0], numbers[1]));
        break;
    case WRITE_RELEASE:
        give_written(zib_write_release(sheet, numbers[4], numbers[5], words(0), word_count(0), buffers[1].at, buffers[1].bytes));
        break;
    case RESUME:
        give(zib_resume(words(0), word_count(0), words(1), word_count(1), words(2), numbers[0], numbers[1], numbers[2]));
        break;
    case TURN_PASSES:
        give(zib_turn_passes(words(0), word_count(0), words(1), word_count(1), numbers[0], numbers[1]));
        break;
    case TURN_BACK_PASSES:
        give(zib_turn_back_passes(words(0), word_count(0), words(1), word_count(1), numbers[0], numbers[1]));
        break;
    case WRITE_PAST_END:
        at[buffers[0].bytes] = 1;
        break;
    case READ_PAST_END:
        give(at[buffers[0].bytes]);
        break;
    case WRITE_BEFORE_START:
        at[-1] = 1;
        break;
    case WRITE_TO_LENT:
        at[0] = 1;
        break;
    default:
        fail("no such call");
    }
}

int main(void) {
    uint64_t call;
    make_rooms();
    while (fread(&call, sizeof call, 1, stdin) == 1) {
        read_request(get_number());
        answered = 0;
        protect(PROT_READ);
        run(call);
        protect(PROT_READ | PROT_WRITE);
        put(&answered, sizeof answered);
        put(answer, answered * sizeof answer[0]);
        for (int k = 0; k < MOST_BUFFERS; k++) {
            put(buffers[k].at, buffers[k].bytes);
            CLOSE(buffers[k].at, buffers[k].bytes);
        }
        if (fflush(stdout) != 0) fail("cannot write");
    }
    return 0;
}
