/*
 * Zibsnarda: blocks of 32-bit words rearranged within their buffer.
 *
 * The calls are proved for slices that are there and lie apart, so a caller sees to four things
 * that no call can test:
 *   - each pointer is aligned, not null (also where the length beside it is 0: any aligned address
 *     will do), and leads to as many elements as that length says;
 *   - buffer and scratch of one call do not overlap, nor does a record or word that is lent lie in
 *     one of them, nor does a part that is only read overlap one that is written;
 *   - nobody else writes to them during the call;
 *   - the part that zib_choose stores into holds some part before the call, an empty one will do.
 * Everything else is tested. A refused call says why by its number and leaves all buffers
 * unchanged; two write their refusal all the same: zib_job its line of text, zib_choose the empty
 * start of the first run.
 *
 * Thread-safe and re-entrant: no call keeps anything, allocates, or reads or writes anything
 * besides what it is lent. The archive asks for memcpy and memset and for nothing else, so that it
 * links on a board without an operating system. No call takes more than 8,192 bytes of stack.
 *
 * A block lies at the first word of its buffer. A buffer may not be longer than the block: turns,
 * chains, requests, tiles and running cycles take one of exactly the block's size. Where a call
 * says otherwise (cameras, sheets), the words past the block stay unchanged, and so does scratch
 * past what is needed.
 *
 * At each call: In is what it reads, Out what it leaves, Answers which number comes back: 0, or the
 * first of those listed that holds. 8 is free: no call gives it. Which call is faster when:
 * docs/SPEED.md.
 */
#ifndef ZIBSNARDA_H
#define ZIBSNARDA_H

#include <stddef.h>
#include <stdint.h>

/* Raised where a call or a record changes; the first number where a program must change with it. */
#define ZIB_VERSION "3.0"
#define ZIB_VERSION_NUMBER 30000 /* 10,000 times the first number and 100 times the second */

/* The limits that the numbers below speak of. */
#define ZIB_MAX_LENGTH 4096         /* of a side or an axis, of cameras and of frames */
#define ZIB_MAX_WORDS 1048576       /* of a block */
#define ZIB_MAX_SWAPS 32            /* of a chain */
#define ZIB_MAX_TILE 64             /* a side of a tile */
#define ZIB_MAX_SHEET_WORDS 1024    /* of a sheet's block */
#define ZIB_MAX_SHEET_BYTES 16384   /* of a sheet */
#define ZIB_MAX_TICKS 1000000       /* of a frame */
#define ZIB_ENOUGH_STORES 10000000  /* a budget with which zib_resume always finishes */

/* A number that is not looked at is a refusal that nobody sees. */
#if defined(__GNUC__)
#define ZIB_MUST_USE __attribute__((warn_unused_result))
#define ZIB_NONNULL __attribute__((nonnull))
#else
#define ZIB_MUST_USE
#define ZIB_NONNULL
#endif

#ifdef __cplusplus
extern "C" {
#endif

/* The numbers: written by share/numbers. */
/* The numbers that come back. */
enum {
    /* accepted */
    ZIB_ACCEPTED = 0,
    /* an axis length is 0 or above 4,096; the camera count afterwards too; in
       joining the camera count or F */
    ZIB_BAD_LENGTH = 1,
    /* the lengths multiply to more than 1,048,576 */
    ZIB_TOO_MANY_WORDS = 2,
    /* the buffer has fewer words than the block */
    ZIB_SHORT_BUFFER = 3,
    /* scratch has fewer words than the call needs: a flat turn the longer side, a
       chain the longest axis that it exchanges, a request what its plan needs,
       tiles of r rows r times n words */
    ZIB_SHORT_SCRATCH = 4,
    /* the chain has more than 32 swaps */
    ZIB_LONG_CHAIN = 5,
    /* a swap number is above 2, on five axes above 3; place is the first such, from
       0 */
    ZIB_BAD_SWAP = 6,
    /* the order number is above 23, of five axes above 119 */
    ZIB_BAD_ORDER = 7,
    /* a sheet has more than 16,384 bytes */
    ZIB_LONG_SHEET = 9,
    /* a sheet line is malformed, missing or left over; place is its line number,
       from 1 */
    ZIB_BAD_LINE = 10,
    /* a sheet's lengths multiply to more than 1,024 */
    ZIB_LARGE_SHEET = 11,
    /* the lines done are more than the turn has */
    ZIB_PAST_LINES = 12,
    /* the buffer has more words than the block (turns, chains, requests, tiles,
       running cycles; not cameras, sheets) */
    ZIB_LONG_BUFFER = 13,
    /* the release of an order number is neither 1 nor 2 */
    ZIB_BAD_RELEASE = 14,
    /* a tile side is 0 or above 64 */
    ZIB_BAD_TILE = 15,
    /* a column number is above the last camera (removing) or above the camera count
       (adding) */
    ZIB_BAD_COLUMN = 16,
    /* the buffer lacks room for the block with one camera more */
    ZIB_NO_ROOM = 17,
    /* a reading is beyond 2 to the 60th either side of zero; an offset (to frames)
       or a shift (joining) beyond 2 to the 61st */
    ZIB_FAR_NUMBER = 18,
    /* no usable exchange exists: both runs are empty, or every delay is negative */
    ZIB_NOTHING_USABLE = 19,
    /* no frame is common to all cameras */
    ZIB_NONE_COMMON = 20,
    /* ticks per frame are outside 1 to 1,000,000 */
    ZIB_BAD_TICKS = 21,
    /* the list of cycles is not the right one; place is that of the first pair that
       differs, from 0, a missing, half or surplus pair counted by its place */
    ZIB_OTHER_CYCLES = 22,
    /* the progress word is above twice the line count plus one */
    ZIB_PAST_STAGES = 23,
    /* the byte buffer is shorter than the result sheet */
    ZIB_SHORT_BYTES = 24,
    /* the column's length isn't the frame count */
    ZIB_OTHER_COLUMN = 25,
    /* a run isn't four readings (offset and delay); a run's length isn't a multiple
       of four (choosing) */
    ZIB_BAD_RUN = 26
};

/* The name of a number above; of any other number that it is unknown. */
static inline const char *zib_name(uint32_t number)
{
    switch (number) {
    case 0:
        return "ZIB_ACCEPTED";
    case 1:
        return "ZIB_BAD_LENGTH";
    case 2:
        return "ZIB_TOO_MANY_WORDS";
    case 3:
        return "ZIB_SHORT_BUFFER";
    case 4:
        return "ZIB_SHORT_SCRATCH";
    case 5:
        return "ZIB_LONG_CHAIN";
    case 6:
        return "ZIB_BAD_SWAP";
    case 7:
        return "ZIB_BAD_ORDER";
    case 9:
        return "ZIB_LONG_SHEET";
    case 10:
        return "ZIB_BAD_LINE";
    case 11:
        return "ZIB_LARGE_SHEET";
    case 12:
        return "ZIB_PAST_LINES";
    case 13:
        return "ZIB_LONG_BUFFER";
    case 14:
        return "ZIB_BAD_RELEASE";
    case 15:
        return "ZIB_BAD_TILE";
    case 16:
        return "ZIB_BAD_COLUMN";
    case 17:
        return "ZIB_NO_ROOM";
    case 18:
        return "ZIB_FAR_NUMBER";
    case 19:
        return "ZIB_NOTHING_USABLE";
    case 20:
        return "ZIB_NONE_COMMON";
    case 21:
        return "ZIB_BAD_TICKS";
    case 22:
        return "ZIB_OTHER_CYCLES";
    case 23:
        return "ZIB_PAST_STAGES";
    case 24:
        return "ZIB_SHORT_BYTES";
    case 25:
        return "ZIB_OTHER_COLUMN";
    case 26:
        return "ZIB_BAD_RUN";
    default:
        return "unknown";
    }
}

/* When a number is given, in a sentence; of any other number that it is unknown. */
static inline const char *zib_sentence(uint32_t number)
{
    switch (number) {
    case 0:
        return "accepted";
    case 1:
        return "an axis length is 0 or above 4,096; the camera count afterwards too; in "
               "joining the camera count or F";
    case 2:
        return "the lengths multiply to more than 1,048,576";
    case 3:
        return "the buffer has fewer words than the block";
    case 4:
        return "scratch has fewer words than the call needs: a flat turn the longer side, a "
               "chain the longest axis that it exchanges, a request what its plan needs, tiles"
               " of r rows r times n words";
    case 5:
        return "the chain has more than 32 swaps";
    case 6:
        return "a swap number is above 2, on five axes above 3; place is the first such, from "
               "0";
    case 7:
        return "the order number is above 23, of five axes above 119";
    case 9:
        return "a sheet has more than 16,384 bytes";
    case 10:
        return "a sheet line is malformed, missing or left over; place is its line number, "
               "from 1";
    case 11:
        return "a sheet's lengths multiply to more than 1,024";
    case 12:
        return "the lines done are more than the turn has";
    case 13:
        return "the buffer has more words than the block (turns, chains, requests, tiles, "
               "running cycles; not cameras, sheets)";
    case 14:
        return "the release of an order number is neither 1 nor 2";
    case 15:
        return "a tile side is 0 or above 64";
    case 16:
        return "a column number is above the last camera (removing) or above the camera count "
               "(adding)";
    case 17:
        return "the buffer lacks room for the block with one camera more";
    case 18:
        return "a reading is beyond 2 to the 60th either side of zero; an offset (to frames) "
               "or a shift (joining) beyond 2 to the 61st";
    case 19:
        return "no usable exchange exists: both runs are empty, or every delay is negative";
    case 20:
        return "no frame is common to all cameras";
    case 21:
        return "ticks per frame are outside 1 to 1,000,000";
    case 22:
        return "the list of cycles is not the right one; place is that of the first pair that "
               "differs, from 0, a missing, half or surplus pair counted by its place";
    case 23:
        return "the progress word is above twice the line count plus one";
    case 24:
        return "the byte buffer is shorter than the result sheet";
    case 25:
        return "the column's length isn't the frame count";
    case 26:
        return "a run isn't four readings (offset and delay); a run's length isn't a multiple "
               "of four (choosing)";
    default:
        return "unknown";
    }
}
/* The end of the numbers. */

/* ---------------------------------------------------------------- the turn */

/*
 * Turns the block of m rows and n columns.
 * In:      the block, which fills the buffer; scratch of at least max(m, n) words.
 * Out:     the word at j*m+i is the one that stood at i*n+j; the first max(m, n) words of scratch
 *          are zero.
 * Answers 0, or the first of 1, 2, 3, 13, 4 that holds.
 */
ZIB_MUST_USE ZIB_NONNULL
uint32_t zib_turn(uint32_t *buffer, size_t buffer_words, uint32_t *scratch, size_t scratch_words,
                  size_t m, size_t n);

/*
 * Undoes zib_turn with the same m and n, the sides of the block as it was before the turn.
 * In:      the turned block, which fills the buffer; scratch of at least max(m, n) words.
 * Out:     the word at i*n+j is the one that stood at j*m+i; the first max(m, n) words of scratch
 *          are zero.
 * Answers 0, or the first of 1, 2, 3, 13, 4 that holds.
 */
ZIB_MUST_USE ZIB_NONNULL
uint32_t zib_turn_back(uint32_t *buffer, size_t buffer_words, uint32_t *scratch,
                       size_t scratch_words, size_t m, size_t n);

/*
 * zib_turn and zib_turn_back by three passes over the block, the method that zib_tick and
 * zib_resume cut into lines. They leave the same words, and are slower.
 * In, Out: as above.
 * Answers 0, or the first of 1, 2, 3, 13, 4 that holds.
 */
ZIB_MUST_USE ZIB_NONNULL
uint32_t zib_turn_passes(uint32_t *buffer, size_t buffer_words, uint32_t *scratch,
                         size_t scratch_words, size_t m, size_t n);
ZIB_MUST_USE ZIB_NONNULL
uint32_t zib_turn_back_passes(uint32_t *buffer, size_t buffer_words, uint32_t *scratch,
                              size_t scratch_words, size_t m, size_t n);

/*
 * The turn by recursion and without scratch.
 * In:      the block, which fills the buffer.
 * Out:     the same words as zib_turn leaves.
 * Answers 0, or the first of 1, 2, 3, 13 that holds.
 */
ZIB_MUST_USE ZIB_NONNULL
uint32_t zib_turn_halves(uint32_t *buffer, size_t buffer_words, size_t m, size_t n);

/* ---------------------------------------------------------------- the turn, a line a call */

/* How many lines a turn has; 0 in a refusal. */
struct zib_line_count {
    uint32_t number;
    size_t count;
};

/*
 * Counts the lines of the turn of m by n.
 * In:      the sides.
 * Out:     the count that is answered: n + m + n where the sides share a factor, m + n otherwise.
 * Answers 0, or the first of 1, 2 that holds.
 */
ZIB_MUST_USE
struct zib_line_count zib_lines(size_t m, size_t n);

/*
 * How far a turn by lines has come. The player sets it to 0 and lends it to each call, which
 * advances it where it stands.
 */
struct zib_line_record {
    size_t done;
};

/*
 * One line of zib_turn.
 * In:      the block as the calls before left it, the record, and scratch of at least max(m, n)
 *          words, which may be another one at each call.
 * Out:     the line that the record names has moved, and the record counts it; the first max(m, n)
 *          words of scratch are zero. From a record at 0, with the same m and n and nobody else
 *          writing to buffer or record, the buffer holds the turn when the record reaches the count
 *          of zib_lines; on the way it may hold neither the block nor the turn. A call after that
 *          changes neither buffer nor record and answers 0. A refusal leaves the record too.
 * Answers 0, or the first of 1, 2, 3, 13, 4, 12 that holds.
 */
ZIB_MUST_USE ZIB_NONNULL
uint32_t zib_tick(uint32_t *buffer, size_t buffer_words, uint32_t *scratch, size_t scratch_words,
                  struct zib_line_record *record, size_t m, size_t n);

/*
 * The turn of zib_turn in a mapped file, with its scratch and one progress word, where a process
 * may be killed after any store.
 * In:      the block, scratch of at least max(m, n) words and the progress word, all as the calls
 *          before left them; the word is set to 0 at the first start.
 * Out:     the call goes on from the stage that the progress word names and makes `budget` stores,
 *          or all that remain; with ZIB_ENOUGH_STORES it always finishes. The turn is done, and a
 *          call stores nothing, where the word is twice the count of zib_lines plus one. With the
 *          same m and n at each restart and nobody else writing to the three, block, scratch
 *          (zeroed) and progress word end as those of an uncut turn, however often it was stopped,
 *          restarts too.
 * A stage is a line's finished words into scratch, the same words from there back, or, as the last
 * one, the clearing of max(m, n) words; its stores are its words in rising place, then the progress
 * word. A stopped process leaves what a budget leaves as long as a stage's words reach the file
 * before its progress word, and that before the next stage's words: see docs/KILLED.md. Where the
 * power may be cut, an msync of the whole file comes before the first call of every start.
 * Other sides than those of the first start destroy the block, and the call can tell only where the
 * progress word is past their end: keep m and n beside it and compare them. At 23 check the sides
 * first; setting the word to 0 comes last, and destroys a turn that was under way.
 * Answers 0, or the first of 1, 2, 3, 13, 4, 23 that holds; 0 also where the budget stopped it.
 */
ZIB_MUST_USE ZIB_NONNULL
uint32_t zib_resume(uint32_t *buffer, size_t buffer_words, uint32_t *scratch, size_t scratch_words,
                    uint32_t *progress, size_t m, size_t n, size_t budget);

/* ---------------------------------------------------------------- about the turn */

/* How often a turn is repeated; 0 in a refusal. */
struct zib_home {
    uint32_t number;
    size_t count;
};

/*
 * Counts the repeats of a turn with the same m and n, at least one, until every block of that shape
 * is home. It takes a multiplication and a remainder a repeat, at most mn - 2 of them.
 * In:      the sides.
 * Out:     nothing but the count that is answered.
 * Answers 0, or the first of 1, 2 that holds.
 */
ZIB_MUST_USE
struct zib_home zib_repeats(size_t m, size_t n);

/*
 * The judgement of a list of cycles: for 22 the place of the first pair that differs, from 0; else
 * 0.
 */
struct zib_judged {
    uint32_t number;
    size_t place;
};

/*
 * Judges a list of the cycles of zib_turn with these sides, bought from elsewhere. The turn takes
 * offset x below mn - 1 to x*m modulo mn - 1, and the last offset stays. The right list has, for
 * every cycle once, single offsets included, its least offset and its length: start, length, start,
 * length, starts rising. A missing, half or surplus pair differs at its place.
 * In:      the list, which is only read. No memory is used: each offset is followed until its cycle
 *          is home or a smaller offset shows; a step takes no division.
 * Out:     nothing but the place that is answered.
 * Answers 0, or the first of 1, 2, 22 that holds.
 */
ZIB_MUST_USE ZIB_NONNULL
struct zib_judged zib_judge_cycles(const uint32_t *list, size_t list_words, size_t m, size_t n);

/*
 * Judges such a list and moves the words of the block along its cycles, without scratch.
 * In:      the list, which is only read and does not overlap the buffer; the block, which fills it.
 * Out:     the same words as zib_turn leaves.
 * Answers 0, or the first of 1, 2, 3, 13, 22 that holds.
 */
ZIB_MUST_USE ZIB_NONNULL
struct zib_judged zib_run_cycles(const uint32_t *list, size_t list_words, uint32_t *buffer,
                                 size_t buffer_words, size_t m, size_t n);

/* ---------------------------------------------------------------- cameras */

/*
 * Removes a column, from 0, of a block of one row a frame and one column a camera.
 * In:      the block, in a buffer that may be longer.
 * Out:     the other columns have closed up, and the freed words at the block's end are zero.
 * Answers 0, or the first of 1, 2, 3, 16 that holds; 1 also where it is the only camera.
 */
ZIB_MUST_USE ZIB_NONNULL
uint32_t zib_remove_camera(uint32_t *buffer, size_t buffer_words, size_t frames, size_t cameras,
                           size_t column);

/*
 * Adds a column at a place, from 0 to the camera count.
 * In:      the block, with room for one word more a frame behind it, whatever that holds; `words`
 *          with one word a frame, which are only read and do not overlap the buffer.
 * Out:     the block with the column, using the words that followed it.
 * Answers 0, or the first of 1, 2, 3, 16, 17, 25 that holds; 1 also where there are 4,096 cameras,
 * 2 of the size before and then of the size after.
 */
ZIB_MUST_USE ZIB_NONNULL
uint32_t zib_add_camera(uint32_t *buffer, size_t buffer_words, size_t frames, size_t cameras,
                        size_t column, const uint32_t *words, size_t word_count);

/* ---------------------------------------------------------------- tiles */

/*
 * Stores the block of m rows and n columns as tiles of r by s words, r and s 1 to 64: tiles row by
 * row, each stored together row by row; tiles at the right and lower edge are smaller. A tile may
 * be larger than the block.
 * In:      the block, which fills the buffer; scratch of at least r*n words, whatever m is.
 * Out:     the word of row i and column j stands at b*r*n + h*u*s + (i-b*r)*w + (j-u*s), where
 *          b = i/r, u = j/s (whole numbers), h = min(r, m-b*r) and w = min(s, n-u*s); the first r*n
 *          words of scratch are zero.
 * Answers 0, or the first of 1, 2, 15, 3, 13, 4 that holds.
 */
ZIB_MUST_USE ZIB_NONNULL
uint32_t zib_to_tiles(uint32_t *buffer, size_t buffer_words, uint32_t *scratch,
                      size_t scratch_words, size_t m, size_t n, size_t r, size_t s);

/*
 * Undoes zib_to_tiles with the same m, n, r and s.
 * In, Out: the block as tiles, then by rows; scratch as for zib_to_tiles.
 * Answers 0, or the first of 1, 2, 15, 3, 13, 4 that holds.
 */
ZIB_MUST_USE ZIB_NONNULL
uint32_t zib_from_tiles(uint32_t *buffer, size_t buffer_words, uint32_t *scratch,
                        size_t scratch_words, size_t m, size_t n, size_t r, size_t s);

/* ---------------------------------------------------------------- four axes and five */

/*
 * A block has axes 0 to 3 (five: 0 to 4) with these lengths, the last axis fastest. Swap k (0, 1 or
 * 2; five: or 3) exchanges the axes at places k and k+1 of the shape as it then stands. An order
 * lists which original axis stands at each place; orders are numbered 0 (axes 0123) to 23 (axes
 * 3210), of five axes 0 (01234) to 119 (43210), in dictionary order, and count from the shape that
 * the call is given. The four-axis calls do not read the fifth length, whatever it holds, and
 * answer it 0.
 */
struct zib_shape {
    size_t lengths[5];
};

/*
 * What a chain or a request answers. In a refusal all but number and place is 0; place is 0 unless
 * number is 6.
 */
struct zib_answer {
    uint32_t number;
    size_t place;
    size_t lengths[5]; /* of the block as it now stands; of four axes the fifth is 0 */
    size_t order;      /* of its axes as they now stand; of a request the number it was given */
    size_t swaps;      /* how many were done */
};

/*
 * A plan: the first `count` of ten swap places, of four axes at most six; the others, and all but
 * number in a refusal, are 0.
 */
struct zib_planned {
    uint32_t number;
    size_t swaps[10];
    size_t count;
};

/*
 * Runs a chain of at most 32 swaps on a block.
 * In:      the block, which fills the buffer; the swaps, which are only read; scratch of as many
 *          words as the longest axis that the chain exchanges, in the shape as it then stands, an
 *          axis of length 1 too. The longest axis always suffices; an empty chain needs none.
 * Out:     the block with its axes in the order that the chain names; of scratch that many first
 *          words are zero.
 * Answers 0, or the first of 1, 2, 3, 13, 5, 6, 4 that holds.
 */
ZIB_MUST_USE ZIB_NONNULL
struct zib_answer zib_chain(uint32_t *buffer, size_t buffer_words, uint32_t *scratch,
                            size_t scratch_words, struct zib_shape shape, const size_t *swaps,
                            size_t swap_count);

/*
 * Brings a block into the order that a number names by its release, by that order's plan. In
 * release 1 the number's list says which axis stands at each place, in release 2 at which place
 * each axis stands: number 18 in release 2 is order 9.
 * In:      the block, which fills the buffer; scratch as for zib_chain with that plan: the longest
 *          axis that has to pass another one, in both releases the same. No chain that names the
 *          order needs less; the longest axis always suffices.
 * Out:     the block in that order; of scratch that many first words are zero.
 * Answers 0, or the first of 1, 2, 3, 13, 14, 7, 4 that holds.
 */
ZIB_MUST_USE ZIB_NONNULL
struct zib_answer zib_request(uint32_t *buffer, size_t buffer_words, uint32_t *scratch,
                              size_t scratch_words, struct zib_shape shape, size_t release,
                              size_t order);

/*
 * The shortest chain that names an order and, among the shortest, the first in dictionary order.
 * In:      the order's number in release 1.
 * Out:     nothing but the swaps that are answered, which zib_chain takes.
 * Answers 0, or 7 where it holds.
 */
ZIB_MUST_USE
struct zib_planned zib_plan(size_t order);

/*
 * The same on five axes.
 * In:      as above; all five lengths are read, and a chain has at most 32 swaps here too.
 * Out:     as above.
 * Answers as above, in the same order of checks; a swap above 3 is 6, an order number above 119 is
 * 7.
 */
ZIB_MUST_USE ZIB_NONNULL
struct zib_answer zib_chain5(uint32_t *buffer, size_t buffer_words, uint32_t *scratch,
                             size_t scratch_words, struct zib_shape shape, const size_t *swaps,
                             size_t swap_count);
ZIB_MUST_USE ZIB_NONNULL
struct zib_answer zib_request5(uint32_t *buffer, size_t buffer_words, uint32_t *scratch,
                               size_t scratch_words, struct zib_shape shape, size_t release,
                               size_t order);
ZIB_MUST_USE
struct zib_planned zib_plan5(size_t order);

/* ---------------------------------------------------------------- sheets */

/*
 * Sheets: lines of text, fields parted by one tab, each line closed by one LF. `shape` and four
 * lengths; `chain` and the swaps; then for each row `row` and its words. A result sheet has `order`
 * and the order's number for its second line, or `order`, the release and the number. Sheets have
 * four axes, at most 1,024 words and at most 16,384 bytes.
 */

/* The lengths of a sheet's block, for the writers. */
struct zib_sheet_shape {
    size_t lengths[4];
};

/* What a sheet holds besides its words. In a refusal all but number and place is 0. */
struct zib_sheet {
    uint32_t number;
    size_t place;
    size_t lengths[4];
    size_t swaps[32]; /* unused ones are 0 */
    size_t count;     /* of the swaps */
};

/* How many bytes a writer wrote, 0 in a refusal. */
struct zib_written {
    uint32_t number;
    size_t count;
};

/*
 * Reads a sheet.
 * In:      the text, which is only read; a word buffer, of which 1,024 words always suffice.
 * Out:     the sheet's words from the start of the word buffer, if the whole sheet is right; later
 *          words stay.
 * Answers 0, or the first of 9, 10 (line 1), 1, 11, 3, 10 (line 2), 5, 6, 10 (each row, then what
 * is left over).
 */
ZIB_MUST_USE ZIB_NONNULL
struct zib_sheet zib_read_sheet(const uint8_t *text, size_t text_bytes, uint32_t *words,
                                size_t word_count);

/*
 * Writes the result sheet of a block with these lengths.
 * In:      the words, which are only read and of which there may be more than the block has; a byte
 *          buffer, of which 16,384 bytes always suffice.
 * Out:     the sheet from the start of the byte buffer; bytes after it stay.
 * Answers 0, or the first of 1, 11, 3, 7, 24 that holds.
 */
ZIB_MUST_USE ZIB_NONNULL
struct zib_written zib_write_result(struct zib_sheet_shape shape, size_t order,
                                    const uint32_t *words, size_t word_count, uint8_t *text,
                                    size_t text_bytes);

/*
 * Writes the result sheet that names the release of its order number: `order`, the release, the
 * number.
 * In, Out: as for zib_write_result.
 * Answers 0, or the first of 1, 11, 3, 14, 7, 24 that holds; release 0 is 14.
 */
ZIB_MUST_USE ZIB_NONNULL
struct zib_written zib_write_release(struct zib_sheet_shape shape, size_t release, size_t order,
                                     const uint32_t *words, size_t word_count, uint8_t *text,
                                     size_t text_bytes);

/* What a result sheet holds besides its words. In a refusal all but number and place is 0. */
struct zib_result_sheet {
    uint32_t number;
    size_t place;
    size_t lengths[4];
    size_t release; /* 0 where the sheet names none */
    size_t order;
};

/*
 * Reads a result sheet, with a release or without.
 * In:      the text, which is only read; a word buffer, of which 1,024 words always suffice.
 * Out:     the sheet's words from the start of the word buffer, if the whole sheet is right; later
 *          words stay. What zib_write_result or zib_write_release wrote reads back the same, and
 *          every accepted sheet is the one that the first, for release 0, or the second writes for
 *          those values.
 * Answers 0, or the first of 9, 10 (line 1), 1, 11, 3, 10 (line 2), 14, 7, 10 (each row, then what
 * is left over).
 */
ZIB_MUST_USE ZIB_NONNULL
struct zib_result_sheet zib_read_result(const uint8_t *text, size_t text_bytes, uint32_t *words,
                                        size_t word_count);

/*
 * What the whole job answers: number and place of the refusal, 0 and 0 of a right sheet, and how
 * many bytes its text has.
 */
struct zib_job_answer {
    uint32_t number;
    size_t place;
    size_t count;
};

/*
 * The whole job on a sheet.
 * In:      the text, which is only read; `words` and `scratch` of 1,024 words each, `out` of 16,384
 *          bytes.
 * Out:     the sheet's words, run through its chain, in `words`, and the text of the result sheet
 *          from the start of `out`; words past the block and bytes after the text stay. A refused
 *          sheet leaves words and scratch unchanged and writes one line: `refused`, number, place.
 * Answers 0, or the first of 9, 10 (line 1), 1, 11, 10 (line 2), 5, 6, 10 (each row, then what is
 * left over).
 */
ZIB_MUST_USE ZIB_NONNULL
struct zib_job_answer zib_job(const uint8_t *text, size_t text_bytes, uint32_t *words,
                              uint32_t *scratch, uint8_t *out);

/* ---------------------------------------------------------------- the join desk */

/*
 * An exchange is four readings in ticks of 27 MHz: sent, received, returned, received back (T1 to
 * T4). A run holds exchanges one after the other. Runs and shifts are only read, so they may
 * overlap one another; an empty run still has a pointer that is not null.
 */

/* The offset and the delay of an exchange; both are 0 in a refusal. */
struct zib_measured {
    uint32_t number;
    int64_t offset;
    int64_t delay;
};

/*
 * The offset ((T2-T1)+(T3-T4))/2 and the delay (T4-T1)-(T3-T2) of one exchange; a half offset is
 * rounded towards minus infinity. A negative delay is answered too.
 * In:      a run of four readings, each within 2 to the 60th either side of zero.
 * Out:     nothing but the offset and the delay that are answered.
 * Answers 0, or the first of 26, 18 that holds.
 */
ZIB_MUST_USE ZIB_NONNULL
struct zib_measured zib_offset_delay(const int64_t *run, size_t reading_count);

/* An offset in frames, 0 in a refusal. */
struct zib_frames {
    uint32_t number;
    int64_t frames;
};

/*
 * An offset as the nearest whole number of frames, an exact half towards plus infinity. No offset
 * of zib_offset_delay meets 18 here.
 * In:      the offset in ticks, and 1 to 1,000,000 ticks a frame.
 * Out:     nothing but the frames that are answered.
 * Answers 0, or the first of 21, 18 that holds.
 */
ZIB_MUST_USE
struct zib_frames zib_to_frames(int64_t offset, size_t ticks_per_frame);

/* The common frames run from `first` up to, not including, `end`. Both are 0 in a refusal. */
struct zib_joined {
    uint32_t number;
    int64_t first;
    int64_t end;
};

/*
 * The frames that all cameras have. No shift of zib_to_frames meets 18 here.
 * In:      the shifts, one a camera; each camera has `frames` frames from its shift on.
 * Out:     nothing but the two ends that are answered.
 * Answers 0, or the first of 1, 18, 20 that holds.
 */
ZIB_MUST_USE ZIB_NONNULL
struct zib_joined zib_join(const int64_t *shifts, size_t shift_count, size_t frames);

/* A part of a run: readings that stand in the run itself, and how many they are. */
struct zib_part {
    const int64_t *readings;
    size_t count;
};

/*
 * Chooses from two runs of the same camera, one a network path: the usable exchange with the
 * smallest delay, the first path winning ties and then the earlier exchange. A negative delay is
 * not usable.
 * In:      the runs, and in *part some part or run, the first run for instance; it does not lie in
 *          the runs.
 * Out:     in *part the four readings, as a part of the run that holds them; where the choice is
 *          refused, the empty start of the first run.
 * Answers nothing: zib_choose_number has the number of the choice.
 */
ZIB_NONNULL
void zib_choose(const int64_t *first, size_t first_count, const int64_t *second,
                size_t second_count, struct zib_part *part);

/*
 * The number of that choice.
 * In:      the runs.
 * Out:     nothing but the number that is answered.
 * Answers 0, or the first of 26, 18, 19 that holds, each for both runs.
 */
ZIB_MUST_USE ZIB_NONNULL
uint32_t zib_choose_number(const int64_t *first, size_t first_count, const int64_t *second,
                           size_t second_count);

/* ---------------------------------------------------------------- the version */

/*
 * ZIB_VERSION_NUMBER of the library that is linked. Its name has the version: a program whose
 * header is of another version than the library does not link. With ZIB_NO_VERSION_CHECK defined
 * the header does not ask, and a compiler without the attribute `retain` does not where the linker
 * drops what nothing names.
 */
uint32_t zib_version_3_0(void);
#if defined(__GNUC__) && !defined(ZIB_NO_VERSION_CHECK)
#if defined(__has_attribute)
#if __has_attribute(retain)
__attribute__((retain)) /* also by a linker that drops what nothing names */
#endif
#endif
__attribute__((used)) static uint32_t (*const zib_linked_version)(void) = zib_version_3_0;
#endif

#ifdef __cplusplus
}
#endif

#endif
