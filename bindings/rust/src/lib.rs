//! Blocks of 32-bit words rearranged within their buffer: safe calls over the proved archive.
//!
//! The archive's calls are proved for slices that are there, aligned and apart, and written by nobody else meanwhile. Safe Rust sees to all of
//! that, so these functions ask for nothing and need no test of their own. A refused call has changed nothing.
//!
//! Install the library by `./install.sh PREFIX` and build with `ZIBSNARDA_PREFIX=PREFIX`, or let pkg-config find it: build.rs says where the archive is.

use std::fmt;

/// Why a call was refused: the number of the library's table, and for some numbers a place.
#[derive(Clone, Copy, Debug, PartialEq, Eq)]
pub struct Refused {
    /// The number, never 0.
    pub number: u32,
    /// For 6 the first bad swap, from 0; for 10 the line of the sheet, from 1; for 22 the first pair that differs, from 0; else 0.
    pub place: usize,
}

/// Each number with its name in C and the sentence that says when it is given.
// The numbers: written by share/numbers.
const NUMBERS: [(u32, &str, &str); 25] = [
    (1, "ZIB_BAD_LENGTH", "an axis length is 0 or above 4,096; the camera count afterwards too; in joining the camera count or F"),
    (2, "ZIB_TOO_MANY_WORDS", "the lengths multiply to more than 1,048,576"),
    (3, "ZIB_SHORT_BUFFER", "the buffer has fewer words than the block"),
    (4, "ZIB_SHORT_SCRATCH", "scratch has fewer words than the call needs: a flat turn the longer side, a chain the longest axis that it exchanges, a request what its plan needs, tiles of r rows r times n words"),
    (5, "ZIB_LONG_CHAIN", "the chain has more than 32 swaps"),
    (6, "ZIB_BAD_SWAP", "a swap number is above 2, on five axes above 3; place is the first such, from 0"),
    (7, "ZIB_BAD_ORDER", "the order number is above 23, of five axes above 119"),
    (9, "ZIB_LONG_SHEET", "a sheet has more than 16,384 bytes"),
    (10, "ZIB_BAD_LINE", "a sheet line is malformed, missing or left over; place is its line number, from 1"),
    (11, "ZIB_LARGE_SHEET", "a sheet's lengths multiply to more than 1,024"),
    (12, "ZIB_PAST_LINES", "the lines done are more than the turn has"),
    (13, "ZIB_LONG_BUFFER", "the buffer has more words than the block (turns, chains, requests, tiles, running cycles; not cameras, sheets)"),
    (14, "ZIB_BAD_RELEASE", "the release of an order number is neither 1 nor 2"),
    (15, "ZIB_BAD_TILE", "a tile side is 0 or above 64"),
    (16, "ZIB_BAD_COLUMN", "a column number is above the last camera (removing) or above the camera count (adding)"),
    (17, "ZIB_NO_ROOM", "the buffer lacks room for the block with one camera more"),
    (18, "ZIB_FAR_NUMBER", "a reading is beyond 2 to the 60th either side of zero; an offset (to frames) or a shift (joining) beyond 2 to the 61st"),
    (19, "ZIB_NOTHING_USABLE", "no usable exchange exists: both runs are empty, or every delay is negative"),
    (20, "ZIB_NONE_COMMON", "no frame is common to all cameras"),
    (21, "ZIB_BAD_TICKS", "ticks per frame are outside 1 to 1,000,000"),
    (22, "ZIB_OTHER_CYCLES", "the list of cycles is not the right one; place is that of the first pair that differs, from 0, a missing, half or surplus pair counted by its place"),
    (23, "ZIB_PAST_STAGES", "the progress word is above twice the line count plus one"),
    (24, "ZIB_SHORT_BYTES", "the byte buffer is shorter than the result sheet"),
    (25, "ZIB_OTHER_COLUMN", "the column's length isn't the frame count"),
    (26, "ZIB_BAD_RUN", "a run isn't four readings (offset and delay); a run's length isn't a multiple of four (choosing)"),
];
// The end of the numbers.

impl Refused {
    /// The number's name in C.
    ///
    /// ```
    /// assert_eq!(zibsnarda::lines(0, 1).unwrap_err().name(), "ZIB_BAD_LENGTH");
    /// ```
    pub fn name(&self) -> &'static str {
        self.row().1
    }

    /// When the number is given, in a sentence.
    pub fn sentence(&self) -> &'static str {
        self.row().2
    }

    fn row(&self) -> (u32, &'static str, &'static str) {
        NUMBERS.into_iter().find(|row| row.0 == self.number).unwrap_or((self.number, "unknown", "a number of a later version"))
    }
}

impl fmt::Display for Refused {
    fn fmt(&self, f: &mut fmt::Formatter<'_>) -> fmt::Result {
        write!(f, "{} (number {}, place {})", self.sentence(), self.number, self.place)
    }
}

impl std::error::Error for Refused {}

/// What a call answers that can be refused.
pub type Answered<T> = Result<T, Refused>;

fn answered<T>(number: u32, place: usize, value: T) -> Answered<T> {
    match number {
        0 => Ok(value),
        _ => Err(Refused { number, place }),
    }
}

/// The lengths of four axes, the last fastest.
pub type Lengths = [usize; 4];

/// What a chain or a direct request on R axes answers: the new lengths, an order number, the swaps done. A chain answers the number of the order in which
/// the axes now stand, in release 1; a request the number that it was given.
#[derive(Clone, Copy, Debug, PartialEq, Eq)]
pub struct Answer<const R: usize> {
    pub lengths: [usize; R],
    pub order: usize,
    pub swaps: usize,
}

/// How far a turn by lines has come: the lines done.
#[repr(C)]
#[derive(Clone, Copy, Debug, Default, PartialEq, Eq)]
pub struct LineRecord {
    pub done: usize,
}

/// What a sheet holds besides its words: lengths and the chain.
#[derive(Clone, Debug, PartialEq, Eq)]
pub struct Sheet {
    pub lengths: Lengths,
    pub swaps: Vec<usize>,
}

/// What a result sheet holds besides its words: lengths, the release (0 where the sheet names none) and the order number.
#[derive(Clone, Copy, Debug, PartialEq, Eq)]
pub struct ResultSheet {
    pub lengths: Lengths,
    pub release: usize,
    pub order: usize,
}

/// The offset and the delay of an exchange, in ticks.
#[derive(Clone, Copy, Debug, PartialEq, Eq)]
pub struct Measured {
    pub offset: i64,
    pub delay: i64,
}

mod c {
    #[repr(C)]
    pub struct Counted {
        pub number: u32,
        pub count: usize,
    }

    #[repr(C)]
    pub struct Placed {
        pub number: u32,
        pub place: usize,
    }

    #[repr(C)]
    pub struct Shape {
        pub lengths: [usize; 5],
    }

    #[repr(C)]
    pub struct SheetShape {
        pub lengths: [usize; 4],
    }

    #[repr(C)]
    pub struct Answer {
        pub number: u32,
        pub place: usize,
        pub lengths: [usize; 5],
        pub order: usize,
        pub swaps: usize,
    }

    #[repr(C)]
    pub struct Planned {
        pub number: u32,
        pub swaps: [usize; 10],
        pub count: usize,
    }

    #[repr(C)]
    pub struct Sheet {
        pub number: u32,
        pub place: usize,
        pub lengths: [usize; 4],
        pub swaps: [usize; 32],
        pub count: usize,
    }

    #[repr(C)]
    pub struct ResultSheet {
        pub number: u32,
        pub place: usize,
        pub lengths: [usize; 4],
        pub release: usize,
        pub order: usize,
    }

    #[repr(C)]
    pub struct JobAnswer {
        pub number: u32,
        pub place: usize,
        pub count: usize,
    }

    #[repr(C)]
    pub struct Pair {
        pub number: u32,
        pub first: i64,
        pub second: i64,
    }

    #[repr(C)]
    pub struct Frames {
        pub number: u32,
        pub frames: i64,
    }

    #[repr(C)]
    pub struct Part {
        pub readings: *const i64,
        pub count: usize,
    }

    extern "C" {
        pub fn zib_turn(b: *mut u32, bn: usize, s: *mut u32, sn: usize, m: usize, n: usize) -> u32;
        pub fn zib_turn_back(b: *mut u32, bn: usize, s: *mut u32, sn: usize, m: usize, n: usize) -> u32;
        pub fn zib_turn_passes(b: *mut u32, bn: usize, s: *mut u32, sn: usize, m: usize, n: usize) -> u32;
        pub fn zib_turn_back_passes(b: *mut u32, bn: usize, s: *mut u32, sn: usize, m: usize, n: usize) -> u32;
        pub fn zib_turn_halves(b: *mut u32, bn: usize, m: usize, n: usize) -> u32;
        pub fn zib_lines(m: usize, n: usize) -> Counted;
        pub fn zib_tick(b: *mut u32, bn: usize, s: *mut u32, sn: usize, lines: *mut super::LineRecord, m: usize, n: usize) -> u32;
        pub fn zib_resume(b: *mut u32, bn: usize, s: *mut u32, sn: usize, progress: *mut u32, m: usize, n: usize, budget: usize) -> u32;
        pub fn zib_repeats(m: usize, n: usize) -> Counted;
        pub fn zib_remove_camera(b: *mut u32, bn: usize, frames: usize, cameras: usize, column: usize) -> u32;
        pub fn zib_add_camera(b: *mut u32, bn: usize, frames: usize, cameras: usize, column: usize, w: *const u32, wn: usize) -> u32;
        pub fn zib_judge_cycles(l: *const u32, ln: usize, m: usize, n: usize) -> Placed;
        pub fn zib_run_cycles(l: *const u32, ln: usize, b: *mut u32, bn: usize, m: usize, n: usize) -> Placed;
        pub fn zib_to_tiles(b: *mut u32, bn: usize, s: *mut u32, sn: usize, m: usize, n: usize, r: usize, t: usize) -> u32;
        pub fn zib_from_tiles(b: *mut u32, bn: usize, s: *mut u32, sn: usize, m: usize, n: usize, r: usize, t: usize) -> u32;
        pub fn zib_chain(b: *mut u32, bn: usize, s: *mut u32, sn: usize, shape: Shape, swaps: *const usize, count: usize) -> Answer;
        pub fn zib_request(b: *mut u32, bn: usize, s: *mut u32, sn: usize, shape: Shape, release: usize, order: usize) -> Answer;
        pub fn zib_plan(order: usize) -> Planned;
        pub fn zib_chain5(b: *mut u32, bn: usize, s: *mut u32, sn: usize, shape: Shape, swaps: *const usize, count: usize) -> Answer;
        pub fn zib_request5(b: *mut u32, bn: usize, s: *mut u32, sn: usize, shape: Shape, release: usize, order: usize) -> Answer;
        pub fn zib_plan5(order: usize) -> Planned;
        pub fn zib_read_sheet(t: *const u8, tn: usize, w: *mut u32, wn: usize) -> Sheet;
        pub fn zib_write_result(shape: SheetShape, order: usize, w: *const u32, wn: usize, t: *mut u8, tn: usize) -> Counted;
        pub fn zib_write_release(shape: SheetShape, release: usize, order: usize, w: *const u32, wn: usize, t: *mut u8, tn: usize) -> Counted;
        pub fn zib_read_result(t: *const u8, tn: usize, w: *mut u32, wn: usize) -> ResultSheet;
        pub fn zib_job(t: *const u8, tn: usize, w: *mut u32, s: *mut u32, out: *mut u8) -> JobAnswer;
        pub fn zib_offset_delay(run: *const i64, rn: usize) -> Pair;
        pub fn zib_to_frames(offset: i64, ticks: usize) -> Frames;
        pub fn zib_join(shifts: *const i64, sn: usize, frames: usize) -> Pair;
        pub fn zib_choose(f: *const i64, fnn: usize, s: *const i64, sn: usize, part: *mut Part);
        pub fn zib_version_3_0() -> u32;
        pub fn zib_choose_number(f: *const i64, fnn: usize, s: *const i64, sn: usize) -> u32;
    }
}

/// The name has the version: a program over an archive of another version does not link.
#[used]
static LINKED_VERSION: unsafe extern "C" fn() -> u32 = c::zib_version_3_0;

/// Turns the block of m rows and n columns that fills the buffer: the word at j·m + i is then the one that stood at i·n + j. Scratch has at
/// least max(m, n) words; that many first words of it are zero afterwards. 1, 2, 3, 13, 4.
///
/// ```
/// let mut block = [0, 1, 2, 3, 4, 5];
/// zibsnarda::turn(&mut block, &mut [0; 3], 2, 3).unwrap();
/// assert_eq!(block, [0, 3, 1, 4, 2, 5]);
/// ```
pub fn turn(buffer: &mut [u32], scratch: &mut [u32], m: usize, n: usize) -> Answered<()> {
    answered(unsafe { c::zib_turn(buffer.as_mut_ptr(), buffer.len(), scratch.as_mut_ptr(), scratch.len(), m, n) }, 0, ())
}

/// Undoes [`turn`] with the same m and n, the sides of the block as it was before the turn. 1, 2, 3, 13, 4.
///
/// ```
/// let mut block = [0, 3, 1, 4, 2, 5];
/// zibsnarda::turn_back(&mut block, &mut [0; 3], 2, 3).unwrap();
/// assert_eq!(block, [0, 1, 2, 3, 4, 5]);
/// ```
pub fn turn_back(buffer: &mut [u32], scratch: &mut [u32], m: usize, n: usize) -> Answered<()> {
    answered(unsafe { c::zib_turn_back(buffer.as_mut_ptr(), buffer.len(), scratch.as_mut_ptr(), scratch.len(), m, n) }, 0, ())
}

/// Leaves the same words as [`turn`], by three passes over the block: the method that [`tick`] and [`resume`] cut into lines. 1, 2, 3, 13, 4.
///
/// ```
/// let mut block = [0, 1, 2, 3, 4, 5];
/// zibsnarda::turn_passes(&mut block, &mut [0; 3], 2, 3).unwrap();
/// assert_eq!(block, [0, 3, 1, 4, 2, 5]);
/// ```
pub fn turn_passes(buffer: &mut [u32], scratch: &mut [u32], m: usize, n: usize) -> Answered<()> {
    answered(unsafe { c::zib_turn_passes(buffer.as_mut_ptr(), buffer.len(), scratch.as_mut_ptr(), scratch.len(), m, n) }, 0, ())
}

/// Leaves the same words as [`turn_back`], by three passes. 1, 2, 3, 13, 4.
///
/// ```
/// let mut block = [0, 3, 1, 4, 2, 5];
/// zibsnarda::turn_back_passes(&mut block, &mut [0; 3], 2, 3).unwrap();
/// assert_eq!(block, [0, 1, 2, 3, 4, 5]);
/// ```
pub fn turn_back_passes(buffer: &mut [u32], scratch: &mut [u32], m: usize, n: usize) -> Answered<()> {
    answered(unsafe { c::zib_turn_back_passes(buffer.as_mut_ptr(), buffer.len(), scratch.as_mut_ptr(), scratch.len(), m, n) }, 0, ())
}

/// Leaves the same words as [`turn`], by recursion and without scratch. 1, 2, 3, 13.
///
/// ```
/// let mut block = [0, 1, 2, 3, 4, 5];
/// zibsnarda::turn_halves(&mut block, 2, 3).unwrap();
/// assert_eq!(block, [0, 3, 1, 4, 2, 5]);
/// ```
pub fn turn_halves(buffer: &mut [u32], m: usize, n: usize) -> Answered<()> {
    answered(unsafe { c::zib_turn_halves(buffer.as_mut_ptr(), buffer.len(), m, n) }, 0, ())
}

/// How many lines a turn has: n + m + n where the sides share a factor, m + n otherwise. 1, 2.
///
/// ```
/// assert_eq!(zibsnarda::lines(64, 16), Ok(96));
/// assert_eq!(zibsnarda::lines(64, 15), Ok(79));
/// ```
pub fn lines(m: usize, n: usize) -> Answered<usize> {
    let l = unsafe { c::zib_lines(m, n) };
    answered(l.number, 0, l.count)
}

/// One line of [`turn`]: the line that the record names moves, and the record counts it; a call after the last changes neither block nor record. Scratch is as
/// for a turn. 1, 2, 3, 13, 4, 12.
///
/// ```
/// let (mut block, mut record) = ([0, 1, 2, 3, 4, 5], zibsnarda::LineRecord::default());
/// while record.done < zibsnarda::lines(2, 3).unwrap() {
///     zibsnarda::tick(&mut block, &mut [0; 3], &mut record, 2, 3).unwrap();
/// }
/// assert_eq!(block, [0, 3, 1, 4, 2, 5]);
/// ```
pub fn tick(buffer: &mut [u32], scratch: &mut [u32], record: &mut LineRecord, m: usize, n: usize) -> Answered<()> {
    answered(unsafe { c::zib_tick(buffer.as_mut_ptr(), buffer.len(), scratch.as_mut_ptr(), scratch.len(), record, m, n) }, 0, ())
}

/// A turn that may be stopped at any time, in memory that outlives the stop: goes on from the stage that the progress word names, 0 at first, and
/// stops after `budget` stores; 10,000,000 always finish. A stage's words are stored, then the progress word; the turn is done, and scratch zero, at
/// twice the count of [`lines`] plus one. 1, 2, 3, 13, 4, 23.
///
/// ```
/// let (mut block, mut scratch, mut progress) = ([0, 1, 2, 3, 4, 5], [0; 3], 0);
/// zibsnarda::resume(&mut block, &mut scratch, &mut progress, 2, 3, 7).unwrap(); // stopped on the way
/// zibsnarda::resume(&mut block, &mut scratch, &mut progress, 2, 3, 10_000_000).unwrap();
/// assert_eq!((block, progress), ([0, 3, 1, 4, 2, 5], 11));
/// ```
pub fn resume(buffer: &mut [u32], scratch: &mut [u32], progress: &mut u32, m: usize, n: usize, budget: usize) -> Answered<()> {
    let (b, bn, s, sn) = (buffer.as_mut_ptr(), buffer.len(), scratch.as_mut_ptr(), scratch.len());
    answered(unsafe { c::zib_resume(b, bn, s, sn, progress, m, n, budget) }, 0, ())
}

/// How often a turn with the same m and n is repeated, at least once, until every block of that shape is home. 1, 2.
///
/// ```
/// assert_eq!(zibsnarda::repeats(64, 16), Ok(5));
/// ```
pub fn repeats(m: usize, n: usize) -> Answered<usize> {
    let h = unsafe { c::zib_repeats(m, n) };
    answered(h.number, 0, h.count)
}

/// Removes a column (from 0) of a block of one row a frame and one column a camera, in a buffer that may be longer: the others close up, the
/// freed words become zero. 1, 2, 3, 16.
///
/// ```
/// let mut block = [0, 1, 2, 3, 4, 5];
/// zibsnarda::remove_camera(&mut block, 2, 3, 1).unwrap();
/// assert_eq!(block, [0, 2, 3, 5, 0, 0]);
/// ```
pub fn remove_camera(buffer: &mut [u32], frames: usize, cameras: usize, column: usize) -> Answered<()> {
    answered(unsafe { c::zib_remove_camera(buffer.as_mut_ptr(), buffer.len(), frames, cameras, column) }, 0, ())
}

/// Adds a column at a place (from 0 to the camera count), one word a frame, using the words that follow the block. 1, 2, 3, 16, 17, 25.
///
/// ```
/// let mut block = [0, 2, 3, 5, 0, 0];
/// zibsnarda::add_camera(&mut block, 2, 2, 1, &[1, 4]).unwrap();
/// assert_eq!(block, [0, 1, 2, 3, 4, 5]);
/// ```
pub fn add_camera(buffer: &mut [u32], frames: usize, cameras: usize, column: usize, words: &[u32]) -> Answered<()> {
    answered(
        unsafe { c::zib_add_camera(buffer.as_mut_ptr(), buffer.len(), frames, cameras, column, words.as_ptr(), words.len()) },
        0,
        (),
    )
}

/// Judges a list of the cycles of [`turn`]: for every cycle once its least offset and its length, starts rising. 1, 2, 22 with the place.
///
/// ```
/// assert_eq!(zibsnarda::judge_cycles(&[0, 1, 1, 4, 5, 1], 2, 3), Ok(()));
/// assert_eq!(zibsnarda::judge_cycles(&[0, 1, 1, 3, 5, 1], 2, 3).unwrap_err().place, 1);
/// ```
pub fn judge_cycles(list: &[u32], m: usize, n: usize) -> Answered<()> {
    let j = unsafe { c::zib_judge_cycles(list.as_ptr(), list.len(), m, n) };
    answered(j.number, j.place, ())
}

/// Judges such a list and moves the words of the block along its cycles, without scratch. 1, 2, 3, 13, 22 with the place.
///
/// ```
/// let mut block = [0, 1, 2, 3, 4, 5];
/// zibsnarda::run_cycles(&[0, 1, 1, 4, 5, 1], &mut block, 2, 3).unwrap();
/// assert_eq!(block, [0, 3, 1, 4, 2, 5]);
/// ```
pub fn run_cycles(list: &[u32], buffer: &mut [u32], m: usize, n: usize) -> Answered<()> {
    let j = unsafe { c::zib_run_cycles(list.as_ptr(), list.len(), buffer.as_mut_ptr(), buffer.len(), m, n) };
    answered(j.number, j.place, ())
}

/// Stores the block of m rows and n columns as tiles of r by s words, tiles row by row, each stored together row by row. Scratch has at least
/// r·n words. 1, 2, 15, 3, 13, 4.
///
/// ```
/// let mut block = [0, 1, 2, 3, 4, 5, 6, 7];
/// zibsnarda::to_tiles(&mut block, &mut [0; 8], 2, 4, 2, 2).unwrap();
/// assert_eq!(block, [0, 1, 4, 5, 2, 3, 6, 7]);
/// ```
pub fn to_tiles(buffer: &mut [u32], scratch: &mut [u32], m: usize, n: usize, r: usize, s: usize) -> Answered<()> {
    answered(unsafe { c::zib_to_tiles(buffer.as_mut_ptr(), buffer.len(), scratch.as_mut_ptr(), scratch.len(), m, n, r, s) }, 0, ())
}

/// Undoes [`to_tiles`] with the same numbers. 1, 2, 15, 3, 13, 4.
///
/// ```
/// let mut block = [0, 1, 4, 5, 2, 3, 6, 7];
/// zibsnarda::from_tiles(&mut block, &mut [0; 8], 2, 4, 2, 2).unwrap();
/// assert_eq!(block, [0, 1, 2, 3, 4, 5, 6, 7]);
/// ```
pub fn from_tiles(buffer: &mut [u32], scratch: &mut [u32], m: usize, n: usize, r: usize, s: usize) -> Answered<()> {
    answered(unsafe { c::zib_from_tiles(buffer.as_mut_ptr(), buffer.len(), scratch.as_mut_ptr(), scratch.len(), m, n, r, s) }, 0, ())
}

/// The first R lengths of a shape for the archive, and what it answers about them.
fn shape<const R: usize>(lengths: [usize; R]) -> c::Shape {
    let mut five = [0; 5];
    five[..R].copy_from_slice(&lengths);
    c::Shape { lengths: five }
}

fn moved<const R: usize>(a: c::Answer) -> Answered<Answer<R>> {
    let mut lengths = [0; R];
    lengths.copy_from_slice(&a.lengths[..R]);
    answered(a.number, a.place, Answer { lengths, order: a.order, swaps: a.swaps })
}

/// Runs a chain of at most 32 swaps on a block of four axes; swap k exchanges the axes at places k and k + 1. Scratch has as many words as the
/// longest axis that the chain exchanges. 1, 2, 3, 13, 5, 6 with the place, 4.
///
/// ```
/// let mut block = [0, 1, 2, 3, 4, 5];
/// let moved = zibsnarda::chain(&mut block, &mut [0; 3], [1, 1, 2, 3], &[2]).unwrap();
/// assert_eq!((block, moved.lengths, moved.order), ([0, 3, 1, 4, 2, 5], [1, 1, 3, 2], 1));
/// ```
pub fn chain(buffer: &mut [u32], scratch: &mut [u32], lengths: Lengths, swaps: &[usize]) -> Answered<Answer<4>> {
    let (b, bn, s, sn) = (buffer.as_mut_ptr(), buffer.len(), scratch.as_mut_ptr(), scratch.len());
    moved(unsafe { c::zib_chain(b, bn, s, sn, shape(lengths), swaps.as_ptr(), swaps.len()) })
}

/// [`chain`] on five axes, with swaps 0 to 3.
///
/// ```
/// let mut block = [0, 1, 2, 3, 4, 5];
/// let moved = zibsnarda::chain5(&mut block, &mut [0; 3], [1, 1, 1, 2, 3], &[3]).unwrap();
/// assert_eq!((block, moved.lengths, moved.order), ([0, 3, 1, 4, 2, 5], [1, 1, 1, 3, 2], 1));
/// ```
pub fn chain5(buffer: &mut [u32], scratch: &mut [u32], lengths: [usize; 5], swaps: &[usize]) -> Answered<Answer<5>> {
    let (b, bn, s, sn) = (buffer.as_mut_ptr(), buffer.len(), scratch.as_mut_ptr(), scratch.len());
    moved(unsafe { c::zib_chain5(b, bn, s, sn, shape(lengths), swaps.as_ptr(), swaps.len()) })
}

/// Brings a block into the order that a number names by its release (1 or 2), by that order's plan. Scratch is as for [`chain`] with that plan.
/// 1, 2, 3, 13, 14, 7, 4.
///
/// ```
/// let mut block = [0, 1, 2, 3, 4, 5];
/// let moved = zibsnarda::request(&mut block, &mut [0; 3], [1, 1, 2, 3], 1, 1).unwrap();
/// assert_eq!((block, moved.swaps), ([0, 3, 1, 4, 2, 5], 1));
/// ```
pub fn request(buffer: &mut [u32], scratch: &mut [u32], lengths: Lengths, release: usize, order: usize) -> Answered<Answer<4>> {
    let (b, bn, s, sn) = (buffer.as_mut_ptr(), buffer.len(), scratch.as_mut_ptr(), scratch.len());
    moved(unsafe { c::zib_request(b, bn, s, sn, shape(lengths), release, order) })
}

/// [`request`] on five axes, with order numbers 0 to 119.
///
/// ```
/// let mut block = [0, 1, 2, 3, 4, 5];
/// let moved = zibsnarda::request5(&mut block, &mut [0; 3], [1, 1, 1, 2, 3], 1, 1).unwrap();
/// assert_eq!((block, moved.swaps), ([0, 3, 1, 4, 2, 5], 1));
/// ```
pub fn request5(buffer: &mut [u32], scratch: &mut [u32], lengths: [usize; 5], release: usize, order: usize) -> Answered<Answer<5>> {
    let (b, bn, s, sn) = (buffer.as_mut_ptr(), buffer.len(), scratch.as_mut_ptr(), scratch.len());
    moved(unsafe { c::zib_request5(b, bn, s, sn, shape(lengths), release, order) })
}

/// The shortest chain that names an order of four axes, of release 1, and, among the shortest, the first in dictionary order. 7.
///
/// ```
/// assert_eq!(zibsnarda::plan(9), Ok(vec![0, 1, 2]));
/// ```
pub fn plan(order: usize) -> Answered<Vec<usize>> {
    let p = unsafe { c::zib_plan(order) };
    answered(p.number, 0, p.swaps[..p.count].to_vec())
}

/// [`plan`] of an order of five axes.
///
/// ```
/// assert_eq!(zibsnarda::plan5(119).unwrap().len(), 10);
/// ```
pub fn plan5(order: usize) -> Answered<Vec<usize>> {
    let p = unsafe { c::zib_plan5(order) };
    answered(p.number, 0, p.swaps[..p.count].to_vec())
}

/// Reads a sheet and stores its words from the start of the word buffer, if the whole sheet is right. 9, 10, 1, 11, 3, 10, 5, 6, 10.
///
/// ```
/// let mut words = [0; 2];
/// let sheet = zibsnarda::read_sheet(b"shape\t1\t1\t1\t2\nchain\t2\nrow\t7\t8\n", &mut words).unwrap();
/// assert_eq!((sheet.lengths, sheet.swaps, words), ([1, 1, 1, 2], vec![2], [7, 8]));
/// ```
pub fn read_sheet(text: &[u8], words: &mut [u32]) -> Answered<Sheet> {
    let s = unsafe { c::zib_read_sheet(text.as_ptr(), text.len(), words.as_mut_ptr(), words.len()) };
    answered(s.number, s.place, Sheet { lengths: s.lengths, swaps: s.swaps[..s.count].to_vec() })
}

/// Writes the result sheet of a block from the start of the byte buffer, and answers how many bytes it has. 16,384 always suffice.
/// 1, 11, 3, 7, 24.
///
/// ```
/// let mut text = [0; 64];
/// let count = zibsnarda::write_result([1, 1, 1, 2], 0, &[7, 8], &mut text).unwrap();
/// assert_eq!(&text[..count], b"shape\t1\t1\t1\t2\norder\t0\nrow\t7\t8\n");
/// ```
pub fn write_result(lengths: Lengths, order: usize, words: &[u32], text: &mut [u8]) -> Answered<usize> {
    let w = unsafe { c::zib_write_result(c::SheetShape { lengths }, order, words.as_ptr(), words.len(), text.as_mut_ptr(), text.len()) };
    answered(w.number, 0, w.count)
}

/// Writes the result sheet that names the release of its order number. 1, 11, 3, 14, 7, 24.
///
/// ```
/// let mut text = [0; 64];
/// let count = zibsnarda::write_release([1, 1, 1, 2], 2, 0, &[7, 8], &mut text).unwrap();
/// assert_eq!(&text[..count], b"shape\t1\t1\t1\t2\norder\t2\t0\nrow\t7\t8\n");
/// ```
pub fn write_release(lengths: Lengths, release: usize, order: usize, words: &[u32], text: &mut [u8]) -> Answered<usize> {
    let (w, wn, t, tn) = (words.as_ptr(), words.len(), text.as_mut_ptr(), text.len());
    let w = unsafe { c::zib_write_release(c::SheetShape { lengths }, release, order, w, wn, t, tn) };
    answered(w.number, 0, w.count)
}

/// Reads a result sheet, with a release or without. 9, 10, 1, 11, 3, 10, 14, 7, 10.
///
/// ```
/// let mut words = [0; 2];
/// let result = zibsnarda::read_result(b"shape\t1\t1\t1\t2\norder\t2\t0\nrow\t7\t8\n", &mut words).unwrap();
/// assert_eq!((result.release, result.order, words), (2, 0, [7, 8]));
/// ```
pub fn read_result(text: &[u8], words: &mut [u32]) -> Answered<ResultSheet> {
    let s = unsafe { c::zib_read_result(text.as_ptr(), text.len(), words.as_mut_ptr(), words.len()) };
    answered(s.number, s.place, ResultSheet { lengths: s.lengths, release: s.release, order: s.order })
}

/// What the whole job leaves: the bytes of its text, and why the sheet was refused, if it was; the text then says so too.
#[must_use]
#[derive(Clone, Copy, Debug, PartialEq, Eq)]
pub struct JobAnswer {
    pub count: usize,
    pub refused: Option<Refused>,
}

/// The whole job on a sheet: its words, run through its chain, stand in `words` afterwards, and the text of the result sheet, or one line that
/// says `refused`, number, place, at the start of `out`. A refused sheet leaves words and scratch unchanged. 9, 10, 1, 11, 10, 5, 6, 10.
///
/// ```
/// let (mut words, mut scratch, mut out) = ([0; 1024], [0; 1024], [0; 16384]);
/// let told = zibsnarda::job(b"shape\t1\t1\t1\t2\nchain\t2\nrow\t7\t8\n", &mut words, &mut scratch, &mut out);
/// assert_eq!(&out[..told.count], b"shape\t1\t1\t2\t1\norder\t1\nrow\t7\nrow\t8\n");
/// assert_eq!(zibsnarda::job(b"", &mut words, &mut scratch, &mut out).refused.unwrap().number, 10);
/// ```
pub fn job(text: &[u8], words: &mut [u32; 1024], scratch: &mut [u32; 1024], out: &mut [u8; 16384]) -> JobAnswer {
    let d = unsafe { c::zib_job(text.as_ptr(), text.len(), words.as_mut_ptr(), scratch.as_mut_ptr(), out.as_mut_ptr()) };
    JobAnswer { count: d.count, refused: answered(d.number, d.place, ()).err() }
}

/// The offset and the delay of one exchange of four readings in ticks: sent, received, returned, received back. 26, 18.
///
/// ```
/// let measured = zibsnarda::offset_delay(&[0, 7, 9, 10]).unwrap();
/// assert_eq!((measured.offset, measured.delay), (3, 8));
/// ```
pub fn offset_delay(run: &[i64]) -> Answered<Measured> {
    let p = unsafe { c::zib_offset_delay(run.as_ptr(), run.len()) };
    answered(p.number, 0, Measured { offset: p.first, delay: p.second })
}

/// An offset as the nearest whole number of frames, an exact half towards plus infinity. 21, 18.
///
/// ```
/// assert_eq!(zibsnarda::to_frames(-3, 2), Ok(-1));
/// ```
pub fn to_frames(offset: i64, ticks_per_frame: usize) -> Answered<i64> {
    let f = unsafe { c::zib_to_frames(offset, ticks_per_frame) };
    answered(f.number, 0, f.frames)
}

/// The frames that all cameras have, one shift a camera, each with `frames` frames from its shift on. 1, 18, 20.
///
/// ```
/// assert_eq!(zibsnarda::join(&[0, 3, -2], 10), Ok(3..8));
/// ```
pub fn join(shifts: &[i64], frames: usize) -> Answered<std::ops::Range<i64>> {
    let p = unsafe { c::zib_join(shifts.as_ptr(), shifts.len(), frames) };
    answered(p.number, 0, p.first..p.second)
}

/// The four readings of the usable exchange with the smallest delay, of two runs of the same camera, the first path winning ties and then the
/// earlier exchange: a part of the run that holds them. 26, 18, 19.
///
/// ```
/// assert_eq!(zibsnarda::choose(&[0, 7, 9, 10], &[0, 2, 3, 4]), Ok(&[0, 2, 3, 4][..]));
/// ```
pub fn choose<'a>(first: &'a [i64], second: &'a [i64]) -> Answered<&'a [i64]> {
    let (f, fnn, s, sn) = (first.as_ptr(), first.len(), second.as_ptr(), second.len());
    let number = unsafe { c::zib_choose_number(f, fnn, s, sn) };
    let mut part = c::Part { readings: f, count: fnn };
    unsafe { c::zib_choose(f, fnn, s, sn, &mut part) };
    // the part lies in one of the two runs, and both live for 'a
    answered(number, 0, unsafe { std::slice::from_raw_parts(part.readings, part.count) })
}
