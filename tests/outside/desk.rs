// Document 02, item 10: the join desk, with integers wide enough for every sum.
use crate::cases::Cases;
use crate::driver::{readings, Answer, Request, AT_END, CHOOSE, CHOOSE_NUMBER, JOIN, OFFSET_DELAY, TO_FRAMES};
use crate::random::Random;
use crate::reference::{bad_length, first};

const READING: i64 = 1 << 60;
const SHIFT: i64 = 1 << 61;

fn beyond(limit: i64, v: i64) -> bool {
    (v as i128).abs() > limit as i128
}

fn far(run: &[i64]) -> bool {
    run.iter().any(|&v| beyond(READING, v))
}

fn delay(four: &[i64]) -> i128 {
    let t: Vec<i128> = four.iter().map(|&v| v as i128).collect();
    (t[3] - t[0]) - (t[2] - t[1])
}

// Halves down: the largest whole number whose double is not above the sum.
fn offset(four: &[i64]) -> i128 {
    let t: Vec<i128> = four.iter().map(|&v| v as i128).collect();
    let sum = (t[1] - t[0]) + (t[2] - t[3]);
    let mut half = sum / 2;
    while 2 * half > sum {
        half -= 1;
    }
    half
}

fn measure(t: &mut Cases, run: &[i64]) {
    let number = first(&[(26, run.len() != 4), (18, far(run))]);
    let (o, d) = if number == 0 { (offset(run), delay(run)) } else { (0, 0) };
    let q = Request { call: OFFSET_DELAY, numbers: vec![], buffers: vec![readings(run)] };
    let e = Answer { numbers: vec![number, o as i64 as u64, d as i64 as u64], buffers: vec![readings(run)] };
    t.expect_both(&q, &e, || format!("offset and delay of {:?}", run));
    if number == 0 {
        frames(t, o as i64, 27);
        t.verdict(!beyond(SHIFT, o as i64), || format!("the offset of {:?} is too far for frames", run));
    }
}

// The frame below, or the next one where at least half a frame is left.
fn nearest(offset: i64, ticks: u64) -> i128 {
    let (o, t) = (offset as i128, ticks as i128);
    let below = o.div_euclid(t);
    if 2 * (o - below * t) >= t {
        below + 1
    } else {
        below
    }
}

fn frames(t: &mut Cases, offset: i64, ticks: u64) {
    let number = first(&[(21, ticks == 0 || ticks > 1_000_000), (18, beyond(SHIFT, offset))]);
    let f = if number == 0 { nearest(offset, ticks) } else { 0 };
    let q = Request { call: TO_FRAMES, numbers: vec![offset as u64, ticks], buffers: vec![] };
    let e = Answer { numbers: vec![number, f as i64 as u64], buffers: vec![] };
    t.expect(AT_END, &q, &e, || format!("offset {} at {} ticks a frame", offset, ticks));
    if number == 0 {
        t.verdict(f.abs() <= SHIFT as i128, || format!("the frames of offset {} at {} are too far for joining", offset, ticks));
    }
}

// Every camera's stretch cut with the others'.
fn common(shifts: &[i64], frames: u64) -> Option<(i128, i128)> {
    let mut stretch = (shifts[0] as i128, shifts[0] as i128 + frames as i128);
    for &s in shifts {
        stretch = (stretch.0.max(s as i128), stretch.1.min(s as i128 + frames as i128));
    }
    if stretch.0 < stretch.1 {
        Some(stretch)
    } else {
        None
    }
}

fn join(t: &mut Cases, shifts: &[i64], frames: u64) {
    let counts = bad_length(&[shifts.len() as u64, frames]);
    let too_far = shifts.iter().any(|&s| beyond(SHIFT, s));
    let stretch = if counts || too_far { None } else { common(shifts, frames) };
    let number = first(&[(1, counts), (18, too_far), (20, stretch.is_none())]);
    let ends = stretch.unwrap_or((0, 0));
    let q = Request { call: JOIN, numbers: vec![frames], buffers: vec![readings(shifts)] };
    let e = Answer { numbers: vec![number, ends.0 as i64 as u64, ends.1 as i64 as u64], buffers: vec![readings(shifts)] };
    t.expect_both(&q, &e, || format!("join of {} shifts {:?}, {} frames", shifts.len(), &shifts[..shifts.len().min(8)], frames));
}

// Frame by frame: a frame is common where every camera has it.
fn join_by_frames(t: &mut Cases, shifts: &[i64], frames: u64) {
    let has = |f: i64| shifts.iter().all(|&s| s <= f && f < s + frames as i64);
    let all: Vec<i64> = (-40..40).filter(|&f| has(f)).collect();
    let expected = all.first().map(|&f| (f as i128, f as i128 + all.len() as i128));
    t.verdict(expected == common(shifts, frames), || format!("common frames of {:?}, {}", shifts, frames));
    join(t, shifts, frames);
}

// All usable exchanges of both runs, sorted by delay, path and place: the first is the choice.
fn chosen(runs: [&[i64]; 2]) -> Option<(usize, usize)> {
    let mut all: Vec<(i128, usize, usize)> = vec![];
    for (path, run) in runs.iter().enumerate() {
        for (j, four) in run.chunks(4).enumerate() {
            if delay(four) >= 0 {
                all.push((delay(four), path, j));
            }
        }
    }
    all.sort();
    all.first().map(|&(_, path, j)| (path, j))
}

fn choose(t: &mut Cases, one: &[i64], two: &[i64]) {
    let ragged = one.len() % 4 != 0 || two.len() % 4 != 0;
    let choice = if ragged || far(one) || far(two) { None } else { chosen([one, two]) };
    let number = first(&[(26, ragged), (18, far(one) || far(two)), (19, choice.is_none())]);
    let mut part = vec![0, 0, 0];
    if let Some((path, j)) = choice {
        part = vec![path as u64, 32 * j as u64, 4];
        part.extend([one, two][path][4 * j..4 * j + 4].iter().map(|&v| v as u64));
    }
    let lent = vec![readings(one), readings(two)];
    let label = || format!("choice of {} and {} readings, {:?} and {:?}", one.len(), two.len(), &one[..one.len().min(12)], &two[..two.len().min(12)]);
    let q = Request { call: CHOOSE, numbers: vec![], buffers: lent.clone() };
    t.expect_both(&q, &Answer { numbers: part, buffers: lent.clone() }, label);
    let q = Request { call: CHOOSE_NUMBER, numbers: vec![], buffers: lent.clone() };
    t.expect_both(&q, &Answer { numbers: vec![number], buffers: lent }, || format!("number of the {}", label()));
}

// Four readings with this delay, and any offset.
fn exchange(r: &mut Random, delay: i64) -> Vec<i64> {
    let sent = r.below(1 << 40) as i64 - (1 << 39);
    let there = r.below(1 << 40) as i64 - (1 << 39);
    let held = r.below(1000) as i64 - 500;
    vec![sent, there, there + held, sent + delay + held]
}

fn run_of(r: &mut Random, delays: &[i64]) -> Vec<i64> {
    delays.iter().flat_map(|&d| exchange(r, d)).collect()
}

// Each list of `length` of these values.
fn lists(values: &[i64], length: usize) -> Vec<Vec<i64>> {
    (0..length).fold(vec![vec![]], |all, _| all.iter().flat_map(|l| values.iter().map(move |&v| [&l[..], &[v]].concat())).collect())
}

fn measures(t: &mut Cases, r: &mut Random) {
    let near: Vec<i64> = if t.short { vec![-1, 0, 1] } else { vec![-3, -2, -1, 0, 1, 2, 3] };
    for run in lists(&near, 4) {
        measure(t, &run);
    }
    t.group("offset and delay: every rounding around zero");
    let ends = if t.short { vec![-READING, 1, READING] } else { vec![-READING, 1 - READING, -1, 0, 1, READING - 1, READING] };
    for run in lists(&ends, 4) {
        measure(t, &run);
    }
    for _ in 0..if t.short { 50 } else { 2000 } {
        let run: Vec<i64> = (0..4).map(|_| (r.next() as i64) >> (r.below(60) + 3)).collect();
        measure(t, &run);
    }
    t.group("offset and delay: readings up to 2 to the 60th either side of zero");
    for length in 0..=9 {
        measure(t, &vec![7; length]);
        for place in 0..length {
            for &v in &[READING + 1, -READING - 1, i64::MIN, i64::MAX, READING, -READING] {
                let mut run = vec![7; length];
                run[place] = v;
                measure(t, &run);
            }
        }
    }
    t.group("offset and delay refused: every length to 9, every place of a far reading");
}

fn to_frames(t: &mut Cases, r: &mut Random) {
    let (span, most) = if t.short { (12, 5) } else { (60, 24) };
    for ticks in 1..=most {
        for offset in -span..=span {
            frames(t, offset, ticks);
        }
    }
    t.group("frames: every rounding around zero and around halves");
    let ticks = [1, 2, 3, 450_000, 450_450, 999_999, 1_000_000, 900_900, 27];
    for &n in &ticks {
        for &v in &[SHIFT, SHIFT - 1, -SHIFT, 1 - SHIFT, 0, 1, -1] {
            frames(t, v, n);
        }
        for _ in 0..if t.short { 5 } else { 100 } {
            let k = (r.next() as i64 >> (r.below(40) + 3)) / n as i64;
            for step in -1..=1 {
                frames(t, k * n as i64 + n as i64 / 2 + step, n);
            }
        }
    }
    t.group("frames: offsets up to 2 to the 61st, around halves");
    for &n in &[0, 1, 1_000_000, 1_000_001, 1 << 32, (1 << 32) + 1, 1 << 63, u64::MAX, (-27i64) as u64] {
        for &v in &[0, SHIFT, SHIFT + 1, -SHIFT, -SHIFT - 1, i64::MIN, i64::MAX] {
            frames(t, v, n);
        }
    }
    t.group("frames refused: ticks at every bound, offsets at every bound");
}

fn joins(t: &mut Cases, r: &mut Random) {
    let near: Vec<i64> = if t.short { vec![-2, 0, 1] } else { vec![-3, -2, -1, 0, 1, 2, 3] };
    for cameras in 1..=3 {
        for shifts in lists(&near, cameras) {
            for frames in 1..=7 {
                join_by_frames(t, &shifts, frames);
            }
        }
    }
    t.group("joins: every set of small shifts, frame by frame");
    for _ in 0..if t.short { 20 } else { 400 } {
        let cameras = 1 + r.below(if t.short { 40 } else { 4096 }) as usize;
        let middle = (r.next() as i64) >> 3;
        let spread = 1 + r.below(6000);
        let shifts: Vec<i64> = (0..cameras).map(|_| (middle + r.below(spread) as i64).clamp(-SHIFT, SHIFT)).collect();
        join(t, &shifts, 1 + r.below(4096));
    }
    t.group("joins of many cameras");
    for shifts in lists(&[-SHIFT, 1 - SHIFT, 0, SHIFT - 1, SHIFT, SHIFT + 1, -SHIFT - 1, i64::MIN, i64::MAX], 2) {
        for &frames in &[0, 1, 2, 4096, 4097, 1 << 32, u64::MAX, (-1i64) as u64] {
            join(t, &shifts, frames);
        }
    }
    for &cameras in &[0, 1, 4095, 4096, 4097, 5000] {
        for &frames in &[0, 1, 4096, 4097] {
            join(t, &vec![5; cameras], frames);
            if cameras > 0 {
                let mut shifts = vec![5; cameras];
                shifts[cameras - 1] = SHIFT + 1;
                join(t, &shifts, frames);
            }
        }
    }
    t.group("joins: shifts at 2 to the 61st, counts at every bound, refusals in order");
}

fn choices(t: &mut Cases, r: &mut Random) {
    let delays: Vec<i64> = if t.short { vec![-1, 0, 1] } else { vec![-2, -1, 0, 1, 2] };
    for (a, b) in [(0, 0), (0, 1), (1, 0), (1, 1), (0, 2), (2, 0), (1, 2), (2, 1), (2, 2)] {
        for one in lists(&delays, a) {
            for two in lists(&delays, b) {
                let (one, two) = (run_of(r, &one), run_of(r, &two));
                choose(t, &one, &two);
            }
        }
    }
    t.group("choices: every set of small delays, up to two exchanges a path");
    for _ in 0..if t.short { 20 } else { 600 } {
        let few = 1 + r.below(6) as i64;
        let mut run = |most: u64| {
            let count = r.below(most);
            let delays: Vec<i64> = (0..count).map(|_| r.below(few as u64 + 2) as i64 - 1).collect();
            run_of(r, &delays)
        };
        let (one, two) = (run(40), run(40));
        choose(t, &one, &two);
    }
    t.group("choices of longer runs, with ties within and across the paths");
    for one in lists(&[-READING, 0, READING], 4) {
        choose(t, &one, &[READING, -READING, READING, READING]);
        choose(t, &[-READING, READING, -READING, READING], &one);
        choose(t, &one, &one);
    }
    t.group("choices: readings at 2 to the 60th");
    let most = if t.short { 5 } else { 9 };
    for a in 0..=most {
        for b in 0..=most {
            for &v in &[0, READING, READING + 1, -READING - 1, i64::MIN, i64::MAX] {
                let (mut one, mut two) = (vec![0; a], vec![0; b]);
                choose(t, &one, &two);
                if let Some(last) = one.last_mut() {
                    *last = v;
                }
                choose(t, &one, &two);
                if let Some(last) = two.last_mut() {
                    *last = v;
                }
                choose(t, &one, &two);
                choose(t, &vec![0; a], &two);
            }
        }
    }
    t.group(&format!("choices refused: every length to {}, far readings in either run, refusals in order", most));
}

pub fn all(t: &mut Cases, seed: u64) {
    let mut r = Random::new(seed);
    measures(t, &mut r);
    to_frames(t, &mut r);
    joins(t, &mut r);
    choices(t, &mut r);
}
