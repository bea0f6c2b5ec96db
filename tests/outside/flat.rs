// The flat turn and its reverse, by strips and by passes, and the flat turn by recursion.
use crate::cases::Cases;
use crate::driver::{words, Answer, Request, TURN, TURN_BACK, TURN_BACK_PASSES, TURN_HALVES, TURN_PASSES};
use crate::random::Random;
use crate::reference::{block_checks, cleared, first, scratch_checks, turned, turned_back};

const CALLS: [u64; 5] = [TURN, TURN_BACK, TURN_PASSES, TURN_BACK_PASSES, TURN_HALVES];

fn name(call: u64) -> &'static str {
    match call {
        TURN => "turn",
        TURN_BACK => "turn back",
        TURN_PASSES => "turn by passes",
        TURN_BACK_PASSES => "turn back by passes",
        _ => "turn by halves",
    }
}

// A call and the outcome that document 01 fixes for it.
fn case(call: u64, m: u64, n: u64, buffer: &[u32], scratch: &[u32]) -> (Request, Answer) {
    let sides = [m, n];
    let takes_scratch = call != TURN_HALVES;
    let number = if takes_scratch {
        first(&scratch_checks(&sides, buffer.len(), scratch.len()))
    } else {
        first(&block_checks(&sides, buffer.len()))
    };
    let mut lent = vec![words(buffer)];
    let mut left = vec![words(buffer)];
    if takes_scratch {
        lent.push(words(scratch));
        left.push(words(scratch));
    }
    if number == 0 {
        let (m, n) = (m as usize, n as usize);
        left[0] = words(&if matches!(call, TURN_BACK | TURN_BACK_PASSES) { turned_back(buffer, m, n) } else { turned(buffer, m, n) });
        if takes_scratch {
            left[1] = words(&cleared(scratch, &sides));
        }
    }
    let request = Request { call, numbers: vec![m, n], buffers: lent };
    (request, Answer { numbers: vec![number], buffers: left })
}

fn try_call(t: &mut Cases, call: u64, m: u64, n: u64, buffer: &[u32], scratch: &[u32]) {
    let (q, e) = case(call, m, n, buffer, scratch);
    t.expect_both(&q, &e, || {
        format!("{} {} by {}, {} words, scratch {}", name(call), m, n, buffer.len(), scratch.len())
    });
}

// Every shape up to a side, with exact scratch and with longer.
fn small_shapes(t: &mut Cases, r: &mut Random) {
    let side = if t.short { 12 } else { 40 };
    for m in 1..=side {
        for n in 1..=side {
            for &spare in &[0, 1 + r.below(9)] {
                let buffer = r.words((m * n) as usize);
                let scratch = r.words((m.max(n) + spare) as usize);
                for &call in &CALLS {
                    try_call(t, call, m, n, &buffer, &scratch);
                }
            }
        }
    }
    t.group(&format!("flat shapes up to {} by {}, five calls", side, side));
}

// Shapes at the edges of what is accepted, and those of the benchmark.
fn large_shapes(t: &mut Cases, r: &mut Random) {
    let all = [
        (64, 15), (64, 16), (15, 64), (1, 4096), (4096, 1), (4096, 16), (4095, 3), (3, 4095), (256, 256),
        (4096, 256), (256, 4096), (4095, 256), (255, 4096), (1000, 1048), (1000, 1047), (1048, 1000), (1024, 1024), (1000, 1000), (997, 1009),
    ];
    let shapes = if t.short { &all[..9] } else { &all[..] };
    for &(m, n) in shapes {
        let buffer = r.words((m * n) as usize);
        let scratch = r.words((m.max(n) + 3) as usize);
        for &call in &CALLS {
            try_call(t, call, m, n, &buffer, &scratch);
        }
    }
    t.group("larger flat shapes, five calls");
}

// Both ways of the strips about every bound that they have: a block that fits the tile of 512 words or not, a line of 64 words, cuts of 32 to 64 lines, none,
// one and several lines left over, lines of 1,024 words that wait.
fn strip_bounds(t: &mut Cases, r: &mut Random) {
    let near = [2, 3, 7, 8, 9, 15, 16, 17, 31, 32, 33, 62, 63, 64, 65, 66, 79, 80, 81, 82, 95, 96, 97, 127, 128, 129];
    let far = [511, 512, 513, 1022, 1023, 1024, 1025, 2047, 2049, 4095, 4096];
    let sides = |m: u64, n: u64| [(m, n), (n, m)];
    let mut shapes: Vec<(u64, u64)> = near.iter().flat_map(|&m| near.iter().map(move |&n| (m, n))).collect();
    shapes.extend(near.iter().flat_map(|&m| far.iter().flat_map(move |&n| sides(m, n))));
    shapes.extend([511, 512, 513, 514].iter().flat_map(|&w| (2..=23).filter(move |s| w % s == 0).flat_map(move |s| sides(s, w / s))));
    shapes.extend([(1023, 1023), (1024, 1023), (1023, 1024), (1025, 1023), (1021, 1025), (1019, 1013), (1013, 1031), (1024, 1021), (700, 1497), (1497, 700)]);
    shapes.retain(|&(m, n)| m * n <= 1 << 20);
    let step = if t.short { 17 } else { 1 };
    for &(m, n) in shapes.iter().step_by(step) {
        let buffer = r.words((m * n) as usize);
        let scratch = r.words(m.max(n) as usize + 2);
        for call in [TURN, TURN_BACK] {
            try_call(t, call, m, n, &buffer, &scratch);
        }
    }
    t.group("flat shapes about the bounds of the strips");
}

// Random shapes, each with its own spare scratch.
fn random_shapes(t: &mut Cases, r: &mut Random) {
    for _ in 0..if t.short { 20 } else { 300 } {
        let m = r.within(1, 400);
        let n = r.within(1, 400);
        let spare = r.below(20);
        let buffer = r.words((m * n) as usize);
        let scratch = r.words((m.max(n) + spare) as usize);
        try_call(t, r.pick(&CALLS), m, n, &buffer, &scratch);
    }
    t.group("random flat shapes up to 400 by 400");
}

// A turn and its reverse, and both ways of turning, on what the library itself left.
fn round_trips(t: &mut Cases, r: &mut Random) {
    for _ in 0..if t.short { 20 } else { 200 } {
        let (m, n) = (r.within(1, 60), r.within(1, 60));
        let buffer = r.words((m * n) as usize);
        let scratch = vec![0; m.max(n) as usize];
        let there = Request { call: TURN, numbers: vec![m, n], buffers: vec![words(&buffer), words(&scratch)] };
        let back = |turned| Request { call: TURN_BACK, numbers: vec![m, n], buffers: turned };
        let home = t.driver.ask(0, &there).and_then(|a| t.driver.ask(0, &back(a.buffers)));
        let again = Request { call: TURN_HALVES, numbers: vec![n, m], buffers: Vec::new() };
        let home_by_halves = t.driver.ask(0, &there).and_then(|a| {
            t.driver.ask(0, &Request { buffers: vec![a.buffers[0].clone()], ..again.clone() })
        });
        let start = words(&buffer);
        t.verdict(home.map_or(false, |a| a.buffers[0] == start), || format!("there and back, {} by {}", m, n));
        t.verdict(home_by_halves.map_or(false, |a| a.buffers[0] == start), || format!("there, then by halves, {} by {}", m, n));
    }
    t.group("there and back");
}

// Sizes at every bound, beside buffers and scratch that are short by one, exact, and longer by one.
fn bounds(t: &mut Cases, r: &mut Random) {
    let sides = [0, 1, 2, 3, 256, 257, 1024, 1025, 4095, 4096, 4097, 1 << 20, 1 << 32, (1 << 32) + 1, 1 << 63, u64::MAX];
    for &m in &sides {
        for &n in &sides {
            let block = m as u128 * n as u128;
            // a block past a limit is tried with what the limit itself would need
            let near = block.min(if m.max(n) > 4096 { 5000 } else { 1_048_576 }) as usize;
            if t.short && near > 5000 {
                continue;
            }
            let longest = m.max(n).min(4096) as usize;
            let lengths = [0, near.saturating_sub(1), near, near + 1];
            let scratches = [0, longest.saturating_sub(1), longest, longest + 1];
            let pairs: Vec<(usize, usize)> = if near > 70_000 {
                vec![(near, longest), (near - 1, longest), (near, longest - 1), (near - 1, longest - 1), (0, 0)]
            } else {
                lengths.iter().flat_map(|&b| scratches.iter().map(move |&s| (b, s))).collect()
            };
            for (b, s) in pairs {
                let buffer = r.words(b);
                let scratch = r.words(s);
                for &call in &CALLS {
                    try_call(t, call, m, n, &buffer, &scratch);
                }
            }
        }
    }
    t.group("flat sizes at every bound, buffers and scratch short by one, exact, longer");
}

// Every set of checks that can hold together: each alone, each pair, and more.
fn check_sets(t: &mut Cases, r: &mut Random) {
    for set in 0..32 {
        let holds = |k: u32| set & (1 << k) != 0;
        // 4,097 or 0 is a bad side; beside it 4,096 makes the product too large
        let shapes: &[(u64, u64)] = match (holds(0), holds(1)) {
            (false, false) => &[(5, 7), (64, 16)],
            (false, true) => &[(1025, 1024), (4096, 257), (4096, 4096)],
            (true, false) => &[(0, 7), (7, 0), (4097, 1), (1, 4097), (0, 0)],
            (true, true) => &[(4097, 4096), (4096, 4097), (u64::MAX, u64::MAX)],
        };
        for &(m, n) in shapes {
            let block = (m as u128 * n as u128).min(1_200_000) as usize;
            let longest = m.max(n).min(5000) as usize;
            // a buffer is not short and long at once
            if (holds(2) && (block == 0 || holds(4))) || (holds(3) && longest == 0) {
                continue;
            }
            let buffer = r.words(if holds(2) { block - 1 } else if holds(4) { block + 1 } else { block });
            let scratch = r.words(if holds(3) { longest - 1 } else { longest });
            for &call in &CALLS {
                try_call(t, call, m, n, &buffer, &scratch);
            }
        }
    }
    t.group("flat refusals: each check alone, each pair and every larger set");
}

// The flat benches of document 01, with the words written out.
fn benches(t: &mut Cases) {
    let rows: [(u64, u64, u64, &[u32], &[u32]); 9] = [
        (TURN, 1, 1, &[7], &[7]),
        (TURN, 1, 4, &[0, 1, 2, 3], &[0, 1, 2, 3]),
        (TURN, 4, 1, &[0, 1, 2, 3], &[0, 1, 2, 3]),
        (TURN, 2, 2, &[0, 1, 2, 3], &[0, 2, 1, 3]),
        (TURN, 2, 3, &[0, 1, 2, 3, 4, 5], &[0, 3, 1, 4, 2, 5]),
        (TURN_BACK, 2, 3, &[0, 1, 2, 3, 4, 5], &[0, 2, 4, 1, 3, 5]),
        (TURN, 2, 4, &[0, 1, 2, 3, 4, 5, 6, 7], &[0, 4, 1, 5, 2, 6, 3, 7]),
        (TURN_HALVES, 2, 3, &[0, 1, 2, 3, 4, 5], &[0, 3, 1, 4, 2, 5]),
        (TURN_HALVES, 2, 4, &[0, 1, 2, 3, 4, 5, 6, 7], &[0, 4, 1, 5, 2, 6, 3, 7]),
    ];
    for &(call, m, n, before, after) in &rows {
        let scratch = vec![9; m.max(n) as usize];
        let zeros = vec![0; m.max(n) as usize];
        let mut lent = vec![words(before)];
        let mut left = vec![words(after)];
        if call != TURN_HALVES {
            lent.push(words(&scratch));
            left.push(words(&zeros));
        }
        let q = Request { call, numbers: vec![m, n], buffers: lent };
        let e = Answer { numbers: vec![0], buffers: left };
        t.expect_both(&q, &e, || format!("bench: {} {} by {}", name(call), m, n));
    }
    // sides, buffer words and scratch words, then the number
    let numbers: [(u64, u64, usize, usize, u64); 10] = [
        (4096, 256, 1_048_576, 4096, 0),
        (4096, 257, 1_048_576, 4096, 2),
        (4097, 1, 4097, 4097, 1),
        (0, 3, 6, 0, 1),
        (3, 0, 6, 2, 1),
        (2, 3, 6, 3, 0),
        (2, 3, 5, 3, 3),
        (2, 3, 6, 2, 4),
        (2, 3, 5, 2, 3),
        (2, 3, 7, 3, 13),
    ];
    for &(m, n, b, s, number) in &numbers {
        let (q, e) = case(TURN, m, n, &vec![5; b], &vec![6; s]);
        t.verdict(e.numbers == [number], || format!("the reference answers bench {} by {} otherwise", m, n));
        t.expect_both(&q, &e, || format!("bench: {} by {}, {} words, scratch {}", m, n, b, s));
    }
    t.group("the flat benches of document 01");
}

// Document 02, item 6: a whole pool buffer of 64 frames and 16 cameras, lent with last week's frame count. It went through; now it gives 13
// and not a word has moved. A frame count of 64 is the pool's own, one of 65 finds the buffer short.
fn pool_buffer(t: &mut Cases, r: &mut Random) {
    let pool = r.words(64 * 16);
    let scratch = r.words(70);
    for &(frames, number) in &[(60, 13), (63, 13), (64, 0), (65, 3), (1, 13)] {
        for &call in &CALLS {
            let (q, e) = case(call, frames, 16, &pool, &scratch);
            t.verdict(e.numbers == [number], || format!("the reference answers {} frames of the pool otherwise", frames));
            t.expect_both(&q, &e, || format!("pool buffer: {} {} by 16", name(call), frames));
        }
    }
    t.group("a pool buffer with another frame count");
}

pub fn all(t: &mut Cases, seed: u64) {
    let mut r = Random::new(seed);
    benches(t);
    pool_buffer(t, &mut r);
    small_shapes(t, &mut r);
    large_shapes(t, &mut r);
    strip_bounds(t, &mut r);
    random_shapes(t, &mut r);
    round_trips(t, &mut r);
    bounds(t, &mut r);
    check_sets(t, &mut r);
}
