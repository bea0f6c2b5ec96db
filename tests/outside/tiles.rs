// Document 02, item 7: a block stored as tiles, and tiles as a block.
use crate::cases::Cases;
use crate::driver::{words, Answer, Request, FROM_TILES, TO_TILES};
use crate::random::Random;
use crate::reference::{bad_length, first, volume, MOST_WORDS};

// The offsets of an m by n block in the order in which its tiles hold them: tiles row by row, each row by row.
fn order(m: usize, n: usize, r: usize, s: usize) -> Vec<usize> {
    let mut offsets = Vec::with_capacity(m * n);
    for top in (0..m).step_by(r) {
        for left in (0..n).step_by(s) {
            for i in top..m.min(top + r) {
                offsets.extend((left..n.min(left + s)).map(|j| i * n + j));
            }
        }
    }
    offsets
}

fn converted(call: u64, buffer: &[u32], offsets: &[usize]) -> Vec<u32> {
    if call == TO_TILES {
        return offsets.iter().map(|&p| buffer[p]).collect();
    }
    let mut block = vec![0; offsets.len()];
    for (&p, &word) in offsets.iter().zip(buffer) {
        block[p] = word;
    }
    block
}

fn bad_side(d: u64) -> bool {
    d == 0 || d > 64
}

// A call and the outcome that document 02 fixes for it; the words that it leaves.
fn try_call(t: &mut Cases, call: u64, sides: [u64; 4], buffer: &[u32], scratch: &[u32]) -> Vec<u32> {
    let [m, n, r, s] = sides;
    let need = volume(&[r, n]);
    let number = first(&[
        (1, bad_length(&[m, n])),
        (2, volume(&[m, n]) > MOST_WORDS),
        (15, bad_side(r) || bad_side(s)),
        (3, (buffer.len() as u128) < volume(&[m, n])),
        (13, (buffer.len() as u128) > volume(&[m, n])),
        (4, (scratch.len() as u128) < need),
    ]);
    let (mut left, mut rest) = (buffer.to_vec(), scratch.to_vec());
    if number == 0 {
        left = converted(call, buffer, &order(m as usize, n as usize, r as usize, s as usize));
        rest[..need as usize].fill(0);
    }
    let q = Request { call, numbers: sides.to_vec(), buffers: vec![words(buffer), words(scratch)] };
    let e = Answer { numbers: vec![number], buffers: vec![words(&left), words(&rest)] };
    t.expect_both(&q, &e, || {
        let way = if call == TO_TILES { "to" } else { "from" };
        format!("{} by {} {} tiles of {} by {}, {} words, scratch {}", m, n, way, r, s, buffer.len(), scratch.len())
    });
    left
}

// There and back, back and there.
fn try_both(t: &mut Cases, random: &mut Random, m: u64, n: u64, r: u64, s: u64) {
    let buffer = random.words((m * n) as usize);
    let tail = random.below(4);
    let scratch = random.words((r * n + tail) as usize);
    for &(there, back) in &[(TO_TILES, FROM_TILES), (FROM_TILES, TO_TILES)] {
        let left = try_call(t, there, [m, n, r, s], &buffer, &scratch);
        t.verdict(s < n || left == buffer, || format!("{} by {}, tiles as wide as {}: words moved", m, n, s));
        let home = converted(back, &left, &order(m as usize, n as usize, r as usize, s as usize));
        t.verdict(home == buffer, || format!("{} by {}, tiles of {} by {}: not undone", m, n, r, s));
    }
}

pub fn all(t: &mut Cases, seed: u64) {
    let mut random = Random::new(seed);
    let (side, tile) = if t.short { (5, 4) } else { (14, 9) };
    for m in 1..=side {
        for n in 1..=side {
            for r in 1..=tile {
                for s in 1..=tile {
                    try_both(t, &mut random, m, n, r, s);
                }
            }
        }
    }
    t.group(&format!("tiles, blocks up to {} by {}, tiles up to {} by {}, there and back", side, side, tile, tile));

    for _ in 0..if t.short { 8 } else { 120 } {
        let m = random.within(1, 1200);
        let n = random.within(1, (1_048_576 / m).min(1200));
        let (r, s) = (random.within(1, 64), random.within(1, 64));
        try_both(t, &mut random, m, n, r, s);
    }
    let large: &[(u64, u64)] = if t.short { &[] } else { &[(4096, 256), (256, 4096), (1, 4096), (4096, 1), (1080, 960), (1000, 1047)] };
    for &(m, n) in large {
        for &(r, s) in &[(1, 1), (64, 64), (16, 16), (64, 1), (1, 64), (63, 5)] {
            try_both(t, &mut random, m, n, r, s);
        }
    }
    t.group("larger blocks in tiles of any sides, there and back");

    // 2 by 3 with r = 5 asks for 15 words of scratch
    for &need in &[14, 15, 16] {
        let (buffer, scratch) = (random.words(6), random.words(need));
        try_call(t, TO_TILES, [2, 3, 5, 2], &buffer, &scratch);
        try_call(t, FROM_TILES, [2, 3, 5, 3], &buffer, &scratch);
    }
    let huge = u64::MAX;
    let (lengths, tiles): (&[u64], &[u64]) = if t.short { (&[0, 1, 3, 4097, huge], &[0, 2, 64, 65]) } else { (&[0, 1, 2, 3, 4095, 4096, 4097, huge], &[0, 1, 2, 63, 64, 65, 4096, huge]) };
    for &m in lengths {
        for &n in lengths {
            let words = m.saturating_mul(n).min(5000) as usize;
            for &r in tiles {
                for &s in tiles {
                    let need = r.saturating_mul(n).min(5000) as usize;
                    for &(room, free) in &[(words, need), (words + 1, need), (words.saturating_sub(1), need), (words, need.saturating_sub(1)), (0, 0), (words + 1, 0)] {
                        let (buffer, scratch) = (random.words(room), random.words(free));
                        let call = random.pick(&[TO_TILES, FROM_TILES]);
                        try_call(t, call, [m, n, r, s], &buffer, &scratch);
                    }
                }
            }
        }
    }
    t.group("tiles at every bound, refusals alone and together");
}
