// Document 02, item 9: a camera's column removed from a frames by cameras block, and one added.
use crate::cases::Cases;
use crate::driver::{words, Answer, Request, ADD_CAMERA, REMOVE_CAMERA};
use crate::random::Random;
use crate::reference::{bad_length, first, volume, MOST_WORDS};

// The block's rows, each a copy.
fn rows(buffer: &[u32], frames: usize, cameras: usize) -> Vec<Vec<u32>> {
    (0..frames).map(|i| buffer[i * cameras..(i + 1) * cameras].to_vec()).collect()
}

fn removed(buffer: &[u32], frames: usize, cameras: usize, k: usize) -> Vec<u32> {
    let mut left: Vec<u32> = rows(buffer, frames, cameras).iter().flat_map(|r| [&r[..k], &r[k + 1..]].concat()).collect();
    left.resize(frames * cameras, 0);
    left.extend(&buffer[frames * cameras..]);
    left
}

fn added(buffer: &[u32], frames: usize, cameras: usize, k: usize, column: &[u32]) -> Vec<u32> {
    let grown = rows(buffer, frames, cameras).iter().zip(column).flat_map(|(r, &w)| [&r[..k], &[w], &r[k..]].concat()).collect::<Vec<u32>>();
    let used = grown.len();
    [&grown[..], &buffer[used..]].concat()
}

fn try_remove(t: &mut Cases, frames: u64, cameras: u64, k: u64, buffer: &[u32]) {
    let number = first(&[
        (1, bad_length(&[frames, cameras]) || cameras == 1),
        (2, volume(&[frames, cameras]) > MOST_WORDS),
        (3, (buffer.len() as u128) < volume(&[frames, cameras])),
        (16, k > cameras.wrapping_sub(1)),
    ]);
    let after = if number == 0 { removed(buffer, frames as usize, cameras as usize, k as usize) } else { buffer.to_vec() };
    let q = Request { call: REMOVE_CAMERA, numbers: vec![frames, cameras, k], buffers: vec![words(buffer)] };
    let e = Answer { numbers: vec![number], buffers: vec![words(&after)] };
    t.expect_both(&q, &e, || format!("remove column {} of {} by {}, {} words", k, frames, cameras, buffer.len()));
}

fn try_add(t: &mut Cases, frames: u64, cameras: u64, k: u64, column: &[u32], buffer: &[u32]) {
    let before = volume(&[frames, cameras]);
    let after = volume(&[frames, cameras.saturating_add(1)]);
    let number = first(&[
        (1, bad_length(&[frames, cameras]) || cameras == 4096),
        (2, before > MOST_WORDS || after > MOST_WORDS),
        (3, (buffer.len() as u128) < before),
        (16, k > cameras),
        (17, (buffer.len() as u128) < after),
        (25, column.len() as u64 != frames),
    ]);
    let left = if number == 0 { added(buffer, frames as usize, cameras as usize, k as usize, column) } else { buffer.to_vec() };
    let lent = words(column).read_only();
    let q = Request { call: ADD_CAMERA, numbers: vec![frames, cameras, k], buffers: vec![words(buffer), lent.clone()] };
    let e = Answer { numbers: vec![number], buffers: vec![words(&left), lent] };
    t.expect_both(&q, &e, || format!("add column {} to {} by {}, {} words, {} in the column", k, frames, cameras, buffer.len(), column.len()));
}

pub fn all(t: &mut Cases, seed: u64) {
    let mut r = Random::new(seed);
    let side = if t.short { 4 } else { 9 };
    for frames in 1..=side {
        for cameras in 1..=side {
            for k in 0..=cameras + 1 {
                let tail = r.below(4) as usize;
                let buffer = r.words((frames * cameras) as usize + tail);
                try_remove(t, frames, cameras, k, &buffer);
                let buffer = r.words((frames * (cameras + 1)) as usize + tail);
                let column = r.words(frames as usize);
                try_add(t, frames, cameras, k, &column, &buffer);
            }
        }
    }
    t.group(&format!("columns removed and added, blocks up to {} by {}", side, side));

    // widths around one and two sixteens, with no word and one behind the block
    for frames in if t.short { 13..=18 } else { 1..=40 } {
        for cameras in (14..=18).chain(30..=34) {
            for &k in &[0, 1, cameras - 1, cameras] {
                for tail in 0..2 {
                    let buffer = r.words((frames * cameras) as usize + tail);
                    try_remove(t, frames, cameras, k, &buffer);
                    let buffer = r.words((frames * (cameras + 1)) as usize + tail);
                    let column = r.words(frames as usize);
                    try_add(t, frames, cameras, k, &column, &buffer);
                }
            }
        }
    }
    t.group("columns removed and added, widths around one and two sixteens");

    for _ in 0..if t.short { 8 } else { 80 } {
        let frames = 1 + r.below(900);
        let cameras = 2 + r.below((1_048_576 / frames).min(4095) - 1).min(300);
        let k = r.below(cameras);
        let buffer = r.words((frames * cameras) as usize + 3);
        try_remove(t, frames, cameras, k, &buffer);
        let column: Vec<u32> = (0..frames).map(|i| buffer[(i * cameras + k) as usize]).collect();
        let left = removed(&buffer, frames as usize, cameras as usize, k as usize);
        try_add(t, frames, cameras - 1, k, &column, &left);
        let back = added(&left, frames as usize, cameras as usize - 1, k as usize, &column);
        t.verdict(back == buffer, || format!("{} by {} without column {} and with it again", frames, cameras, k));
    }
    t.group("larger blocks: a column removed, and the same words added at the same place");

    let (rooms, longs): (&[usize], &[usize]) = if t.short { (&[0, 6, 8], &[1, 2]) } else { (&[0, 1, 5, 6, 7, 8, 9, 12], &[0, 1, 2, 3]) };
    let huge = u64::MAX;
    let lengths = [0, 1, 2, 3, 4095, 4096, 4097, huge];
    for &frames in &lengths {
        for &cameras in &lengths {
            for &k in &[0, 1, cameras.wrapping_sub(1), cameras, cameras.wrapping_add(1)] {
                for &room in rooms {
                    let buffer = r.words(room);
                    try_remove(t, frames, cameras, k, &buffer);
                    for &long in longs {
                        let column = r.words(long);
                        try_add(t, frames, cameras, k, &column, &buffer);
                    }
                }
            }
        }
    }
    let large = [(4096, 255), (4096, 256), (4096, 257), (256, 4095), (256, 4096), (257, 4080)];
    for &(frames, cameras) in if t.short { &large[..0] } else { &large[..] } {
        let room = (frames * cameras).min(1_048_576) as usize;
        for &room in &[room - 1, room, (frames * (cameras + 1)).min(1_048_576) as usize] {
            let buffer = r.words(room);
            let column = r.words(frames as usize);
            try_remove(t, frames, cameras, 0, &buffer);
            try_add(t, frames, cameras, cameras, &column, &buffer);
            try_add(t, frames, cameras, cameras + 1, &column[1..], &buffer);
        }
    }
    t.group("removing and adding at every bound, refusals alone and together");
}
