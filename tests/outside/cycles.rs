// Document 02, item 11: lists of the cycles of a turn, right ones and damaged ones, judged and run.
use crate::cases::Cases;
use crate::driver::{words, Answer, Request, AT_END, JUDGE_CYCLES, RUN_CYCLES};
use crate::random::Random;
use crate::reference::{bad_length, first, turned, volume, MOST_WORDS};

// Where each offset goes: below mn - 1 to x*m mod (mn - 1); the last stays.
fn goes(m: u64, n: u64) -> Vec<u32> {
    let last = m * n - 1;
    (0..=last).map(|x| if x < last { (x * m % last) as u32 } else { x as u32 }).collect()
}

// Start and length of every cycle, found with a table of the offsets that were seen.
fn right(to: &[u32]) -> Vec<u32> {
    let mut seen = vec![false; to.len()];
    let mut list = vec![];
    for x in 0..to.len() {
        if seen[x] {
            continue;
        }
        let (mut at, mut length) = (x, 0);
        while !seen[at] {
            seen[at] = true;
            at = to[at] as usize;
            length += 1;
        }
        list.extend([x as u32, length]);
    }
    list
}

// The place of the first pair that differs, a missing, half or surplus pair counted by its place.
fn difference(given: &[u32], right: &[u32]) -> Option<u64> {
    let pairs = given.len().max(right.len()).div_ceil(2);
    let pair = |l: &[u32], k: usize| l.iter().skip(2 * k).take(2).copied().collect::<Vec<u32>>();
    (0..pairs).find(|&k| pair(given, k) != pair(right, k)).map(|k| k as u64)
}

fn judge(t: &mut Cases, m: u64, n: u64, list: &[u32], right: &[u32], both: bool, what: &str) {
    let place = difference(list, right);
    let number = first(&[(1, bad_length(&[m, n])), (2, volume(&[m, n]) > MOST_WORDS), (22, place.is_some())]);
    let lent = words(list).read_only();
    let q = Request { call: JUDGE_CYCLES, numbers: vec![m, n], buffers: vec![lent.clone()] };
    let e = Answer { numbers: vec![number, if number == 22 { place.unwrap() } else { 0 }], buffers: vec![lent] };
    let label = || format!("cycles of {} by {}, {}", m, n, what);
    if both {
        t.expect_both(&q, &e, label);
    } else {
        t.expect(AT_END, &q, &e, label);
    }
}

// The list run on a buffer of that many words: the block that is turned by copying, or every word as it was.
fn run(t: &mut Cases, r: &mut Random, m: u64, n: u64, list: &[u32], right: &[u32], room: usize, what: &str) {
    let place = difference(list, right);
    let before = r.words(room);
    let number = first(&[
        (1, bad_length(&[m, n])),
        (2, volume(&[m, n]) > MOST_WORDS),
        (3, (room as u128) < volume(&[m, n])),
        (13, (room as u128) > volume(&[m, n])),
        (22, place.is_some()),
    ]);
    let after = if number == 0 { turned(&before, m as usize, n as usize) } else { before.clone() };
    let lent = words(list).read_only();
    let q = Request { call: RUN_CYCLES, numbers: vec![m, n], buffers: vec![lent.clone(), words(&before)] };
    let e = Answer { numbers: vec![number, if number == 22 { place.unwrap() } else { 0 }], buffers: vec![lent, words(&after)] };
    t.expect_both(&q, &e, || format!("cycles of {} by {} run on {} words, {}", m, n, room, what));
}

// Each kind of damage to the right list at pair k.
fn damaged(list: &[u32], to: &[u32], k: usize) -> Vec<(&'static str, Vec<u32>)> {
    let (start, length, pairs) = (list[2 * k], list[2 * k + 1], list.len() / 2);
    let with = |at: usize, v: u32| {
        let mut l = list.to_vec();
        l[at] = v;
        l
    };
    let spliced = |from: usize, until: usize, new: &[u32]| [&list[..from], new, &list[until..]].concat();
    let mut all = vec![
        ("a length one too long", with(2 * k + 1, length + 1)),
        ("a length one too short", with(2 * k + 1, length - 1)),
        ("a length with a high bit", with(2 * k + 1, length | 1 << 31)),
        ("a start one too high", with(2 * k, start + 1)),
        ("a start with a high bit", with(2 * k, start | 1 << 31)),
        ("a pair left out", spliced(2 * k, 2 * k + 2, &[])),
        ("a start left out", spliced(2 * k, 2 * k + 1, &[])),
        ("a length left out", spliced(2 * k + 1, 2 * k + 2, &[])),
        ("a pair twice", spliced(2 * k, 2 * k, &[start, length])),
        ("cut before a pair", list[..2 * k].to_vec()),
        ("cut within a pair", list[..2 * k + 1].to_vec()),
        ("half a pair behind the last", [list, &[start]].concat()),
        ("a pair behind the last", [list, &[start, length]].concat()),
        ("offset mn behind the last", [list, &[to.len() as u32, 1]].concat()),
    ];
    if length > 1 {
        all.push(("a start that is not the least", with(2 * k, to[start as usize])));
        all.push(("a cycle in two parts", spliced(2 * k, 2 * k + 2, &[start, 1, to[start as usize], length - 1])));
    }
    if k + 1 < pairs {
        let next = [list[2 * k + 2], list[2 * k + 3]];
        all.push(("two pairs exchanged", spliced(2 * k, 2 * k + 4, &[next[0], next[1], start, length])));
        all.push(("two starts exchanged", spliced(2 * k, 2 * k + 4, &[next[0], length, start, next[1]])));
    }
    all
}

// Every cycle once, but in a way that the right list does not have.
fn rearranged(list: &[u32], m: u64, n: u64) -> Vec<(&'static str, Vec<u32>)> {
    let pairs: Vec<&[u32]> = list.chunks(2).collect();
    let last = (m * n - 1) as u32;
    vec![
        ("backwards", pairs.iter().rev().flat_map(|p| p.to_vec()).collect()),
        ("single offsets left out", pairs.iter().filter(|p| p[1] > 1).flat_map(|p| p.to_vec()).collect()),
        ("the last offset in the cycle of 0", [&[0, 2], &list[2..]].concat().into_iter().take((list.len() - 2).max(2)).collect()),
        ("every offset alone", (0..=last).flat_map(|x| [x, 1]).collect()),
        ("nothing", vec![]),
    ]
}

fn shape(t: &mut Cases, m: u64, n: u64, places: &mut dyn FnMut(usize) -> Vec<usize>) {
    let to = goes(m, n);
    let list = right(&to);
    let offsets: Vec<u32> = (0..(m * n) as u32).collect();
    let moved = turned(&offsets, m as usize, n as usize);
    t.verdict((0..to.len()).all(|x| moved[to[x] as usize] as usize == x), || format!("the offsets of {} by {} are those of the turn", m, n));
    judge(t, m, n, &list, &list, true, "the right list");
    for (what, l) in rearranged(&list, m, n) {
        judge(t, m, n, &l, &list, false, what);
    }
    for k in places(list.len() / 2) {
        for (what, l) in damaged(&list, &to, k) {
            judge(t, m, n, &l, &list, false, what);
        }
    }
}

pub fn all(t: &mut Cases, seed: u64) {
    let mut r = Random::new(seed);
    let small = if t.short { 4 } else { 7 };
    for m in 1..=small {
        for n in 1..=small {
            shape(t, m, n, &mut |pairs| (0..pairs).collect());
        }
    }
    t.group(&format!("cycles of flat shapes up to {} by {}, each pair damaged in every way", small, small));

    let side = if t.short { 8 } else { 40 };
    for m in 1..=side {
        for n in 1..=side {
            shape(t, m, n, &mut |pairs| vec![r.below(pairs as u64) as usize, pairs - 1]);
        }
    }
    t.group(&format!("cycles of flat shapes up to {} by {}, one pair and the last damaged in every way", side, side));

    for m in 1..=side {
        for n in 1..=side {
            let list = right(&goes(m, n));
            let room = (m * n) as usize;
            run(t, &mut r, m, n, &list, &list, room, "the right list");
            run(t, &mut r, m, n, &list, &list, room - 1, "a word too few");
            run(t, &mut r, m, n, &list, &list, room + 1, "a word too many");
            let mut other = list.clone();
            *other.last_mut().unwrap() += 1;
            run(t, &mut r, m, n, &other, &list, room, "the last length wrong");
            run(t, &mut r, m, n, &list[..list.len() - 1], &list, room, "half of the last pair");
        }
    }
    t.group(&format!("cycles run on flat shapes up to {} by {}", side, side));

    let mut large = if t.short { vec![(64, 16), (1000, 47)] } else { vec![(1000, 1047), (1024, 1024), (4096, 256), (266, 3942), (1, 4096)] };
    for _ in 0..if t.short { 2 } else { 12 } {
        let m = 1 + r.below(4096);
        large.push((m, 1 + r.below((if t.short { 65_536 } else { 1_048_576 } / m).clamp(1, 4096))));
    }
    for (m, n) in large {
        let to = goes(m, n);
        let list = right(&to);
        judge(t, m, n, &list, &list, false, "the right list");
        judge(t, m, n, &list[..list.len() - 1], &list, false, "half of the last pair");
        judge(t, m, n, &[&list[..], &[0]].concat(), &list, false, "half a pair behind the last");
        let at = r.below(list.len() as u64) as usize;
        let mut other = list.clone();
        other[at] ^= 1 << r.below(32);
        judge(t, m, n, &other, &list, false, "one bit changed");
        run(t, &mut r, m, n, &list, &list, (m * n) as usize, "the right list");
    }
    t.group("cycles of large shapes, judged and run");

    let huge = u64::MAX;
    for &(m, n) in &[(0, 0), (0, 3), (3, 0), (4097, 1), (1, 4097), (4097, 4096), (4096, 257), (257, 4096), (huge, huge), (huge, 1), (1 << 32, 1 << 32)] {
        for list in [&[][..], &[0], &[0, 1], &[0, 1, 1, 1]] {
            judge(t, m, n, list, &[7, 7], true, "refused");
            for room in [0, 1, 3] {
                run(t, &mut r, m, n, list, &[7, 7], room, "refused");
            }
        }
    }
    t.group("cycles judged and run, refused by the size of the block");
}
