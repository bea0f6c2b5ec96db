// Document 02, item 4: a turn that moves one line a call, the lines done in a record that the player lends.
use crate::cases::Cases;
use crate::driver::{words, Answer, Request, LINES, TICK};
use crate::random::Random;
use crate::reference::{bad_length, cleared, first, scratch_checks, turned, volume, MOST_WORDS};

fn gcd(a: u64, b: u64) -> u64 {
    if b == 0 { a } else { gcd(b, a % b) }
}

// n + m + n where the sides share a factor, m + n otherwise.
pub fn line_count(m: u64, n: u64) -> u64 {
    if gcd(m, n) > 1 { n + m + n } else { m + n }
}

// Where the words of a line stand, in rising place: the columns of pass 1, where the sides share a factor, the rows of pass 2, the columns of pass 3.
pub fn line_places(m: usize, n: usize, line: usize) -> Vec<usize> {
    let at = if gcd(m as u64, n as u64) > 1 { line } else { line + n };
    if at >= n && at < n + m {
        return (0..n).map(|j| (at - n) * n + j).collect();
    }
    let j = if at < n { at } else { at - n - m };
    (0..m).map(|i| i * n + j).collect()
}

// The words of a line as its pass leaves it.
pub fn line_finished(before: &[u32], m: usize, n: usize, line: usize) -> Vec<u32> {
    let c = gcd(m as u64, n as u64) as usize;
    let (a, b) = (m / c, n / c);
    let at = if c > 1 { line } else { line + n };
    if at < n {
        let j = at;
        (0..m).map(|i| before[(i + j / b) % m * n + j]).collect()
    } else if at < n + m {
        let i = at - n;
        let mut row = vec![0; n];
        for j in 0..n {
            row[((i + j / b) % m + j * m) % n] = before[i * n + j];
        }
        row
    } else {
        let j = at - n - m;
        (0..m).map(|i| before[(j + i * n - i / a) % m * n + j]).collect()
    }
}

// The words after one line has moved as its pass says.
fn line_moved(before: &[u32], m: usize, n: usize, line: usize) -> Vec<u32> {
    let mut after = before.to_vec();
    for (at, word) in line_places(m, n, line).into_iter().zip(line_finished(before, m, n, line)) {
        after[at] = word;
    }
    after
}

fn case(m: u64, n: u64, done: u64, buffer: &[u32], scratch: &[u32]) -> (Request, Answer) {
    let mut checks = scratch_checks(&[m, n], buffer.len(), scratch.len());
    checks.push((12, !bad_length(&[m, n]) && done > line_count(m, n)));
    let number = first(&checks);
    let left = number == 0 && done < line_count(m, n);
    let after = if left { line_moved(buffer, m as usize, n as usize, done as usize) } else { buffer.to_vec() };
    let zeroed = if number == 0 { cleared(scratch, &[m, n]) } else { scratch.to_vec() };
    let q = Request { call: TICK, numbers: vec![m, n, done], buffers: vec![words(buffer), words(scratch)] };
    let e = Answer { numbers: vec![number, if left { done + 1 } else { done }], buffers: vec![words(&after), words(&zeroed)] };
    (q, e)
}

fn try_tick(t: &mut Cases, m: u64, n: u64, done: u64, buffer: &[u32], scratch: &[u32]) {
    let (q, e) = case(m, n, done, buffer, scratch);
    t.expect_both(&q, &e, || format!("tick of {} by {} at {}, {} words, scratch {}", m, n, done, buffer.len(), scratch.len()));
}

// Every line of every shape up to a side, none left, and one past the count.
fn every_line(t: &mut Cases, r: &mut Random) {
    let side = if t.short { 6 } else { 24 };
    for m in 1..=side {
        for n in 1..=side {
            for done in 0..=line_count(m, n) + 1 {
                let buffer = r.words((m * n) as usize);
                let spare = r.below(3);
                let scratch = r.words((m.max(n) + spare) as usize);
                try_tick(t, m, n, done, &buffer, &scratch);
            }
        }
    }
    t.group(&format!("one line a tick: every line of all shapes up to {} by {}", side, side));
}

// Whole runs on what the library itself left, refused calls of any sides in between, other scratch at each call; a call after the last line changes nothing.
fn whole_runs(t: &mut Cases, r: &mut Random) {
    for k in 0..if t.short { 12 } else { 120 } {
        let (m, n) = if k == 0 { (64, 16) } else { (r.within(1, 30), r.within(1, 30)) };
        let start = r.words((m * n) as usize);
        let (mut buffer, mut done, mut accepted) = (words(&start), 0, 0);
        let mut right = true;
        while accepted < line_count(m, n) + 2 {
            let refused = r.below(4) == 0;
            let (i, j) = if refused { r.pick(&[(0, 3), (m + 1, n), (m, 4097), (1 << 32, 1)]) } else { (m, n) };
            let scratch = words(&r.words(m.max(n) as usize));
            let asked = Request { call: TICK, numbers: vec![i, j, done], buffers: vec![buffer.clone(), scratch] };
            let Ok(a) = t.driver.ask(0, &asked) else { right = false; break };
            if refused {
                right &= a.numbers[0] != 0 && a.numbers[1] == done && a.buffers[0] == buffer;
                continue;
            }
            accepted += 1;
            done = a.numbers[1];
            right &= a.numbers[0] == 0 && done == accepted.min(line_count(m, n));
            buffer = a.buffers[0].clone();
            right &= (accepted < line_count(m, n)) || buffer == words(&turned(&start, m as usize, n as usize));
        }
        t.verdict(right, || format!("a whole run of ticks, {} by {}", m, n));
    }
    t.group("one line a tick: whole runs, refusals in between");
}

// Every set of checks that can hold together, records of any value, and the count of lines at every bound.
fn bounds(t: &mut Cases, r: &mut Random) {
    for set in 0..64 {
        let holds = |k: u32| set & (1 << k) != 0;
        let shapes: &[(u64, u64)] = match (holds(0), holds(1)) {
            (false, false) => &[(5, 7), (4, 6), (1, 1)],
            (false, true) => &[(1025, 1024), (4096, 4096)],
            (true, false) => &[(0, 7), (7, 0), (4097, 1)],
            (true, true) => &[(4097, 4096), (u64::MAX, u64::MAX)],
        };
        for &(m, n) in shapes {
            let block = (m as u128 * n as u128).min(1_200_000) as usize;
            let longest = m.max(n).min(5000) as usize;
            // a buffer is not short and long at once
            if (holds(2) && (block == 0 || holds(4))) || (holds(3) && longest == 0) {
                continue;
            }
            let buffer = r.words(if holds(2) { block - 1 } else if holds(4) { block + 1 } else { block });
            let scratch = r.words(if holds(3) { longest - 1 } else { longest });
            let count = if holds(0) { 0 } else { line_count(m, n) };
            let records: &[u64] = if holds(5) { &[count + 1, count + 2, 1 << 32, u64::MAX - 1, u64::MAX] } else { &[0, 1, count] };
            for &done in records {
                try_tick(t, m, n, done, &buffer, &scratch);
            }
        }
    }
    let sides = [0, 1, 2, 3, 6, 15, 16, 64, 256, 257, 1024, 4095, 4096, 4097, 1 << 32, u64::MAX];
    for &m in &sides {
        for &n in &sides {
            let number = first(&[(1, bad_length(&[m, n])), (2, volume(&[m, n]) > MOST_WORDS)]);
            let count = if number == 0 { line_count(m, n) } else { 0 };
            let q = Request { call: LINES, numbers: vec![m, n], buffers: vec![] };
            t.expect_both(&q, &Answer { numbers: vec![number, count], buffers: vec![] }, || format!("lines of {} by {}", m, n));
        }
    }
    t.group("one line a tick: refusals alone and together, any record, the count of lines");
}

pub fn all(t: &mut Cases, seed: u64) {
    let mut r = Random::new(seed);
    every_line(t, &mut r);
    whole_runs(t, &mut r);
    bounds(t, &mut r);
}
