// Document 02, item 12: a turn in a mapped file that is stopped after any store. What must stand in the file is worked out store by store.
use crate::cases::Cases;
use crate::driver::{words, Answer, Request, RESUME};
use crate::random::Random;
use crate::reference::{bad_length, cleared, first, scratch_checks, turned};
use crate::ticks::{line_count, line_finished, line_places};

// A budget that always finishes.
const PLENTY: u64 = 10_000_000;

// What outlives a stop.
#[derive(Clone, PartialEq)]
struct File {
    block: Vec<u32>,
    scratch: Vec<u32>,
    progress: u32,
}

// One store.
enum Store {
    Block(usize, u32),
    Scratch(usize, u32),
    Progress(u32),
}

fn put(file: &mut File, store: &Store) {
    match *store {
        Store::Block(at, word) => file.block[at] = word,
        Store::Scratch(at, word) => file.scratch[at] = word,
        Store::Progress(stages) => file.progress = stages,
    }
}

// The stores of the stage that the progress word names: two stages a line, into scratch and back, then the clearing; the words in rising place, then
// the progress word.
fn stage(m: usize, n: usize, file: &File) -> Vec<Store> {
    let p = file.progress as usize;
    let mut stores: Vec<Store> = if p / 2 == line_count(m as u64, n as u64) as usize {
        (0..m.max(n)).map(|k| Store::Scratch(k, 0)).collect()
    } else if p % 2 == 0 {
        line_finished(&file.block, m, n, p / 2).into_iter().enumerate().map(|(k, word)| Store::Scratch(k, word)).collect()
    } else {
        line_places(m, n, p / 2).into_iter().zip(&file.scratch).map(|(at, &word)| Store::Block(at, word)).collect()
    };
    stores.push(Store::Progress(file.progress + 1));
    stores
}

// The file after the first `budget` stores, or all that remain if fewer; and how many were made.
fn stored(m: usize, n: usize, budget: u64, from: &File) -> (File, u64) {
    let mut file = from.clone();
    let mut made = 0;
    while (file.progress as u64) < 2 * line_count(m as u64, n as u64) + 1 {
        for store in stage(m, n, &file) {
            if made == budget {
                return (file, made);
            }
            put(&mut file, &store);
            made += 1;
        }
    }
    (file, made)
}

fn request(m: u64, n: u64, budget: u64, file: &File) -> Request {
    let buffers = vec![words(&file.block), words(&file.scratch), words(&[file.progress])];
    Request { call: RESUME, numbers: vec![m, n, budget], buffers }
}

fn answer(number: u64, file: &File) -> Answer {
    Answer { numbers: vec![number], buffers: vec![words(&file.block), words(&file.scratch), words(&[file.progress])] }
}

fn number(m: u64, n: u64, file: &File) -> u64 {
    let mut checks = scratch_checks(&[m, n], file.block.len(), file.scratch.len());
    checks.push((23, !bad_length(&[m, n]) && file.progress as u64 > 2 * line_count(m, n) + 1));
    first(&checks)
}

fn try_resume(t: &mut Cases, m: u64, n: u64, budget: u64, file: &File) -> File {
    let number = number(m, n, file);
    let after = if number == 0 { stored(m as usize, n as usize, budget, file).0 } else { file.clone() };
    t.expect_both(&request(m, n, budget, file), &answer(number, &after), || {
        format!("resume of {} by {} at {} with {}, {} words, scratch {}", m, n, file.progress, budget, file.block.len(), file.scratch.len())
    });
    after
}

fn fresh(r: &mut Random, m: u64, n: u64) -> File {
    let spare = r.below(3);
    File { block: r.words((m * n) as usize), scratch: r.words((m.max(n) + spare) as usize), progress: 0 }
}

// What an uncut turn leaves.
fn finished(m: u64, n: u64, from: &File) -> File {
    File {
        block: turned(&from.block, m as usize, n as usize),
        scratch: cleared(&from.scratch, &[m, n]),
        progress: (2 * line_count(m, n) + 1) as u32,
    }
}

// Stopped after every store of every shape up to a side, and then gone on with to the end: the words of an uncut turn.
fn every_budget(t: &mut Cases, r: &mut Random) {
    let side = if t.short { 4 } else { 8 };
    for m in 1..=side {
        for n in 1..=side {
            let start = fresh(r, m, n);
            let whole = stored(m as usize, n as usize, u64::MAX, &start).1;
            for budget in 0..=whole {
                let stopped = try_resume(t, m, n, budget, &start);
                t.expect(0, &request(m, n, PLENTY, &stopped), &answer(0, &finished(m, n, &start)), || {
                    format!("{} by {} stopped after {} stores and finished", m, n, budget)
                });
            }
        }
    }
    t.group(&format!("the mapped turn: every budget on all shapes up to {} by {}, then finished", side, side));
}

// Runs of budgets on what the library itself left, restarts that are stopped too, the file compared after each; then one that is enough.
fn random_runs(t: &mut Cases, r: &mut Random) {
    for k in 0..if t.short { 20 } else { 300 } {
        let (m, n) = match k {
            0 => (64, 16),
            1 => (64, 15),
            2 => (48, 36),
            _ => (r.within(1, 40), r.within(1, 40)),
        };
        let start = fresh(r, m, n);
        let mut file = start.clone();
        for _ in 0..r.within(1, 12) {
            let budget = match r.below(3) {
                0 => r.below(2 * m.max(n) + 3),
                1 => r.below(6 * m * n + 1),
                _ => r.below(4),
            };
            file = try_resume(t, m, n, budget, &file);
        }
        file = try_resume(t, m, n, PLENTY, &file);
        t.verdict(file == finished(m, n, &start), || format!("a run of budgets, {} by {}", m, n));
        // nothing is stored afterwards, and scratch is not cleared again
        file.scratch = r.words(file.scratch.len());
        let again = try_resume(t, m, n, PLENTY, &file);
        t.verdict(again == file, || format!("a call after the last stage, {} by {}", m, n));
    }
    t.group("the mapped turn: runs of budgets, the file compared after each, then finished");
}

// From any stage on, whatever block and scratch hold; and every set of checks that can hold together.
fn bounds(t: &mut Cases, r: &mut Random) {
    for _ in 0..if t.short { 200 } else { 2000 } {
        let (m, n) = (r.within(1, 20), r.within(1, 20));
        let mut file = fresh(r, m, n);
        file.progress = r.below(2 * line_count(m, n) + 3) as u32;
        let budget = r.below(4 * m.max(n) + 2);
        try_resume(t, m, n, budget, &file);
    }
    for set in 0..64 {
        let holds = |k: u32| set & (1 << k) != 0;
        let shapes: &[(u64, u64)] = match (holds(0), holds(1)) {
            (false, false) => &[(5, 7), (4, 6), (1, 1)],
            (false, true) => &[(1025, 1024), (4096, 4096)],
            (true, false) => &[(0, 7), (7, 0), (4097, 1)],
            (true, true) => &[(4097, 4096), (u64::MAX, u64::MAX)],
        };
        for &(m, n) in shapes {
            let block = (m as u128 * n as u128).min(1_200_000) as usize;
            let longest = m.max(n).min(5000) as usize;
            // a buffer is not short and long at once
            if (holds(2) && (block == 0 || holds(4))) || (holds(3) && longest == 0) {
                continue;
            }
            let buffer = r.words(if holds(2) { block - 1 } else if holds(4) { block + 1 } else { block });
            let scratch = r.words(if holds(3) { longest - 1 } else { longest });
            let stages = if holds(0) { 1 } else { 2 * line_count(m, n) as u32 + 1 };
            let words: &[u32] = if holds(5) { &[stages + 1, stages + 2, u32::MAX] } else { &[0, 1, stages] };
            for &progress in words {
                let file = File { block: buffer.clone(), scratch: scratch.clone(), progress };
                let budgets: &[u64] = if block < 1000 { &[0, 1, PLENTY, u64::MAX] } else { &[PLENTY] };
                for &budget in budgets {
                    try_resume(t, m, n, budget, &file);
                }
            }
        }
    }
    t.group("the mapped turn: from any stage on, refusals alone and together, any progress word and budget");
}

// The largest blocks: a budget of 10,000,000 finishes, and one store less than all leaves the last one out.
fn largest(t: &mut Cases, r: &mut Random) {
    for (m, n) in if t.short { vec![(256, 4096)] } else { vec![(256, 4096), (4096, 256), (1024, 1024), (1000, 1047), (4096, 1)] } {
        let start = fresh(r, m, n);
        t.expect(0, &request(m, n, PLENTY, &start), &answer(0, &finished(m, n, &start)), || format!("{} by {} in one call", m, n));
        let whole = stored(m as usize, n as usize, u64::MAX, &start).1;
        t.verdict(whole <= 6_320_129, || format!("{} by {}: {} stores", m, n, whole));
        let mut file = finished(m, n, &start);
        file.progress -= 1;
        t.expect(0, &request(m, n, whole - 1, &start), &answer(0, &file), || format!("{} by {}, all stores but one", m, n));
    }
    t.group("the mapped turn: the largest blocks in one call, and all stores but the last");
}

pub fn all(t: &mut Cases, seed: u64) {
    let mut r = Random::new(seed);
    every_budget(t, &mut r);
    random_runs(t, &mut r);
    bounds(t, &mut r);
    largest(t, &mut r);
}
