// What documents 01 and 02 ask, by copying: every word is read from one list and written to another.
use std::sync::OnceLock;

pub const LONGEST: u64 = 4096;
pub const MOST_WORDS: u128 = 1_048_576;

// The number of the first check that holds, or 0.
pub fn first(checks: &[(u64, bool)]) -> u64 {
    checks.iter().find(|c| c.1).map_or(0, |c| c.0)
}

// The lengths multiplied; a product too large for the type stays at its largest number.
pub fn volume(lengths: &[u64]) -> u128 {
    lengths.iter().fold(1, |v: u128, &d| v.saturating_mul(d as u128))
}

pub fn longest(lengths: &[u64]) -> u64 {
    lengths.iter().copied().max().unwrap_or(0)
}

pub fn bad_length(lengths: &[u64]) -> bool {
    lengths.iter().any(|&d| d == 0 || d > LONGEST)
}

// Checks 1, 2 and 3 of a block with these lengths.
pub fn block_checks(lengths: &[u64], buffer: usize) -> Vec<(u64, bool)> {
    vec![
        (1, bad_length(lengths)),
        (2, volume(lengths) > MOST_WORDS),
        (3, (buffer as u128) < volume(lengths)),
        (13, (buffer as u128) > volume(lengths)),
    ]
}

// Checks 1 to 4 of a flat block.
pub fn scratch_checks(lengths: &[u64], buffer: usize, scratch: usize) -> Vec<(u64, bool)> {
    let mut checks = block_checks(lengths, buffer);
    checks.push((4, (scratch as u64) < longest(lengths)));
    checks
}

// The flat turn: the word at j*m+i is the one that stood at i*n+j.
pub fn turned(words: &[u32], m: usize, n: usize) -> Vec<u32> {
    let mut out = words.to_vec();
    for i in 0..m {
        for j in 0..n {
            out[j * m + i] = words[i * n + j];
        }
    }
    out
}

// The reverse turn: the word from j*m+i stands at i*n+j.
pub fn turned_back(words: &[u32], m: usize, n: usize) -> Vec<u32> {
    let mut out = words.to_vec();
    for i in 0..m {
        for j in 0..n {
            out[i * n + j] = words[j * m + i];
        }
    }
    out
}

// Scratch after an accepted call: as many first words as it needed are zero.
pub fn zeroed(scratch: &[u32], need: u64) -> Vec<u32> {
    let mut out = scratch.to_vec();
    for w in &mut out[..need as usize] {
        *w = 0;
    }
    out
}

// Scratch after a flat call, which needs as many words as the longest side.
pub fn cleared(scratch: &[u32], lengths: &[u64]) -> Vec<u32> {
    zeroed(scratch, longest(lengths))
}

// The need of a chain of right swaps: the largest length among the axes that it exchanges, in the shape as it then stands.
pub fn need<const N: usize>(lengths: [u64; N], chain: &[u64]) -> u64 {
    let mut stands = lengths;
    let mut most = 0;
    for &k in chain {
        let k = k as usize;
        most = most.max(stands[k]).max(stands[k + 1]);
        stands.swap(k, k + 1);
    }
    most
}

// The order that a number's list names: release 1 says which axis stands at each place, release 2 where each axis goes.
pub fn by_release<const N: usize>(release: u64, list: [usize; N]) -> [usize; N] {
    if release != 2 {
        return list;
    }
    let mut stands = [0; N];
    for (axis, &place) in list.iter().enumerate() {
        stands[place] = axis;
    }
    stands
}

// All orders of N axes, in dictionary order: every list of N axes in that order, and of these the ones that have each axis.
pub fn orders<const N: usize>() -> Vec<[usize; N]> {
    let mut all = Vec::new();
    for number in 0..N.pow(N as u32) {
        let mut order = [0; N];
        for place in 0..N {
            order[place] = number / N.pow((N - 1 - place) as u32) % N;
        }
        if (0..N).all(|axis| order.contains(&axis)) {
            all.push(order);
        }
    }
    all
}

pub fn number_of<const N: usize>(order: [usize; N]) -> u64 {
    orders().iter().position(|&o| o == order).unwrap() as u64
}

// The order that a chain of right swaps names: it starts at 0, 1, .. and exchanges places swap by swap.
pub fn named<const N: usize>(chain: &[u64]) -> [usize; N] {
    let mut order = std::array::from_fn(|axis| axis);
    for &k in chain {
        order.swap(k as usize, k as usize + 1);
    }
    order
}

pub fn reordered<const N: usize>(lengths: [u64; N], order: [usize; N]) -> [u64; N] {
    order.map(|axis| lengths[axis])
}

fn offset<const N: usize>(lengths: [u64; N], x: [u64; N]) -> usize {
    (0..N).fold(0, |at, axis| at * lengths[axis] + x[axis]) as usize
}

// The word with original coordinates x stands at x under the order, in a block with lengths under the order.
pub fn laid<const N: usize>(words: &[u32], lengths: [u64; N], order: [usize; N]) -> Vec<u32> {
    let mut out = words.to_vec();
    let new = reordered(lengths, order);
    let mut x = [0; N];
    for _ in 0..volume(&lengths) {
        out[offset(new, reordered(x, order))] = words[offset(lengths, x)];
        // the next coordinates, the last axis fastest
        for axis in (0..N).rev() {
            x[axis] += 1;
            if x[axis] < lengths[axis] {
                break;
            }
            x[axis] = 0;
        }
    }
    out
}

// The plans of all orders by brute force: the chains by rising length, each length in dictionary order, and of those that name an order the first.
fn plans<const N: usize>() -> Vec<Vec<u64>> {
    let all = orders::<N>();
    let swaps = N as u64 - 1;
    let mut found: Vec<Option<Vec<u64>>> = vec![None; all.len()];
    for length in 0.. {
        if found.iter().all(Option::is_some) {
            break;
        }
        for code in 0..swaps.pow(length) {
            let chain: Vec<u64> = (0..length).rev().map(|p| code / swaps.pow(p) % swaps).collect();
            let number = all.binary_search(&named(&chain)).unwrap();
            found[number].get_or_insert(chain);
        }
    }
    found.into_iter().flatten().collect()
}

static FOUR: OnceLock<Vec<Vec<u64>>> = OnceLock::new();
static FIVE: OnceLock<Vec<Vec<u64>>> = OnceLock::new();

pub fn plan<const N: usize>(order: [usize; N]) -> Vec<u64> {
    let once = if N == 4 { &FOUR } else { &FIVE };
    once.get_or_init(plans::<N>)[number_of(order) as usize].clone()
}
