// Four axes: chains, direct requests and plans; what is asked of five axes too is over the number of axes.
use crate::cases::Cases;
use crate::driver::{sizes, words, Answer, Request, CHAIN, CHAIN5, PLAN, PLAN5, REQUEST, REQUEST5};
use crate::random::Random;
use crate::reference::{block_checks, by_release, first, laid, longest, named, need, number_of, orders, plan, reordered, volume, zeroed};

type Lengths = [u64; 4];

// What a four-axis call is given for its fifth length: it is not read.
const FIFTHS: [u64; 6] = [0, 7, u64::MAX, 1, 4096, 4097];

// The five lengths that a call is given, of four axes with the fifth that the case picks.
fn given<const N: usize>(lengths: [u64; N], pick: usize) -> Vec<u64> {
    let mut all = lengths.to_vec();
    if N == 4 {
        all.push(FIFTHS[pick % FIFTHS.len()]);
    }
    all
}

// What a chain or a direct request answers: number, place, five lengths (of four axes the last is 0), order number, swaps done.
pub fn answer<const N: usize>(number: u64, place: u64, lengths: [u64; N], order: u64, swaps: u64) -> Vec<u64> {
    let mut all = vec![number, place];
    all.extend(&lengths);
    all.resize(7, 0);
    all.extend(&[order, swaps]);
    all
}

// What stays and what moves: the order of a chain where the call is accepted, else nothing.
fn outcome<const N: usize>(numbers: Vec<u64>, lengths: [u64; N], chain: Option<&[u64]>, buffer: &[u32], scratch: &[u32]) -> Answer {
    let buffers = match chain {
        Some(c) => vec![words(&laid(buffer, lengths, named(c))), words(&zeroed(scratch, need(lengths, c)))],
        None => vec![words(buffer), words(scratch)],
    };
    Answer { numbers, buffers }
}

pub fn chain_case<const N: usize>(lengths: [u64; N], chain: &[u64], buffer: &[u32], scratch: &[u32]) -> (Request, Answer) {
    let mut checks = block_checks(&lengths, buffer.len());
    let bad = chain.iter().position(|&k| k > N as u64 - 2);
    checks.push((5, chain.len() > 32));
    checks.push((6, bad.is_some()));
    checks.push((4, bad.is_none() && (scratch.len() as u64) < need(lengths, chain)));
    let number = first(&checks);
    let mut e = if number == 0 {
        let order = named::<N>(chain);
        let told = answer(0, 0, reordered(lengths, order), number_of(order), chain.len() as u64);
        outcome(told, lengths, Some(chain), buffer, scratch)
    } else {
        let place = if number == 6 { bad.unwrap() as u64 } else { 0 };
        outcome(answer(number, place, [0; N], 0, 0), lengths, None, buffer, scratch)
    };
    let lent = sizes(chain).read_only();
    e.buffers.push(lent.clone());
    let call = if N == 4 { CHAIN } else { CHAIN5 };
    let q = Request { call, numbers: given(lengths, buffer.len() + chain.len()), buffers: vec![words(buffer), words(scratch), lent] };
    (q, e)
}

pub fn request_case<const N: usize>(lengths: [u64; N], release: u64, asked: u64, buffer: &[u32], scratch: &[u32]) -> (Request, Answer) {
    let all = orders::<N>();
    let chain = all.get(asked as usize).map_or(Vec::new(), |&list| plan(by_release(release, list)));
    let mut checks = block_checks(&lengths, buffer.len());
    checks.push((14, release != 1 && release != 2));
    checks.push((7, asked >= all.len() as u64));
    checks.push((4, (scratch.len() as u64) < need(lengths, &chain)));
    let number = first(&checks);
    let e = if number == 0 {
        let told = answer(0, 0, reordered(lengths, named(&chain)), asked, chain.len() as u64);
        outcome(told, lengths, Some(&chain), buffer, scratch)
    } else {
        outcome(answer(number, 0, [0; N], 0, 0), lengths, None, buffer, scratch)
    };
    let mut numbers = given(lengths, buffer.len() + asked as usize % 64);
    numbers.extend(&[release, asked]);
    let call = if N == 4 { REQUEST } else { REQUEST5 };
    let q = Request { call, numbers, buffers: vec![words(buffer), words(scratch)] };
    (q, e)
}

pub fn try_chain<const N: usize>(t: &mut Cases, lengths: [u64; N], chain: &[u64], buffer: &[u32], scratch: &[u32]) {
    let (q, e) = chain_case(lengths, chain, buffer, scratch);
    t.expect_both(&q, &e, || {
        format!("chain {:?} on {:?}, {} words, scratch {}", chain, lengths, buffer.len(), scratch.len())
    });
}

pub fn try_release<const N: usize>(t: &mut Cases, lengths: [u64; N], release: u64, asked: u64, buffer: &[u32], scratch: &[u32]) {
    let (q, e) = request_case(lengths, release, asked, buffer, scratch);
    t.expect_both(&q, &e, || {
        format!("release {}, order {} of {:?}, {} words, scratch {}", release, asked, lengths, buffer.len(), scratch.len())
    });
}

// A number in both releases.
pub fn try_request<const N: usize>(t: &mut Cases, lengths: [u64; N], asked: u64, buffer: &[u32], scratch: &[u32]) {
    for release in [1, 2] {
        try_release(t, lengths, release, asked, buffer, scratch);
    }
}

// Buffer and scratch for a shape, scratch longer than any chain needs by the spare words.
pub fn lent<const N: usize>(r: &mut Random, lengths: [u64; N], spare: u64) -> (Vec<u32>, Vec<u32>) {
    let buffer = r.words(volume(&lengths) as usize);
    let scratch = r.words((longest(&lengths) + spare) as usize);
    (buffer, scratch)
}

// A chain of right swaps of N axes.
pub fn random_chain_of<const N: usize>(r: &mut Random, length: u64) -> Vec<u64> {
    (0..length).map(|_| r.below(N as u64 - 1)).collect()
}

fn random_chain(r: &mut Random, length: u64) -> Vec<u64> {
    random_chain_of::<4>(r, length)
}

pub fn random_shape<const N: usize>(r: &mut Random, side: u64) -> [u64; N] {
    std::array::from_fn(|_| r.within(1, side))
}

// Plans for every number at and around the bound, against brute force, in ten places.
pub fn plans<const N: usize>(t: &mut Cases) {
    let all = orders::<N>();
    let count = all.len() as u64;
    let beyond = [count, count + 1, 255, 256, 1 << 16, 1 << 32, u64::MAX];
    for asked in (0..count).chain(beyond.iter().copied()) {
        let chain = if asked < count { plan(all[asked as usize]) } else { Vec::new() };
        let mut numbers = vec![if asked < count { 0 } else { 7 }];
        numbers.extend((0..10).map(|k| chain.get(k).copied().unwrap_or(0)));
        numbers.push(chain.len() as u64);
        let q = Request { call: if N == 4 { PLAN } else { PLAN5 }, numbers: vec![asked], buffers: vec![] };
        t.expect_both(&q, &Answer { numbers, buffers: vec![] }, || format!("plan of {}", asked));
    }
    t.group(&format!("plans of {} axes against brute force", N));
}

// Every shape with sides up to this.
pub fn small_shapes<const N: usize>(side: u64) -> Vec<[u64; N]> {
    (0..side.pow(N as u32)).map(|code| std::array::from_fn(|axis| 1 + code / side.pow((N - 1 - axis) as u32) % side)).collect()
}

// Every order of each shape, by request in both releases and by its plan's chain.
pub fn every_order<const N: usize>(t: &mut Cases, r: &mut Random, shapes: Vec<[u64; N]>) {
    for lengths in shapes {
        let spare = r.below(3);
        let (buffer, scratch) = lent(r, lengths, spare);
        for (asked, &order) in orders::<N>().iter().enumerate() {
            try_request(t, lengths, asked as u64, &buffer, &scratch);
            try_chain(t, lengths, &plan(order), &buffer, &scratch);
        }
    }
    t.group(&format!("every order of many shapes of {} axes, by request and by chain", N));
}

// One swap with every chunk length that is moved in a way of its own (single words, a few, many, more than an axis has), on two axes whose lengths
// share a factor, share none, double to each other or are 1: exhaustive on small ones, then larger ones.
fn chunks(t: &mut Cases, r: &mut Random) {
    let side = if t.short { 5 } else { 9 };
    let lengths: &[u64] = if t.short { &[2, 3, 4, 7, 8, 16] } else { &[1, 2, 3, 4, 5, 7, 8, 9, 15, 16, 17, 33] };
    for &chunk in lengths {
        for m in 1..=side {
            for n in 1..=side {
                for outer in [1, 3] {
                    try_swap(t, r, [outer, m, n, chunk], 1);
                }
            }
        }
    }
    let mut larger: Vec<Lengths> = Vec::new();
    for &chunk in &[1, 2, 3, 4, 7, 8, 16, 31] {
        larger.extend([[2, 15, 16, chunk], [2, 12, 18, chunk], [1, 64, 15, chunk], [2, 32, 8, chunk], [1, 17, 1, chunk], [3, 1, 17, chunk], [1, 100, 90, chunk]]);
    }
    // as many places as scratch has bits, or twice as many, a row or a column fewer or more, and several times as many, odd counts too
    for side in 31..=33 {
        larger.extend([[1, 48, side, 8], [1, side, 48, 8]]);
    }
    for side in 63..=65 {
        larger.extend([[1, 80, side, 5], [1, side, 80, 2], [1, 81, side, 4], [1, side, 81, 3]]);
    }
    larger.extend([[1, 37, 41, 8], [2, 70, 36, 9], [1, 66, 65, 7], [1, 65, 130, 17], [1, 129, 135, 5], [1, 131, 130, 4]]);
    if !t.short {
        for &chunk in &[2, 4, 7, 8, 16] {
            larger.extend([[1, 500, 52, chunk], [1, 4096, 2, chunk], [1, 2, 4096, chunk], [2, 256, 64, chunk], [1, 97, 211, chunk]]);
        }
        larger.extend([[3, 100, 90, 37], [16, 64, 256, 4], [64, 15, 16, 16], [64, 16, 16, 16]]);
    }
    for shape in larger {
        try_swap(t, r, shape, 1);
    }
    // every chunk length that goes by tiles, strips and grids, those that wait up to 80 words, those that trade above, and those beside them
    let longer = [63, 64, 65, 79, 80, 81, 82, 159, 160, 161, 239, 240, 241, 400];
    for chunk in (1..=40).chain(longer).step_by(if t.short { 5 } else { 1 }) {
        for shape in [[2, 3, 7, chunk], [1, 9, 9, chunk], [1, 17, 30, chunk], [1, 66, 5, chunk], [1, 5, 97, chunk], [1, 70, 67, chunk], [1, 83, 130, chunk]] {
            if volume(&shape) <= 1 << 20 {
                try_swap(t, r, shape, 1);
            }
        }
    }
    // as many places as have marks, and more: 65,536 and 131,072
    if !t.short {
        for shape in [[1, 256, 256, 8], [1, 257, 255, 8], [1, 362, 362, 8], [1, 1024, 128, 8], [1, 300, 219, 15], [1, 509, 251, 8], [1, 4096, 16, 16], [1, 181, 363, 15]] {
            try_swap(t, r, shape, 1);
        }
    }
    // chunks of more words than an axis has: the first swap of a block, with two axes behind it
    for shape in [[2, 2, 2, 4096], [3, 2, 64, 128], [2, 3, 5, 1000], [6, 4, 100, 50], [4, 4, 65, 64], [3, 3, 4096, 2]] {
        try_swap(t, r, shape, 0);
    }
    t.group("swaps of chunks of every kind");
}

// One swap, with scratch of exactly what it needs and two words more.
fn try_swap(t: &mut Cases, r: &mut Random, lengths: Lengths, k: u64) {
    let buffer = r.words(volume(&lengths) as usize);
    for spare in [0, 2] {
        let scratch = r.words((need(lengths, &[k]) + spare) as usize);
        try_chain(t, lengths, &[k], &buffer, &scratch);
    }
}

pub fn random_chains<const N: usize>(t: &mut Cases, r: &mut Random) {
    for _ in 0..if t.short { 100 } else { 2000 } {
        let lengths: [u64; N] = random_shape(r, 13 - N as u64);
        let spare = r.below(4);
        let (buffer, scratch) = lent(r, lengths, spare);
        let length = r.below(33);
        let chain = random_chain_of::<N>(r, length);
        try_chain(t, lengths, &chain, &buffer, &scratch);
    }
    t.group(&format!("random chains up to 32 swaps on {} axes", N));
}

// One chain after another is their joining, and a chain run backwards brings every word home.
pub fn joined<const N: usize>(t: &mut Cases, r: &mut Random) {
    for _ in 0..if t.short { 50 } else { 500 } {
        let lengths: [u64; N] = random_shape(r, 12 - N as u64);
        let lengths_of = [r.below(17), r.below(17)];
        let one = random_chain_of::<N>(r, lengths_of[0]);
        let two = random_chain_of::<N>(r, lengths_of[1]);
        let back: Vec<u64> = one.iter().rev().copied().collect();
        let both: Vec<u64> = one.iter().chain(&two).copied().collect();
        // exactly what the joined chain needs is enough for each
        let buffer = r.words(volume(&lengths) as usize);
        let scratch = r.words(need(lengths, &both) as usize);
        let run = |t: &mut Cases, lengths: &[u64], chain: &[u64], lent: Vec<crate::driver::Buffer>| {
            let mut buffers = lent[..2].to_vec();
            buffers.push(sizes(chain).read_only());
            t.driver.ask(0, &Request { call: if N == 4 { CHAIN } else { CHAIN5 }, numbers: lengths.to_vec(), buffers })
        };
        let start = vec![words(&buffer), words(&scratch)];
        let shape = given(lengths, buffer.len());
        let ends = run(t, &shape, &one, start.clone()).and_then(|a| {
            // the shape that came back, as it is
            let between = a.numbers[2..7].to_vec();
            let joined = run(t, &between, &two, a.buffers.clone())?;
            let at_once = run(t, &shape, &both, start.clone())?;
            let home = run(t, &between, &back, a.buffers)?;
            Ok((joined, at_once, home))
        });
        let ok = ends.map_or((false, false), |(joined, at_once, home)| {
            // scratch too: one scratch is lent to all
            let same = joined.buffers[..2] == at_once.buffers[..2] && joined.numbers[2..7] == at_once.numbers[2..7];
            (same, home.buffers[0] == start[0] && home.numbers[2..2 + N] == lengths)
        });
        t.verdict(ok.0, || format!("{:?} then {:?} on {:?}", one, two, lengths));
        t.verdict(ok.1, || format!("{:?} and back on {:?}", one, lengths));
    }
    t.group(&format!("chains joined and run backwards on {} axes", N));
}

// Request 3: scratch one word short of the need, exact and longer, for random chains and for every order.
fn needs(t: &mut Cases, r: &mut Random) {
    for k in 0..if t.short { 60 } else { 600 } {
        let lengths = if k % 2 == 0 { random_shape(r, 9) } else { [1 + r.below(2), 1 + r.below(9), 1 + r.below(2), 1 + r.below(9)] };
        let buffer = r.words(volume(&lengths) as usize);
        let length = if k % 3 == 0 { r.below(33) } else { r.below(4) };
        let chain = random_chain(r, length);
        let asked = r.below(24);
        for spare in 0..3 {
            let scratch = r.words((need(lengths, &chain) + spare).saturating_sub(1) as usize);
            try_chain(t, lengths, &chain, &buffer, &scratch);
            let scratch = r.words((need(lengths, &plan(orders::<4>()[asked as usize])) + spare).saturating_sub(1) as usize);
            try_request(t, lengths, asked, &buffer, &scratch);
        }
    }
    t.group("needs: scratch one word short, exact and longer");
    // document 02's own example: three words would do, and two give 4
    let lengths = [4096, 1, 2, 3];
    let buffer = r.words(24_576);
    for &(words, number) in &[(3, 0), (2, 4), (0, 4), (4, 0), (4096, 0)] {
        let scratch = r.words(words);
        t.verdict(chain_case(lengths, &[2], &buffer, &scratch).1.numbers[0] == number, || {
            format!("the reference answers 4,096 by 1 by 2 by 3, chain 2, scratch {} otherwise", words)
        });
        try_chain(t, lengths, &[2], &buffer, &scratch);
        try_request(t, lengths, 1, &buffer, &scratch);
    }
    // partners of length 1, equal lengths, swaps that undo each other, nothing exchanged
    let cases: [(Lengths, &[u64], u64); 8] = [
        ([1, 1, 2, 3], &[1], 2), ([1, 1, 1, 1], &[0], 1), ([1, 1, 2, 3], &[], 0), ([1, 1, 2, 3], &[2, 2], 3),
        ([1, 1, 2, 3], &[2, 0], 3), ([5, 5, 1, 1], &[0, 0], 5), ([9, 1, 1, 1], &[1, 2], 1), ([9, 2, 3, 1], &[1, 2, 1], 3),
    ];
    for &(lengths, chain, most) in &cases {
        t.verdict(need(lengths, chain) == most, || format!("the reference needs otherwise for {:?} on {:?}", chain, lengths));
        let buffer = r.words(volume(&lengths) as usize);
        for words in 0..most + 2 {
            try_chain(t, lengths, chain, &buffer, &r.words(words as usize));
        }
    }
    // two chains that name one order, through scratch that is enough for one of them only
    for _ in 0..if t.short { 20 } else { 200 } {
        let lengths: Lengths = random_shape(r, 6);
        let buffer = r.words(volume(&lengths) as usize);
        let length = r.below(7);
        let mut longer = random_chain(r, length);
        let chain = plan(named::<4>(&longer));
        let detour = r.below(3);
        longer.extend([detour, detour]);
        t.verdict(need(lengths, &chain) <= need(lengths, &longer), || format!("a plan needs more than {:?} on {:?}", longer, lengths));
        let scratch = r.words(need(lengths, &chain) as usize);
        try_chain(t, lengths, &chain, &buffer, &scratch);
        try_chain(t, lengths, &longer, &buffer, &scratch);
        try_request(t, lengths, number_of(named::<4>(&longer)), &buffer, &scratch);
    }
    t.group("needs: document 02's example, length-1 partners, two chains of one order");
}

// Every set of the checks 1, 2, 3, 13, 5, 6, 4, and of 1, 2, 3, 13, 14, 7, 4: each alone, each pair, and more.
fn check_sets(t: &mut Cases, r: &mut Random) {
    for set in 0..128 {
        let holds = |k: u32| set & (1 << k) != 0;
        let shapes: &[Lengths] = match (holds(0), holds(1)) {
            (false, false) => &[[2, 3, 4, 5], [1, 1, 1, 1]],
            (false, true) => &[[1024, 1, 1025, 1], [4096, 4096, 4096, 4096], [33, 32, 32, 32]],
            (true, false) => &[[0, 3, 4, 5], [2, 3, 4, 0], [1, 4097, 1, 1], [2, 0, 4097, 1]],
            (true, true) => &[[4097, 4096, 1, 1], [u64::MAX, u64::MAX, u64::MAX, u64::MAX], [1 << 32, 1 << 32, 1, 1]],
        };
        for &lengths in shapes {
            let block = volume(&lengths).min(1_060_000) as usize;
            // a buffer is not short and long at once
            if holds(2) && (block == 0 || holds(6)) {
                continue;
            }
            let buffer = r.words(if holds(2) { block - 1 } else if holds(6) { block + 1 } else { block });
            let mut chain = random_chain(r, if holds(4) { 33 } else { 32 });
            // scratch by the need of the right chain, and of order 23, which exchanges every axis
            let room = |most: u64| (most.min(5000) as usize).saturating_sub(if holds(3) { 1 } else { 0 });
            let scratch = [r.words(room(need(lengths, &chain))), r.words(room(longest(&lengths)))];
            if holds(5) {
                let place = r.below(32) as usize;
                chain[place] = r.pick(&[3, 4, 255, 256, 65_536, 1 << 32, u64::MAX]);
            }
            try_chain(t, lengths, &chain, &buffer, &scratch[0]);
            let asked = if holds(5) { 24 } else { 23 };
            try_request(t, lengths, asked, &buffer, &scratch[1]);
            let release = r.pick(&[0, 3, 4, 255, 256, 1 << 32, u64::MAX]);
            try_release(t, lengths, release, asked, &buffer, &scratch[1]);
        }
    }
    t.group("four-axis refusals: each check alone, each pair and every larger set");
}

// Buffers and scratch short by one, exact and longer; chains of 0, 31, 32, 33; one bad swap at every place.
fn bounds(t: &mut Cases, r: &mut Random) {
    for &lengths in &[[1, 1, 1, 1], [2, 3, 4, 5], [1, 1, 1, 4096], [4096, 1, 1, 1], [4096, 1, 1, 1 + 1]] {
        let (block, side) = (volume(&lengths) as usize, longest(&lengths) as usize);
        for &b in &[0, block - 1, block, block + 1] {
            for &s in &[0, side - 1, side, side + 1] {
                let (buffer, scratch) = (r.words(b), r.words(s));
                for &length in &[0, 1, 31, 32, 33, 40] {
                    let chain = random_chain(r, length);
                    try_chain(t, lengths, &chain, &buffer, &scratch);
                }
                for &asked in &[0, 1, 23, 24, u64::MAX] {
                    try_request(t, lengths, asked, &buffer, &scratch);
                }
            }
        }
    }
    let lengths = [2, 3, 4, 5];
    let (buffer, scratch) = lent(r, lengths, 0);
    for place in 0..33 {
        for &bad in &[3, 256, 65_536, 1 << 32, u64::MAX] {
            let mut chain = random_chain(r, if place == 32 { 33 } else { 32 });
            chain[place] = bad;
            try_chain(t, lengths, &chain, &buffer, &scratch);
        }
    }
    for &side in &[0, 1, 4096, 4097, 1 << 32, u64::MAX] {
        for place in 0..4 {
            let mut lengths = [1, 1, 1, 1];
            lengths[place] = side;
            let (buffer, scratch) = (r.words(4096), r.words(4096));
            try_chain(t, lengths, &[place as u64 % 3], &buffer, &scratch);
            try_request(t, lengths, 23, &buffer, &scratch);
        }
    }
    t.group("four-axis bounds: sides, buffers, scratch, chains");
}

// The whole limit, and one past it, over four axes.
fn largest(t: &mut Cases, r: &mut Random) {
    let buffer = r.words(1_048_576);
    let scratch = r.words(4096);
    for &lengths in &[[1024, 4, 16, 16], [32, 32, 32, 32], [4096, 1, 1, 256], [1024, 1, 1025, 1], [32, 32, 32, 33]] {
        try_chain(t, lengths, &[0, 2, 1], &buffer, &scratch);
        try_request(t, lengths, 9, &buffer, &scratch);
        try_request(t, lengths, 18, &buffer, &scratch);
    }
    t.group("four axes at the largest block and just above");
}

// The benches of document 01 about chains and plans, with their values written out.
fn benches(t: &mut Cases, r: &mut Random) {
    let plans: [(u64, &[u64]); 5] = [(0, &[]), (9, &[0, 1, 2]), (18, &[2, 1, 0]), (16, &[1, 0, 2, 1]), (23, &[0, 1, 0, 2, 1, 0])];
    for &(order, chain) in &plans {
        t.verdict(plan(orders::<4>()[order as usize]) == chain, || format!("the reference plans order {} otherwise", order));
    }
    let listed: [(u64, [usize; 4]); 8] = [
        (0, [0, 1, 2, 3]), (1, [0, 1, 3, 2]), (2, [0, 2, 1, 3]), (6, [1, 0, 2, 3]),
        (9, [1, 2, 3, 0]), (16, [2, 3, 0, 1]), (18, [3, 0, 1, 2]), (23, [3, 2, 1, 0]),
    ];
    for &(number, order) in &listed {
        t.verdict(number_of(order) == number, || format!("the reference numbers {:?} otherwise", order));
    }
    let lengths = [2, 3, 2, 3];
    let (buffer, scratch) = lent(r, lengths, 1);
    try_chain(t, lengths, &[], &buffer, &scratch);
    try_chain(t, lengths, &[1; 32], &buffer, &scratch);
    try_chain(t, lengths, &[1; 33], &buffer, &scratch);
    let mut with_three = [1; 33];
    with_three[4] = 3;
    try_chain(t, lengths, &with_three, &buffer, &scratch);
    // equal lengths remain different axes
    try_chain(t, [3, 3, 3, 3], &[0, 1, 2], &r.words(81), &r.words(3));
    t.group("the four-axis benches of document 01");
}

// Document 02, item 6: a whole pool buffer of 64 frames and 16 cameras, lent to a chain and to a request with last week's frame count.
fn pool_buffer(t: &mut Cases, r: &mut Random) {
    let pool = r.words(64 * 16);
    let scratch = r.words(70);
    for &(frames, number) in &[(60, 13), (63, 13), (64, 0), (65, 3), (1, 13)] {
        let lengths = [1, 1, frames, 16];
        t.verdict(chain_case(lengths, &[2], &pool, &scratch).1.numbers[0] == number, || {
            format!("the reference answers {} frames of the pool otherwise", frames)
        });
        try_chain(t, lengths, &[2], &pool, &scratch);
        try_request(t, lengths, 1, &pool, &scratch);
    }
    t.group("a pool buffer with another frame count, by chain and by request");
}

// Document 02, item 5: a number in release 2 says where each axis goes. Orders that are their own inverse hide the difference; 9 and 18 do not.
fn releases(t: &mut Cases, r: &mut Random) {
    let lengths = [2, 3, 4, 5];
    let (buffer, scratch) = lent(r, lengths, 2);
    let written: [(u64, u64, Lengths, u64); 8] = [
        (1, 9, [3, 4, 5, 2], 3), (2, 9, [5, 2, 3, 4], 3), (1, 18, [5, 2, 3, 4], 3), (2, 18, [3, 4, 5, 2], 3),
        (1, 16, [4, 5, 2, 3], 4), (2, 16, [4, 5, 2, 3], 4), (1, 3, [2, 4, 5, 3], 2), (2, 3, [2, 5, 3, 4], 2),
    ];
    for &(release, asked, after, swaps) in &written {
        let e = request_case(lengths, release, asked, &buffer, &scratch).1;
        t.verdict(e.numbers == answer(0, 0, after, asked, swaps), || {
            format!("the reference answers release {}, order {} otherwise", release, asked)
        });
        try_release(t, lengths, release, asked, &buffer, &scratch);
    }
    let mut turned = 0;
    for asked in 0..24 {
        // the same words as the release 1 number of the inverse, by request and by chain, and every word where its axes went
        let list = orders::<4>()[asked as usize];
        let inverse = number_of(by_release(2, list));
        turned += (inverse != asked) as u64;
        let (two, one) = (request_case(lengths, 2, asked, &buffer, &scratch).1, request_case(lengths, 1, inverse, &buffer, &scratch).1);
        t.verdict(two.buffers == one.buffers && two.numbers[2..6] == one.numbers[2..6], || format!("number {} and {} leave other words", asked, inverse));
        t.verdict((0..4).all(|axis| two.numbers[2 + list[axis]] == lengths[axis]), || format!("number {} sends an axis elsewhere", asked));
        try_request(t, lengths, asked, &buffer, &scratch);
        try_chain(t, lengths, &plan(by_release(2, list)), &buffer, &scratch);
        // one word less than the need of either release
        let less = need(lengths, &plan(list)).saturating_sub(1);
        t.verdict(need(lengths, &plan(list)) == need(lengths, &plan(by_release(2, list))), || format!("{} needs more in one release", asked));
        try_request(t, lengths, asked, &buffer, &r.words(less as usize));
    }
    t.verdict(turned == 14, || format!("{} numbers are not their own inverse", turned));
    for &release in &[0, 1, 2, 3, 4, 255, 256, 257, 258, 65_537, (1 << 32) + 1, (1 << 32) + 2, 1 << 63, u64::MAX] {
        for &asked in &[0, 9, 23, 24, u64::MAX] {
            try_release(t, lengths, release, asked, &buffer, &scratch);
            try_release(t, lengths, release, asked, &buffer[1..], &scratch);
            try_release(t, lengths, release, asked, &buffer, &[]);
        }
    }
    t.group("releases: both of all 24 orders, 0, 3 and huge ones, 14 against 7, 3 and 4");
}

pub fn all(t: &mut Cases, seed: u64) {
    let mut r = Random::new(seed);
    benches(t, &mut r);
    releases(t, &mut r);
    pool_buffer(t, &mut r);
    plans::<4>(t);
    let mut shapes: Vec<Lengths> = small_shapes(if t.short { 2 } else { 4 });
    shapes.extend([[5, 7, 6, 9], [64, 4, 4, 4], [3, 2, 64, 16], [1, 64, 15, 1], [4096, 1, 2, 3], [1, 1, 64, 15]]);
    if !t.short {
        shapes.extend([[32, 32, 32, 32], [4096, 1, 1, 256], [2, 1000, 1, 500]]);
    }
    every_order(t, &mut r, shapes);
    random_chains::<4>(t, &mut r);
    joined::<4>(t, &mut r);
    needs(t, &mut r);
    check_sets(t, &mut r);
    bounds(t, &mut r);
    if !t.short {
        largest(t, &mut r);
    }
    chunks(t, &mut r);
}
