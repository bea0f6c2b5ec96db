// Document 02, item 13: five axes, and four-axis calls with a fifth length that they do not read.
use crate::axes::{answer, chain_case, every_order, joined, lent, plans, random_chain_of, random_chains, random_shape, request_case, small_shapes, try_chain, try_release, try_request};
use crate::cases::Cases;
use crate::driver::Request;
use crate::random::Random;
use crate::reference::{by_release, longest, need, number_of, orders, plan, volume};

type Lengths = [u64; 5];

// The reference itself on values written out: dictionary order, plans of ten swaps at most, the first 24 orders those of four, one up, behind axis 0.
fn listed(t: &mut Cases) {
    let all = orders::<5>();
    t.verdict(all.len() == 120, || format!("{} orders of five axes", all.len()));
    let written: [(usize, [usize; 5]); 6] =
        [(0, [0, 1, 2, 3, 4]), (1, [0, 1, 2, 4, 3]), (24, [1, 0, 2, 3, 4]), (33, [1, 2, 3, 4, 0]), (96, [4, 0, 1, 2, 3]), (119, [4, 3, 2, 1, 0])];
    for (number, order) in written {
        t.verdict(all[number] == order, || format!("the reference lists order {} otherwise", number));
    }
    for (number, four) in orders::<4>().iter().enumerate() {
        let up: Vec<usize> = four.iter().map(|axis| axis + 1).collect();
        t.verdict(all[number][0] == 0 && all[number][1..] == up[..], || format!("order {} of five is not four's, one up", number));
    }
    t.verdict(plan(all[119]) == [0, 1, 0, 2, 1, 0, 3, 2, 1, 0], || "the reference plans order 119 otherwise".to_string());
    t.verdict(all.iter().all(|&o| plan(o).len() <= 10), || "a plan of more than ten swaps".to_string());
    t.group("the reference on five axes");
}

// Both releases: the words of the inverse, every axis where its number sends it, the same need.
fn releases(t: &mut Cases, r: &mut Random) {
    let lengths: Lengths = [2, 3, 1, 5, 4];
    let (buffer, scratch) = lent(r, lengths, 2);
    let e = request_case(lengths, 1, 33, &buffer, &scratch).1;
    t.verdict(e.numbers == answer(0, 0, [3, 1, 5, 4, 2], 33, 4), || "the reference answers order 33 otherwise".to_string());
    for (asked, &list) in orders::<5>().iter().enumerate() {
        let asked = asked as u64;
        let inverse = number_of(by_release(2, list));
        let (two, one) = (request_case(lengths, 2, asked, &buffer, &scratch).1, request_case(lengths, 1, inverse, &buffer, &scratch).1);
        t.verdict(two.buffers == one.buffers && two.numbers[2..7] == one.numbers[2..7], || format!("number {} and {} leave other words", asked, inverse));
        t.verdict((0..5).all(|axis| two.numbers[2 + list[axis]] == lengths[axis]), || format!("number {} sends an axis elsewhere", asked));
        try_chain(t, lengths, &plan(by_release(2, list)), &buffer, &scratch);
        let less = need(lengths, &plan(list)).saturating_sub(1);
        try_request(t, lengths, asked, &buffer, &r.words(less as usize));
    }
    for &release in &[0, 1, 2, 3, 256, 257, (1 << 32) + 2, u64::MAX] {
        for &asked in &[0, 23, 24, 119, 120, 376, u64::MAX] {
            try_release(t, lengths, release, asked, &buffer, &scratch);
            try_release(t, lengths, release, asked, &buffer[1..], &scratch);
            try_release(t, lengths, release, asked, &buffer, &[]);
        }
    }
    t.group("releases: both of all 120 orders, 0, 3 and huge ones, 14 against 7, 3 and 4");
}

// Scratch one word short of the need, exact and longer.
fn needs(t: &mut Cases, r: &mut Random) {
    for k in 0..if t.short { 40 } else { 400 } {
        let lengths: Lengths = random_shape(r, 6);
        let buffer = r.words(volume(&lengths) as usize);
        let length = if k % 3 == 0 { r.below(33) } else { r.below(5) };
        let chain = random_chain_of::<5>(r, length);
        let asked = r.below(120);
        for spare in 0..3 {
            try_chain(t, lengths, &chain, &buffer, &r.words((need(lengths, &chain) + spare).saturating_sub(1) as usize));
            let most = need(lengths, &plan(orders::<5>()[asked as usize]));
            try_request(t, lengths, asked, &buffer, &r.words((most + spare).saturating_sub(1) as usize));
        }
    }
    t.group("needs on five axes: scratch one word short, exact and longer");
}

// Every set of the checks 1, 2, 3, 13, 5, 6, 4, and of 1, 2, 3, 13, 14, 7, 4.
fn check_sets(t: &mut Cases, r: &mut Random) {
    for set in 0..128 {
        let holds = |k: u32| set & (1 << k) != 0;
        let shapes: &[Lengths] = match (holds(0), holds(1)) {
            (false, false) => &[[2, 3, 4, 1, 5], [1, 1, 1, 1, 1]],
            (false, true) => &[[1024, 1, 1025, 1, 1], [4096, 4096, 4096, 4096, 4096], [1, 1, 1, 1024, 1025]],
            (true, false) => &[[0, 3, 4, 5, 1], [2, 3, 4, 1, 0], [1, 1, 1, 1, 4097]],
            (true, true) => &[[1, 1, 1, 4096, 4097], [u64::MAX; 5], [1, 1 << 32, 1, 1, 1 << 32]],
        };
        for &lengths in shapes {
            let block = volume(&lengths).min(1_060_000) as usize;
            // a buffer is not short and long at once
            if holds(2) && (block == 0 || holds(6)) {
                continue;
            }
            let buffer = r.words(if holds(2) { block - 1 } else if holds(6) { block + 1 } else { block });
            let mut chain = random_chain_of::<5>(r, if holds(4) { 33 } else { 32 });
            let room = |most: u64| (most.min(5000) as usize).saturating_sub(if holds(3) { 1 } else { 0 });
            let scratch = [r.words(room(need(lengths, &chain))), r.words(room(longest(&lengths)))];
            if holds(5) {
                let place = r.below(32) as usize;
                chain[place] = r.pick(&[4, 5, 255, 256, 65_536, 1 << 32, u64::MAX]);
            }
            try_chain(t, lengths, &chain, &buffer, &scratch[0]);
            let asked = if holds(5) { 120 } else { 119 };
            try_request(t, lengths, asked, &buffer, &scratch[1]);
            try_release(t, lengths, r.pick(&[0, 3, 256, u64::MAX]), asked, &buffer, &scratch[1]);
        }
    }
    t.group("five-axis refusals: each check alone, each pair and every larger set");
}

// Sides at their bounds at every place, swaps at theirs, chains of 31 to 33, the largest block.
fn bounds(t: &mut Cases, r: &mut Random) {
    for &side in &[0, 1, 4096, 4097, 1 << 32, u64::MAX] {
        for place in 0..5 {
            let mut lengths = [1; 5];
            lengths[place] = side;
            let (buffer, scratch) = (r.words(4096), r.words(4096));
            try_chain(t, lengths, &[place as u64 % 4], &buffer, &scratch);
            try_request(t, lengths, 119, &buffer, &scratch);
        }
    }
    let lengths: Lengths = [2, 3, 2, 1, 5];
    let (buffer, scratch) = lent(r, lengths, 0);
    for &length in &[0, 1, 31, 32, 33] {
        let chain = random_chain_of::<5>(r, length);
        try_chain(t, lengths, &chain, &buffer, &scratch);
    }
    for place in 0..32 {
        let mut chain = random_chain_of::<5>(r, 32);
        chain[place] = r.pick(&[4, 256, u64::MAX]);
        try_chain(t, lengths, &chain, &buffer, &scratch);
    }
    if !t.short {
        let buffer = r.words(1_048_576);
        let scratch = r.words(4096);
        for lengths in [[16, 16, 16, 16, 16], [2, 64, 16, 16, 32], [4096, 1, 1, 1, 256], [1, 2, 1024, 1, 512], [2, 1, 1024, 1, 513]] {
            try_chain(t, lengths, &[0, 3, 1, 2], &buffer, &scratch);
            try_request(t, lengths, 119, &buffer, &scratch);
        }
    }
    t.group("five-axis bounds: sides, chains, swaps");
}

// A four-axis call does not read the fifth length, whatever it holds, and answers 0 there: the same answer and the same words each time.
fn fifth_of_four(t: &mut Cases, r: &mut Random) {
    for k in 0..if t.short { 20 } else { 200 } {
        let lengths: [u64; 4] = random_shape(r, 6);
        let (buffer, scratch) = lent(r, lengths, 1);
        let length = r.below(8);
        let chain = random_chain_of::<4>(r, length);
        let cases = [
            chain_case(lengths, &chain, &buffer, &scratch),
            request_case(lengths, 1 + k % 2, r.below(24), &buffer, &scratch),
            // refused: five zeros
            chain_case(lengths, &[3], &buffer, &scratch),
            request_case(lengths, 1, 24, &buffer, &scratch),
            chain_case(lengths, &chain, &buffer[1..], &scratch),
        ];
        for (q, e) in cases {
            t.verdict(e.numbers[6] == 0, || "the reference answers a fifth length".to_string());
            for fifth in [0, 1, 7, 4096, 4097, 1 << 32, u64::MAX] {
                let mut numbers = q.numbers.clone();
                numbers[4] = fifth;
                let q = Request { numbers, ..q.clone() };
                t.expect_both(&q, &e, || format!("a fifth length of {} lent to a four-axis call on {:?}", fifth, lengths));
            }
        }
    }
    t.group("a fifth length of 0, 7, 2^64 - 1 and others in four-axis calls");
}

pub fn all(t: &mut Cases, seed: u64) {
    let mut r = Random::new(seed);
    listed(t);
    fifth_of_four(t, &mut r);
    plans::<5>(t);
    let mut shapes: Vec<Lengths> = small_shapes(if t.short { 1 } else { 2 });
    shapes.extend([[2, 1, 3, 2, 4], [3, 4, 2, 5, 6]]);
    if !t.short {
        shapes.extend([[2, 64, 1, 15, 3], [4096, 1, 2, 1, 3], [1, 1, 2, 64, 16], [7, 7, 7, 7, 7], [2, 2, 32, 32, 16]]);
    }
    every_order(t, &mut r, shapes);
    releases(t, &mut r);
    random_chains::<5>(t, &mut r);
    joined::<5>(t, &mut r);
    needs(t, &mut r);
    check_sets(t, &mut r);
    bounds(t, &mut r);
}
