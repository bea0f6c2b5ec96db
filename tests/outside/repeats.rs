// Document 02, item 14: how often a turn is repeated until every block of that shape is home.
use crate::cases::Cases;
use crate::driver::{Answer, Request, AT_END, REPEATS};
use crate::random::Random;
use crate::reference::{bad_length, first, turned, volume, MOST_WORDS};

fn expect(t: &mut Cases, m: u64, n: u64, count: u64) {
    let number = first(&[(1, bad_length(&[m, n])), (2, volume(&[m, n]) > MOST_WORDS)]);
    let q = Request { call: REPEATS, numbers: vec![m, n], buffers: vec![] };
    let e = Answer { numbers: vec![number, if number == 0 { count } else { 0 }], buffers: vec![] };
    t.expect(AT_END, &q, &e, || format!("repeats {} by {}", m, n));
}

// Turns the block whose words are their own offsets until it is back: no block of the shape takes longer.
fn by_turning(m: usize, n: usize) -> u64 {
    let home: Vec<u32> = (0..(m * n) as u32).collect();
    let mut block = turned(&home, m, n);
    let mut count = 1;
    while block != home {
        block = turned(&block, m, n);
        count += 1;
    }
    count
}

// The least positive h for which m to the h leaves 1 modulo mn - 1, which divides the count of numbers below the modulus that
// share no factor with it: that count is made smaller prime by prime while the power still leaves 1.
fn by_arithmetic(m: u64, n: u64) -> u64 {
    let modulus = m * n - 1;
    let mut order = totient(modulus);
    for p in primes(order) {
        while order % p == 0 && power(m, order / p, modulus) == 1 {
            order /= p;
        }
    }
    order
}

fn primes(mut v: u64) -> Vec<u64> {
    let mut found = vec![];
    let mut p = 2;
    while p * p <= v {
        if v % p == 0 {
            found.push(p);
            while v % p == 0 {
                v /= p;
            }
        }
        p += 1;
    }
    if v > 1 {
        found.push(v);
    }
    found
}

fn totient(v: u64) -> u64 {
    primes(v).iter().fold(v, |t, p| t / p * (p - 1))
}

fn power(m: u64, mut h: u64, modulus: u64) -> u64 {
    let (mut result, mut square) = (1 % modulus, m % modulus);
    while h > 0 {
        if h % 2 == 1 {
            result = result * square % modulus;
        }
        square = square * square % modulus;
        h /= 2;
    }
    result
}

pub fn all(t: &mut Cases, seed: u64) {
    let side = if t.short { 12 } else { 40 };
    for m in 1..=side {
        for n in 1..=side {
            expect(t, m, n, by_turning(m as usize, n as usize));
        }
    }
    t.group(&format!("repeats of flat shapes up to {} by {}, by turning until home", side, side));

    expect(t, 266, 3942, 1_048_570);
    let mut r = Random::new(seed);
    for _ in 0..if t.short { 20 } else { 200 } {
        let m = 1 + r.below(4096);
        let n = 1 + r.below((1_048_576 / m).min(4096));
        if m * n >= 3 {
            expect(t, m, n, by_arithmetic(m, n));
        }
    }
    t.group("repeats of large shapes, by arithmetic");

    let huge = u64::MAX;
    for &(m, n) in &[(0, 0), (0, 3), (3, 0), (4097, 1), (1, 4097), (4097, 4096), (4096, 257), (257, 4096), (huge, huge), (huge, 1), (1 << 32, 1 << 32)] {
        expect(t, m, n, 0);
    }
    t.group("repeats refused");
}
