// Counts cases and compares the driver's answers with what they should be.
use crate::driver::{Answer, Driver, Request, AT_END, AT_START};

pub struct Cases {
    pub driver: Driver,
    pub short: bool,
    pub passed: u64,
    pub failed: u64,
    group: u64,
}

impl Cases {
    pub fn new(driver: Driver, short: bool) -> Cases {
        Cases { driver, short, passed: 0, failed: 0, group: 0 }
    }

    pub fn verdict(&mut self, ok: bool, label: impl Fn() -> String) {
        if ok {
            self.passed += 1;
        } else {
            self.failed += 1;
            if self.failed <= 20 {
                println!("FAILED: {}", label());
            }
        }
    }

    // One case: the answer and every byte of every buffer are as expected.
    pub fn expect(&mut self, side: u64, q: &Request, expected: &Answer, label: impl Fn() -> String) {
        match self.driver.ask(side, q) {
            Ok(a) => self.verdict(a == *expected, || difference(&label(), &a, expected)),
            Err(why) => self.verdict(false, || format!("{}: {}", label(), why)),
        }
    }

    // Two cases: the guard behind every buffer's end, then before every buffer's start.
    pub fn expect_both(&mut self, q: &Request, expected: &Answer, label: impl Fn() -> String) {
        self.expect(AT_END, q, expected, || format!("{}, guarded end", label()));
        self.expect(AT_START, q, expected, || format!("{}, guarded start", label()));
    }

    // One line a group: how many cases it had.
    pub fn group(&mut self, name: &str) {
        println!("{:>7} cases: {}", self.passed + self.failed - self.group, name);
        self.group = self.passed + self.failed;
    }
}

fn difference(label: &str, a: &Answer, e: &Answer) -> String {
    if a.numbers != e.numbers {
        return format!("{}: answered {:?}, expected {:?}", label, a.numbers, e.numbers);
    }
    for (k, (x, y)) in a.buffers.iter().zip(&e.buffers).enumerate() {
        if let Some(at) = (0..x.bytes.len()).find(|&i| x.bytes[i] != y.bytes[i]) {
            return format!("{}: buffer {} differs at byte {}", label, k, at);
        }
    }
    label.to_string()
}
