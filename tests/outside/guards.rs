// The driver's guards bite: each forbidden touch kills it. Without this the other groups would show less.
use crate::cases::Cases;
use crate::driver::{words, Request, AT_END, AT_START, READ_PAST_END, WRITE_BEFORE_START, WRITE_PAST_END, WRITE_TO_LENT};

pub fn all(t: &mut Cases) {
    let touches = [
        (WRITE_PAST_END, AT_END, true, "a write past the end"),
        (READ_PAST_END, AT_END, true, "a read past the end"),
        (WRITE_BEFORE_START, AT_START, true, "a write before the start"),
        (WRITE_TO_LENT, AT_START, false, "a write to what is lent for reading"),
        (WRITE_TO_LENT, AT_END, false, "a write to what is lent for reading"),
    ];
    t.driver.muted = true;
    for &(call, side, writable, what) in &touches {
        let mut lent = words(&[1, 2, 3]);
        lent.writable = writable;
        let died = t.driver.ask(side, &Request { call, numbers: vec![], buffers: vec![lent] });
        t.verdict(died.is_err(), || format!("{} went unnoticed", what));
    }
    t.driver.muted = false;
    t.group("the guards bite");
}
