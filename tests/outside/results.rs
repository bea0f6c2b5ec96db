// Document 02, items 1 and 5: result sheets come back, those that name a release and those that name none. The reader of result sheets on right ones and on damaged ones.
use crate::cases::Cases;
use crate::driver::{bytes, words, Answer, Request, AT_END, READ_RESULT};
use crate::random::Random;
use crate::reference::volume;
use crate::sheets::{damage, random_sheet};
use crate::text::{read_result, result, sheet, Outcome, Refusal, MOST_BYTES};

type Lengths = [u64; 4];

// The call that reads a text into a buffer, and what it leaves.
fn reading(text: &[u8], buffer: &[u32], outcome: &Result<Outcome, Refusal>) -> (Request, Answer) {
    let mut left = buffer.to_vec();
    let mut numbers = vec![0; 8];
    match outcome {
        Ok(s) => {
            left[..s.words.len()].copy_from_slice(&s.words);
            numbers[2..6].copy_from_slice(&s.lengths);
            numbers[6] = s.release;
            numbers[7] = s.order;
        }
        Err((number, place)) => {
            numbers[0] = *number;
            numbers[1] = *place;
        }
    }
    let lent = bytes(text).read_only();
    let q = Request { call: READ_RESULT, numbers: vec![], buffers: vec![lent.clone(), words(buffer)] };
    (q, Answer { numbers, buffers: vec![lent, words(&left)] })
}

pub fn try_read(t: &mut Cases, text: &[u8], buffer: &[u32]) {
    let (q, e) = reading(text, buffer, &read_result(text, buffer.len()));
    t.expect_both(&q, &e, || format!("reading the result {:?}, {} words", String::from_utf8_lossy(text), buffer.len()));
}

// What the writer writes in this call, read back into a buffer that has two words more than the block.
pub fn reads_back(t: &mut Cases, writing: &Request, lengths: Lengths, release: u64, order: u64, block: &[u32]) {
    let written = match t.driver.ask(AT_END, writing) {
        Ok(a) => a,
        Err(why) => return t.verdict(false, || format!("writing again: {}", why)),
    };
    let text = &written.buffers[1].bytes[..written.numbers[1] as usize];
    let size = volume(&lengths) as usize;
    let outcome = Ok(Outcome { lengths, release, order, words: block[..size].to_vec() });
    let (q, e) = reading(text, &vec![0xa5a5_a5a5; size + 2], &outcome);
    t.expect_both(&q, &e, || format!("reading back {:?}", String::from_utf8_lossy(text)));
}

fn random_result(r: &mut Random, side: u64) -> Outcome {
    let s = random_sheet(r, side);
    Outcome { lengths: s.lengths, release: r.below(3), order: r.below(24), words: s.words }
}

fn printed(o: &Outcome) -> Vec<u8> {
    result(o.lengths, Some(o.release).filter(|&k| k != 0), o.order, &o.words)
}

fn right_results(t: &mut Cases, r: &mut Random) {
    for k in 0..if t.short { 50 } else { 600 } {
        let o = random_result(r, [2, 4, 6, 40][k % 4]);
        let text = printed(&o);
        let tail = r.below(3) as usize;
        let room = o.words.len();
        t.verdict(read_result(&text, room) == Ok(o.clone()), || "the reference reads what it wrote otherwise".to_string());
        try_read(t, &text, &r.words(room + tail));
        try_read(t, &text, &r.words(room - 1));
    }
    t.group("right result sheets read, with room and one word short of it");
}

fn damaged_results(t: &mut Cases, r: &mut Random) {
    let mut refused = 0;
    let count = if t.short { 500 } else { 12_000 };
    for _ in 0..count {
        let o = random_result(r, 4);
        let mut text = printed(&o);
        for _ in 0..r.within(1, 3) {
            damage(r, &mut text);
        }
        let room = if r.below(8) == 0 { o.words.len() - 1 } else { 300 };
        let outcome = read_result(&text, room);
        // what is accepted is the text of what was read
        if let Ok(s) = &outcome {
            t.verdict(printed(s) == text, || format!("the reference accepts {:?}", String::from_utf8_lossy(&text)));
        }
        refused += outcome.is_err() as u64;
        try_read(t, &text, &r.words(room));
    }
    t.group(&format!("damaged result sheets read ({} of {} are refused)", refused, count));
}

// Result sheets that document 01 or document 02 decides, written out with their answers, for a buffer of 1,000 words; a right one's answer is
// its order number and a hundred for each step of its release.
fn cases() -> Vec<(String, Result<u64, Refusal>)> {
    let rows = "row\t1\t4\nrow\t2\t5\nrow\t3\t6\n";
    let with_order = |line: &str| format!("shape\t1\t1\t3\t2\n{}{}", line, rows);
    let with_rows = |rows: &str| format!("shape\t1\t1\t3\t2\norder\t1\n{}", rows);
    let mut cases: Vec<(String, Result<u64, Refusal>)> = vec![
        // line 1
        (String::new(), Err((10, 1))),
        ("\n".into(), Err((10, 1))),
        ("shape".into(), Err((10, 1))),
        ("order\t1\n".into(), Err((10, 1))),
        ("shape\t0\t1\t1\t1".into(), Err((10, 1))),
        ("shape\t0\t1\t1\t1\n".into(), Err((1, 0))),
        ("shape\t1\t1\t4097\t1\n".into(), Err((1, 0))),
        ("shape\t1\t1\t1\t4294967295\norder\t99\n".into(), Err((1, 0))),
        ("shape\t1\t1\t1\t4294967296\n".into(), Err((10, 1))),
        ("shape\t1\t1\t5\t205\n".into(), Err((11, 0))),
        ("shape\t4096\t4096\t4096\t4096\norder\tx\n".into(), Err((11, 0))),
        ("shape\t1\t1\t1001\t1\norder\t24\n".into(), Err((3, 0))),
        ("shape\t1\t1\t3\t2\t1\n".into(), Err((10, 1))),
        ("shape\t1\t1\t3\n".into(), Err((10, 1))),
        ("shape\t1\t1\t3\t02\n".into(), Err((10, 1))),
        ("shape \t1\t1\t3\t2\n".into(), Err((10, 1))),
        ("Shape\t1\t1\t3\t2\n".into(), Err((10, 1))),
        // line 2
        ("shape\t1\t1\t3\t2\n".into(), Err((10, 2))),
        ("shape\t1\t1\t3\t2\norder\t1".into(), Err((10, 2))),
        (with_order("order\t1\n"), Ok(1)),
        (with_order("order\t0\n"), Ok(0)),
        (with_order("order\t23\n"), Ok(23)),
        (with_order("order\t24\n"), Err((7, 0))),
        (with_order("order\t255\n"), Err((7, 0))),
        (with_order("order\t256\n"), Err((7, 0))),
        (with_order("order\t4294967295\n"), Err((7, 0))),
        (with_order("order\t4294967296\n"), Err((10, 2))),
        (with_order("order\t18446744073709551616\n"), Err((10, 2))),
        (with_order("order\t1\t2\n"), Ok(102)),
        (with_order("order\t2\t1\n"), Ok(201)),
        (with_order("order\t2\t9\n"), Ok(209)),
        (with_order("order\t2\t18\n"), Ok(218)),
        (with_order("order\t1\t0\n"), Ok(100)),
        (with_order("order\t0\t5\n"), Err((14, 0))),
        (with_order("order\t0\t24\n"), Err((14, 0))),
        (with_order("order\t3\t5\n"), Err((14, 0))),
        (with_order("order\t3\t24\n"), Err((14, 0))),
        (with_order("order\t24\t1\n"), Err((14, 0))),
        (with_order("order\t257\t1\n"), Err((14, 0))),
        (with_order("order\t4294967295\t1\n"), Err((14, 0))),
        (with_order("order\t4294967296\t1\n"), Err((10, 2))),
        (with_order("order\t1\t24\n"), Err((7, 0))),
        (with_order("order\t2\t4294967295\n"), Err((7, 0))),
        (with_order("order\t2\t4294967296\n"), Err((10, 2))),
        (with_order("order\t3\tx\n"), Err((10, 2))),
        (with_order("order\t02\t1\n"), Err((10, 2))),
        (with_order("order\t2\t01\n"), Err((10, 2))),
        (with_order("order\t2\t\n"), Err((10, 2))),
        (with_order("order\t\t2\n"), Err((10, 2))),
        (with_order("order\t2\t1"), Err((10, 2))),
        (with_order("order\t2\t1\t\n"), Err((10, 2))),
        (with_order("order\t1\t2\t3\n"), Err((10, 2))),
        (with_order("order\t1\t1\t1\n"), Err((10, 2))),
        (with_order("order\t1\t2\t3\t4\n"), Err((10, 2))),
        (with_order("order\n"), Err((10, 2))),
        (with_order("order\t\n"), Err((10, 2))),
        (with_order("order\t1\t\n"), Err((10, 2))),
        (with_order("order\t01\n"), Err((10, 2))),
        (with_order("order\t+1\n"), Err((10, 2))),
        (with_order("order\t-1\n"), Err((10, 2))),
        (with_order("order\t1 \n"), Err((10, 2))),
        (with_order("order\t1\r\n"), Err((10, 2))),
        (with_order("order 1\n"), Err((10, 2))),
        (with_order("orders\t1\n"), Err((10, 2))),
        (with_order("chain\t1\n"), Err((10, 2))),
        (with_order("chain\n"), Err((10, 2))),
        (with_order("\norder\t1\n"), Err((10, 2))),
        (with_order("order\t1\norder\t1\n"), Err((10, 3))),
        (with_order(""), Err((10, 2))),
        // 7 and a wrong row; a wrong line 2 and a wrong row
        ("shape\t1\t1\t1\t1\norder\t24\nrow\n".into(), Err((7, 0))),
        ("shape\t1\t1\t1\t1\norder\t3\t24\nrow\n".into(), Err((14, 0))),
        ("shape\t1\t1\t1001\t1\norder\t3\t24\n".into(), Err((3, 0))),
        ("shape\t1\t1\t1\t1\norder\t2\t9\nrow\n".into(), Err((10, 3))),
        ("shape\t1\t1\t1\t1\norder\t2\t9\nrow\t7\n\n".into(), Err((10, 4))),
        ("shape\t1\t1\t1\t1\norder\t24".into(), Err((10, 2))),
        ("shape\t1\t1\t1\t1\norder\nrow\n".into(), Err((10, 2))),
        // rows
        (with_rows(""), Err((10, 3))),
        (with_rows("row\t1\t4\n"), Err((10, 4))),
        (with_rows("row\t1\t4\nrow\t2\t5\n"), Err((10, 5))),
        (with_rows("row\t1\t4\nrow\t2\t5\nrow\t3\t6"), Err((10, 5))),
        (with_rows("row\t1\nrow\t2\t5\nrow\t3\t6\n"), Err((10, 3))),
        (with_rows("row\t1\t4\t7\nrow\t2\t5\nrow\t3\t6\n"), Err((10, 3))),
        (with_rows("row\t1\t4\nrow\t2\t05\nrow\t3\t6\n"), Err((10, 4))),
        (with_rows("row\t1\t4\nrow\t2\t5\nrow\t3\t4294967296\n"), Err((10, 5))),
        (with_rows("row\t1\t4\nrow\t2\t5\nrow\t3\t4294967295\n"), Ok(1)),
        (with_rows("row\t1\t4\n\nrow\t2\t5\nrow\t3\t6\n"), Err((10, 4))),
        (with_rows("row\t1\t4\nROW\t2\t5\nrow\t3\t6\n"), Err((10, 4))),
        (with_rows("row\t1\t2\t3\nrow\t4\t5\t6\n"), Err((10, 3))),
        // what is left over
        (with_rows(rows) + "\n", Err((10, 6))),
        (with_rows(rows) + "0", Err((10, 6))),
        (with_rows(rows) + "\0", Err((10, 6))),
        (with_rows(rows) + "row\t3\t6\n", Err((10, 6))),
        (with_rows(rows) + &with_rows(rows), Err((10, 6))),
        (with_rows("row\t1\nrow\t2\t5\nrow\t3\t6\n") + "x", Err((10, 3))),
        // other right ones
        ("shape\t1\t1\t1\t1\norder\t7\nrow\t0\n".into(), Ok(7)),
        ("shape\t2\t1\t2\t1\norder\t12\nrow\t9\nrow\t10\nrow\t99\nrow\t100\n".into(), Ok(12)),
    ];
    for order in 0..24 {
        cases.push((format!("shape\t1\t1\t1\t2\norder\t{}\nrow\t1\t2\n", order), Ok(order)));
        for release in 1..3 {
            cases.push((format!("shape\t1\t1\t1\t2\norder\t{}\t{}\nrow\t1\t2\n", release, order), Ok(100 * release + order)));
        }
    }
    cases
}

fn written_out(t: &mut Cases, r: &mut Random) {
    for (text, verdict) in &cases() {
        let told = read_result(text.as_bytes(), 1000).map(|s| 100 * s.release + s.order);
        t.verdict(told == *verdict, || format!("the reference answers {:?} for {:?}", told, text));
        try_read(t, text.as_bytes(), &r.words(1000));
    }
    for &length in &[MOST_BYTES - 1, MOST_BYTES, MOST_BYTES + 1, 20_000] {
        let mut text = b"shape\t1\t1\t1\t1\norder\t1\nrow\t7\n".to_vec();
        text.resize(length, b'1');
        try_read(t, &text, &r.words(6));
        try_read(t, &vec![b'0'; length], &r.words(6));
    }
    t.group("result sheets at every rule of documents 01 and 02, answers written out");
}

// Every single byte of a result sheet lost, doubled or replaced, and every start of it.
fn each_byte(t: &mut Cases, r: &mut Random) {
    let rows = "row\t1\t4294967295\nrow\t20\t5\nrow\t0\t6\n";
    for line in ["order\t10\n", "order\t2\t19\n"] {
        damaged_bytes(t, r, format!("shape\t1\t1\t3\t2\n{}{}", line, rows).as_bytes());
    }
    t.group("one byte of a result sheet lost, doubled or replaced, and each start of it");
}

fn damaged_bytes(t: &mut Cases, r: &mut Random, text: &[u8]) {
    for at in 0..text.len() {
        let mut lost = text.to_vec();
        lost.remove(at);
        let mut doubled = text.to_vec();
        doubled.insert(at, text[at]);
        for changed in [lost, doubled, text[..at].to_vec()] {
            try_read(t, &changed, &r.words(7));
        }
        for &b in b"\t\n 0129x" {
            let mut other = text.to_vec();
            other[at] = b;
            try_read(t, &other, &r.words(7));
        }
    }
}

// The sheets of `turn` are no result sheets; the longest result sheets are read.
fn others(t: &mut Cases, r: &mut Random) {
    for _ in 0..if t.short { 10 } else { 100 } {
        let text = sheet(&random_sheet(r, 4));
        t.verdict(read_result(&text, 1024).is_err(), || "the reference takes a sheet for a result sheet".to_string());
        try_read(t, &text, &r.words(1024));
    }
    for &lengths in &[[1024, 1, 1, 1], [1, 1, 1024, 1], [1, 1, 1, 1024], [4, 4, 8, 8]] {
        for release in 0..3 {
            let o = Outcome { lengths, release, order: 23, words: vec![u32::MAX; 1024] };
            let text = printed(&o);
            t.verdict(text.len() <= 15_388, || format!("{} bytes", text.len()));
            try_read(t, &text, &r.words(1024));
        }
    }
    t.group("sheets with a chain, and the longest result sheets");
}

pub fn all(t: &mut Cases, seed: u64) {
    let mut r = Random::new(seed);
    written_out(t, &mut r);
    each_byte(t, &mut r);
    right_results(t, &mut r);
    damaged_results(t, &mut r);
    others(t, &mut r);
}
