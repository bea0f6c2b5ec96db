// The sheet reader, the sheet writer and the whole job, on right sheets and on damaged ones.
use crate::cases::Cases;
use crate::driver::{bytes, sizes, words, Answer, Request, CHAIN, JOB, READ_SHEET, WRITE_RELEASE, WRITE_SHEET};
use crate::random::Random;
use crate::reference::{longest, volume};
use crate::results::{self, reads_back};
use crate::text::{job, read, result, sheet, write, Sheet, MOST_BYTES};

type Lengths = [u64; 4];

fn try_read(t: &mut Cases, text: &[u8], buffer: &[u32]) {
    let outcome = read(text, buffer.len());
    let mut left = buffer.to_vec();
    let mut numbers = vec![0; 39];
    match &outcome {
        Ok(s) => {
            left[..s.words.len()].copy_from_slice(&s.words);
            numbers[2..6].copy_from_slice(&s.lengths);
            numbers[6..6 + s.chain.len()].copy_from_slice(&s.chain);
            numbers[38] = s.chain.len() as u64;
        }
        Err((number, place)) => {
            numbers[0] = *number;
            numbers[1] = *place;
        }
    }
    let lent = bytes(text).read_only();
    let q = Request { call: READ_SHEET, numbers: vec![], buffers: vec![lent.clone(), words(buffer)] };
    let e = Answer { numbers, buffers: vec![lent, words(&left)] };
    t.expect_both(&q, &e, || format!("reading {:?}, {} words", String::from_utf8_lossy(text), buffer.len()));
}

// By the writer that names a release, or by the one that names none.
fn try_write_by(t: &mut Cases, lengths: Lengths, release: Option<u64>, order: u64, block: &[u32], out: &[u8]) {
    let mut left = out.to_vec();
    let outcome = write(lengths, release, order, block, out.len());
    let numbers = match &outcome {
        Ok(text) => {
            left[..text.len()].copy_from_slice(text);
            vec![0, text.len() as u64]
        }
        Err(number) => vec![*number, 0],
    };
    let mut asked = lengths.to_vec();
    asked.extend(release);
    asked.push(order);
    let lent = words(block).read_only();
    let call = if release.is_some() { WRITE_RELEASE } else { WRITE_SHEET };
    let q = Request { call, numbers: asked, buffers: vec![lent.clone(), bytes(out)] };
    let e = Answer { numbers, buffers: vec![lent, bytes(&left)] };
    t.expect_both(&q, &e, || {
        format!("writing {:?}, release {:?}, order {}, {} words to {} bytes", lengths, release, order, block.len(), out.len())
    });
    if outcome.is_ok() {
        reads_back(t, &q, lengths, release.unwrap_or(0), order, block);
    }
}

// By the writer that names none, and by the other with 1, 2 and a release that there is not.
fn try_write(t: &mut Cases, lengths: Lengths, order: u64, block: &[u32], out: &[u8]) {
    let no_release = [0, 3, 256, 1 << 32, u64::MAX][(order % 5) as usize];
    for release in [None, Some(1), Some(2), Some(no_release)] {
        try_write_by(t, lengths, release, order, block, out);
    }
}

fn random_word(r: &mut Random) -> u32 {
    match r.below(4) {
        0 => r.below(10) as u32,
        1 => r.pick(&[0, 9, 10, 99, 100, 999_999_999, 1_000_000_000, u32::MAX - 1, u32::MAX]),
        2 => r.word() >> r.below(32),
        _ => r.word(),
    }
}

pub fn random_sheet(r: &mut Random, side: u64) -> Sheet {
    loop {
        let lengths = [r.within(1, side), r.within(1, side), r.within(1, side), r.within(1, side)];
        if volume(&lengths) <= 1024 {
            let most = r.pick(&[5, 5, 5, 33]);
            let swaps = r.below(most);
            let chain = (0..swaps).map(|_| r.below(3)).collect();
            let words = (0..volume(&lengths)).map(|_| random_word(r)).collect();
            return Sheet { lengths, chain, words };
        }
    }
}

fn right_sheets(t: &mut Cases, r: &mut Random) {
    for k in 0..if t.short { 50 } else { 600 } {
        let side = [2, 4, 6, 40][k % 4];
        let s = random_sheet(r, side);
        let text = sheet(&s);
        let tail = r.below(3) as usize;
        let buffer = r.words(s.words.len() + tail);
        t.verdict(read(&text, buffer.len()) == Ok(s.clone()), || "the reference reads what it wrote otherwise".to_string());
        try_read(t, &text, &buffer);
        try_read(t, &text, &r.words(s.words.len() - 1));
    }
    t.group("right sheets read, with room and one word short of it");
}

// Bytes that stand in sheets, and some that never do.
const BYTES: &[u8] = b"0123456789\t\n\r +-.,shapecinrowd\0\x7f\x80\xff";

// Fields at and around every bound of a number.
const FIELDS: &[&str] = &[
    "", "0", "00", "007", "1", "2", "3", "32", "1024", "1025", "4096", "4097", "65536", "4294967295", "4294967296", "4294967300",
    "9999999999", "10000000000", "18446744073709551616", "+1", "-1", "1 ", " 1", "0x1", "1e1", "shape", "chain", "row", "order",
];

pub fn damage(r: &mut Random, text: &mut Vec<u8>) {
    let at = r.below(text.len() as u64 + 1) as usize;
    let there = at < text.len();
    match r.below(8) {
        0 | 1 if there => text[at] = r.pick(BYTES),
        2 if there => {
            text.remove(at);
        }
        3 => text.insert(at, r.pick(BYTES)),
        4 => text.truncate(at),
        5 => replace_field(r, text),
        6 => lines_changed(r, text),
        _ => {
            // a run of bytes twice
            let end = (at + r.below(9) as usize).min(text.len());
            let run = text[at..end].to_vec();
            text.splice(at..at, run);
        }
    }
}

fn replace_field(r: &mut Random, text: &mut Vec<u8>) {
    let mut lines: Vec<Vec<Vec<u8>>> =
        text.split(|&b| b == b'\n').map(|l| l.split(|&b| b == b'\t').map(|f| f.to_vec()).collect()).collect();
    // the first two lines have the most to go wrong
    let most = if r.below(2) == 0 { lines.len() } else { lines.len().min(2) };
    let line = r.below(most as u64) as usize;
    let field = r.below(lines[line].len() as u64) as usize;
    lines[line][field] = r.pick(FIELDS).as_bytes().to_vec();
    *text = lines.iter().map(|l| l.join(&b'\t')).collect::<Vec<_>>().join(&b'\n');
}

fn lines_changed(r: &mut Random, text: &mut Vec<u8>) {
    let mut lines: Vec<Vec<u8>> = text.split_inclusive(|&b| b == b'\n').map(|l| l.to_vec()).collect();
    if lines.is_empty() {
        return;
    }
    let at = r.below(lines.len() as u64) as usize;
    match r.below(3) {
        0 => {
            lines.remove(at);
        }
        1 => {
            let again = lines[at].clone();
            lines.insert(at, again);
        }
        _ => {
            let other = r.below(lines.len() as u64) as usize;
            lines.swap(at, other);
        }
    }
    *text = lines.concat();
}

fn damaged_sheets(t: &mut Cases, r: &mut Random) {
    let mut refused = 0;
    let count = if t.short { 500 } else { 12_000 };
    for _ in 0..count {
        let s = random_sheet(r, 4);
        let mut text = sheet(&s);
        for _ in 0..r.within(1, 3) {
            damage(r, &mut text);
        }
        let room = if r.below(8) == 0 { s.words.len() - 1 } else { 300 };
        refused += read(&text, room).is_err() as u64;
        try_read(t, &text, &r.words(room));
    }
    t.group(&format!("damaged sheets read ({} of {} are refused)", refused, count));
}

// Sheets that document 01 or its plain reading decides, written out.
fn written_out(t: &mut Cases, r: &mut Random) {
    let two_rows = "row\t1\t2\t3\nrow\t4\t5\t6\n";
    let with_chain = |chain: &str| format!("shape\t1\t1\t2\t3\n{}{}", chain, two_rows);
    let swaps = |count: usize, value: &str| format!("chain{}\n", format!("\t{}", value).repeat(count));
    let cases: Vec<(String, Result<(), (u64, u64)>)> = vec![
        (String::new(), Err((10, 1))),
        ("\n".into(), Err((10, 1))),
        ("shape".into(), Err((10, 1))),
        ("shape\t0\t1\t1\t1".into(), Err((10, 1))),
        ("shape\t0\t1\t1\t1\n".into(), Err((1, 0))),
        ("shape\t1\t1\t4097\t1\n".into(), Err((1, 0))),
        ("shape\t1\t1\t1\t4294967295\n".into(), Err((1, 0))),
        ("shape\t1\t1\t1\t4294967296\n".into(), Err((10, 1))),
        ("shape\t1\t1\t5\t205\n".into(), Err((11, 0))),
        ("shape\t4096\t4096\t4096\t4096\n".into(), Err((11, 0))),
        ("shape\t1\t1\t1024\t1\n".into(), Err((3, 0))),
        ("shape\t1\t1\t2\t3\n".into(), Err((10, 2))),
        ("shape\t1\t1\t2\t3\t1\n".into(), Err((10, 1))),
        ("shape\t1\t1\t2\n".into(), Err((10, 1))),
        ("shape\t1\t1\t2\t007\n".into(), Err((10, 1))),
        (with_chain("chain\t2\n"), Ok(())),
        (with_chain("chain\n"), Ok(())),
        (with_chain("chain\t\n"), Err((10, 2))),
        (with_chain("chain\t3\n"), Err((6, 0))),
        (with_chain("chain\t0\t1\t3\t4\n"), Err((6, 2))),
        (with_chain("chain\t3\tx\n"), Err((10, 2))),
        (with_chain("chain\t007\n"), Err((10, 2))),
        (with_chain("chain\t256\n"), Err((6, 0))),
        (with_chain("chain\t4294967296\n"), Err((10, 2))),
        (with_chain(&swaps(32, "2")), Ok(())),
        (with_chain(&swaps(33, "2")), Err((5, 0))),
        (with_chain(&swaps(33, "3")), Err((5, 0))),
        (with_chain(&swaps(33, "03")), Err((10, 2))),
        (with_chain("chain\t2\n") + "\n", Err((10, 5))),
        (with_chain("chain\t2\n") + "x", Err((10, 5))),
        (with_chain("chain\t2\n") + "row\t1\t2\t3\n", Err((10, 5))),
        (with_chain("chain\t2\r\n"), Err((10, 2))),
        ("shape\t1\t1\t2\t3\nchain\nrow\t1\t2\t3\n".into(), Err((10, 4))),
        ("shape\t1\t1\t2\t3\nchain\nrow\t1\t2\t3\nrow\t4\t5\t6".into(), Err((10, 4))),
        ("shape\t1\t1\t2\t3\nchain\nrow\t1\t2\nrow\t4\t5\t6\n".into(), Err((10, 3))),
        ("shape\t1\t1\t2\t3\nchain\nrow\t1\t2\t3\t4\nrow\t4\t5\t6\n".into(), Err((10, 3))),
        ("shape\t1\t1\t2\t3\nchain\nrow\t1\t2\t4294967296\nrow\t4\t5\t6\n".into(), Err((10, 3))),
        ("shape\t1\t1\t2\t3\nchain\nrow\t1\t2\t007\nrow\t4\t5\t6\nrow\n".into(), Err((10, 3))),
    ];
    for (text, verdict) in &cases {
        let told = read(text.as_bytes(), 1000).map(|_| ());
        t.verdict(told == *verdict, || format!("the reference answers {:?} for {:?}", told, text));
        try_read(t, text.as_bytes(), &r.words(1000));
    }
    for &length in &[MOST_BYTES - 1, MOST_BYTES, MOST_BYTES + 1, 20_000] {
        let mut text = with_chain("chain\t2\n").into_bytes();
        text.resize(length, b'1');
        try_read(t, &text, &r.words(6));
        try_read(t, &vec![b'0'; length], &r.words(6));
    }
    t.group("sheets at every rule of document 01");
}

// The longest right sheet: 1,024 rows of one word of ten digits each, with 32 swaps.
fn longest_sheets(t: &mut Cases, r: &mut Random) {
    for &lengths in &[[1024, 1, 1, 1], [1, 1024, 1, 1], [1, 1, 1024, 1], [1, 1, 1, 1024], [4, 4, 8, 8], [1, 1, 4096, 1]] {
        let words = vec![u32::MAX; 1024];
        let s = Sheet { lengths, chain: vec![2; 32], words: words.clone() };
        try_read(t, &sheet(&s), &r.words(1024));
        try_write(t, lengths, 23, &words, &r.bytes(MOST_BYTES));
    }
    t.group("the longest sheets");
}

fn writes(t: &mut Cases, r: &mut Random) {
    for k in 0..if t.short { 40 } else { 600 } {
        let s = random_sheet(r, [2, 4, 6, 40][k % 4]);
        let order = r.below(24);
        let tail = r.below(3) as usize;
        let mut block = s.words.clone();
        block.extend(r.words(tail));
        let exact = result(s.lengths, None, order, &block).len();
        for &length in &[0, exact - 1, exact, exact + 1, exact + 2, exact + 3, exact + 50] {
            try_write(t, s.lengths, order, &block, &r.bytes(length));
        }
        try_write(t, s.lengths, order, &block[..s.words.len() - 1], &r.bytes(exact));
    }
    t.group("result sheets written: bytes short by one, exact, longer; what was written is read back");
    // every set of the checks 1, 11, 3, 7 and 24, by each writer, and with 14
    for set in 0..32 {
        let holds = |k: u32| set & (1 << k) != 0;
        let shapes: &[Lengths] = match (holds(0), holds(1)) {
            (false, false) => &[[1, 2, 3, 4], [1, 1, 1, 1]],
            (false, true) => &[[1, 1, 1025, 1], [4096, 4096, 4096, 4096], [6, 6, 6, 5]],
            (true, false) => &[[0, 2, 3, 4], [1, 2, 3, 0]],
            (true, true) => &[[4097, 1, 1, 1], [u64::MAX, u64::MAX, u64::MAX, u64::MAX]],
        };
        for &lengths in shapes {
            let block = volume(&lengths).min(2000) as usize;
            if holds(2) && block == 0 {
                continue;
            }
            let words = r.words(if holds(2) { block - 1 } else { block });
            let order = if holds(3) { r.pick(&[24, 25, 256, 1 << 32, u64::MAX]) } else { r.below(24) };
            let out = r.bytes(if holds(4) { 20 } else { MOST_BYTES });
            try_write(t, lengths, order, &words, &out);
        }
    }
    t.group("writer refusals: each check alone, each pair and every larger set");
}

fn try_job(t: &mut Cases, r: &mut Random, text: &[u8]) {
    let (buffer, scratch, out) = (r.words(1024), r.words(1024), r.bytes(MOST_BYTES));
    let (told, words_left, scratch_left) = job(text, &buffer, &scratch);
    let mut left = out.clone();
    left[..told.len()].copy_from_slice(&told);
    let lent = bytes(text).read_only();
    let q = Request { call: JOB, numbers: vec![], buffers: vec![lent.clone(), words(&buffer), words(&scratch), bytes(&out)] };
    let (number, place) = read(text, 1024).err().unwrap_or((0, 0));
    let e = Answer {
        numbers: vec![number, place, told.len() as u64],
        buffers: vec![lent, words(&words_left), words(&scratch_left), bytes(&left)],
    };
    t.expect_both(&q, &e, || format!("the job of {:?}", String::from_utf8_lossy(text)));
    if read(text, 1024).is_ok() {
        results::try_read(t, &told, &r.words(1024));
    }
}

// The whole job in one call, on right sheets and on damaged ones.
fn whole_jobs(t: &mut Cases, r: &mut Random) {
    let example = b"shape\t1\t1\t2\t3\nchain\t2\nrow\t1\t2\t3\nrow\t4\t5\t6\n";
    let printed = b"shape\t1\t1\t3\t2\norder\t1\nrow\t1\t4\nrow\t2\t5\nrow\t3\t6\n";
    let told = job(example, &[0; 1024], &[0; 1024]).0;
    t.verdict(told == printed, || "the reference does the example of document 01 otherwise".to_string());
    try_job(t, r, example);
    try_job(t, r, b"shape\t1\t1\t2\t3\nchain\t3\nrow\t1\t2\t3\nrow\t4\t5\t6\n");
    try_job(t, r, &vec![b'0'; MOST_BYTES + 1]);
    for k in 0..if t.short { 60 } else { 1500 } {
        let mut text = sheet(&random_sheet(r, [3, 6, 40][k % 3]));
        if k % 2 == 1 {
            damage(r, &mut text);
        }
        try_job(t, r, &text);
    }
    t.group("whole jobs on right and on damaged sheets; each result sheet is read back");
}

// A sheet read, run through its chain and written, call after call, gives what the whole job gives.
fn jobs_by_calls(t: &mut Cases, r: &mut Random) {
    for _ in 0..if t.short { 30 } else { 300 } {
        let text = sheet(&random_sheet(r, 6));
        let told = job(&text, &[0; 1024], &[0; 1024]).0;
        let outcome = by_calls(t, &text);
        t.verdict(outcome.as_ref() == Ok(&told), || format!("three calls on {:?}", String::from_utf8_lossy(&text)));
        results::try_read(t, &told, &r.words(1024));
    }
    t.group("whole jobs by three calls; each result sheet is read back");
}

fn by_calls(t: &mut Cases, text: &[u8]) -> Result<Vec<u8>, String> {
    let buffers = vec![bytes(text).read_only(), words(&[0; 1024])];
    let sheet = t.driver.ask(0, &Request { call: READ_SHEET, numbers: vec![], buffers })?;
    let (lengths, swaps) = (&sheet.numbers[2..6], &sheet.numbers[6..6 + sheet.numbers[38] as usize]);
    let scratch = words(&vec![0; longest(lengths) as usize]);
    // the chain is lent the block's part of the words
    let mut block = sheet.buffers[1].clone();
    block.bytes.truncate(4 * volume(lengths) as usize);
    let buffers = vec![block, scratch, sizes(swaps).read_only()];
    // a sheet has four axes: the fifth length of the chain's shape is not read, and comes back 0
    let moved = t.driver.ask(0, &Request { call: CHAIN, numbers: [lengths, &[7]].concat(), buffers })?;
    let buffers = vec![moved.buffers[0].clone().read_only(), bytes(&[0; MOST_BYTES])];
    let written = t.driver.ask(0, &Request { call: WRITE_SHEET, numbers: [&moved.numbers[2..6], &moved.numbers[7..8]].concat(), buffers })?;
    Ok(written.buffers[1].bytes[..written.numbers[1] as usize].to_vec())
}

pub fn all(t: &mut Cases, seed: u64) {
    let mut r = Random::new(seed);
    written_out(t, &mut r);
    right_sheets(t, &mut r);
    damaged_sheets(t, &mut r);
    longest_sheets(t, &mut r);
    writes(t, &mut r);
    whole_jobs(t, &mut r);
    jobs_by_calls(t, &mut r);
}
