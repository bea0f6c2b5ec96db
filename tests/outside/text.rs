// Sheets as document 01 describes them and result sheets as document 02, items 1 and 5, has them loaded, read and written by copying text.
use crate::reference::{bad_length, first, laid, named, need, number_of, reordered, volume, zeroed};

type Lengths = [u64; 4];

pub const MOST_BYTES: usize = 16_384;
pub const MOST_WORDS: u128 = 1024;

#[derive(Clone, Debug, PartialEq)]
pub struct Sheet {
    pub lengths: Lengths,
    pub chain: Vec<u64>,
    pub words: Vec<u32>,
}

#[derive(Clone, Debug, PartialEq)]
pub struct Outcome {
    pub lengths: Lengths,
    // 0 where none is named
    pub release: u64,
    pub order: u64,
    pub words: Vec<u32>,
}

// A refusal: its number and its place.
pub type Refusal = (u64, u64);

// A number: digits alone, no leading zero, at most 4,294,967,295.
fn number(field: &[u8]) -> Option<u64> {
    let text = std::str::from_utf8(field).ok()?;
    let digits = !text.is_empty() && text.bytes().all(|b| b.is_ascii_digit());
    if !digits || (text.len() > 1 && text.starts_with('0')) || text.len() > 10 {
        return None;
    }
    text.parse().ok().filter(|&v| v <= u32::MAX as u64)
}

// The numbers of a closed line that begins with a word.
fn record(line: Option<&[u8]>, word: &str) -> Option<Vec<u64>> {
    let line = line?;
    let (&last, inner) = line.split_last()?;
    if last != b'\n' {
        return None;
    }
    let mut fields = inner.split(|&b| b == b'\t');
    if fields.next()? != word.as_bytes() {
        return None;
    }
    fields.map(number).collect()
}

// Lengths, numbers of line 2 and words; `second` judges line 2.
type Page = (Lengths, Vec<u64>, Vec<u32>);

fn page(text: &[u8], room: usize, second: fn(Option<&[u8]>) -> Result<Vec<u64>, Refusal>) -> Result<Page, Refusal> {
    if text.len() > MOST_BYTES {
        return Err((9, 0));
    }
    let mut lines = text.split_inclusive(|&b| b == b'\n');
    let shape = record(lines.next(), "shape").filter(|v| v.len() == 4).ok_or((10, 1))?;
    let lengths = [shape[0], shape[1], shape[2], shape[3]];
    let number = first(&[
        (1, bad_length(&lengths)),
        (11, volume(&lengths) > MOST_WORDS),
        (3, (room as u128) < volume(&lengths)),
    ]);
    if number != 0 {
        return Err((number, 0));
    }
    let numbers = second(lines.next())?;
    let rows = lengths[0] * lengths[1] * lengths[2];
    let mut words = Vec::new();
    for row in 0..rows {
        let line = record(lines.next(), "row").filter(|v| v.len() as u64 == lengths[3]).ok_or((10, 3 + row))?;
        words.extend(line.iter().map(|&v| v as u32));
    }
    match lines.next() {
        Some(_) => Err((10, 3 + rows)),
        None => Ok((lengths, numbers, words)),
    }
}

// Line 2 of a sheet: its form, 5, 6.
fn chain(line: Option<&[u8]>) -> Result<Vec<u64>, Refusal> {
    let chain = record(line, "chain").ok_or((10, 2))?;
    if chain.len() > 32 {
        return Err((5, 0));
    }
    match chain.iter().position(|&k| k > 2) {
        Some(place) => Err((6, place as u64)),
        None => Ok(chain),
    }
}

// Line 2 of a result sheet: its form, a release, which may be missing, and a number; 14; 7.
fn order(line: Option<&[u8]>) -> Result<Vec<u64>, Refusal> {
    let numbers = record(line, "order").filter(|v| v.len() == 1 || v.len() == 2).ok_or((10, 2))?;
    let (named, release) = (numbers.len() == 2, numbers[0]);
    let order = numbers[numbers.len() - 1];
    let number = first(&[(14, named && release != 1 && release != 2), (7, order > 23)]);
    if number != 0 {
        return Err((number, 0));
    }
    Ok(vec![if named { release } else { 0 }, order])
}

pub fn read(text: &[u8], room: usize) -> Result<Sheet, Refusal> {
    page(text, room, chain).map(|(lengths, chain, words)| Sheet { lengths, chain, words })
}

pub fn read_result(text: &[u8], room: usize) -> Result<Outcome, Refusal> {
    page(text, room, order).map(|(lengths, numbers, words)| Outcome { lengths, release: numbers[0], order: numbers[1], words })
}

fn line(word: &str, values: impl Iterator<Item = u64>) -> String {
    let mut text = word.to_string();
    for v in values {
        text += &format!("\t{}", v);
    }
    text + "\n"
}

fn rows(lengths: Lengths, words: &[u32]) -> String {
    words.chunks(lengths[3] as usize).map(|row| line("row", row.iter().map(|&w| w as u64))).collect()
}

// The text of a sheet.
pub fn sheet(s: &Sheet) -> Vec<u8> {
    let head = line("shape", s.lengths.iter().copied()) + &line("chain", s.chain.iter().copied());
    (head + &rows(s.lengths, &s.words)).into_bytes()
}

// The text of a result sheet, with its release if there is one.
pub fn result(lengths: Lengths, release: Option<u64>, order: u64, words: &[u32]) -> Vec<u8> {
    let head = line("shape", lengths.iter().copied()) + &line("order", release.into_iter().chain([order]));
    (head + &rows(lengths, &words[..volume(&lengths) as usize])).into_bytes()
}

// What the writer answers for a byte buffer of this length: the one that names a release, or the one that names none.
pub fn write(lengths: Lengths, release: Option<u64>, order: u64, words: &[u32], bytes: usize) -> Result<Vec<u8>, u64> {
    let number = first(&[
        (1, bad_length(&lengths)),
        (11, volume(&lengths) > MOST_WORDS),
        (3, (words.len() as u128) < volume(&lengths)),
        (14, release.map_or(false, |k| k != 1 && k != 2)),
        (7, order > 23),
    ]);
    if number != 0 {
        return Err(number);
    }
    let text = result(lengths, release, order, words);
    if bytes < text.len() {
        Err(24)
    } else {
        Ok(text)
    }
}

// What the whole job leaves: the text, the words and the scratch.
pub fn job(text: &[u8], words: &[u32], scratch: &[u32]) -> (Vec<u8>, Vec<u32>, Vec<u32>) {
    match read(text, words.len()) {
        Err((number, place)) => (format!("refused\t{}\t{}\n", number, place).into_bytes(), words.to_vec(), scratch.to_vec()),
        Ok(s) => {
            let order = named(&s.chain);
            let mut left = words.to_vec();
            left[..s.words.len()].copy_from_slice(&laid(&s.words, s.lengths, order));
            let told = result(reordered(s.lengths, order), None, number_of(order), &left);
            (told, left, zeroed(scratch, need(s.lengths, &s.chain)))
        }
    }
}
