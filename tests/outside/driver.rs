// The other end of tests/driver.c: one request, one answer.
use std::io::{BufReader, BufWriter, Read, Result, Write};
use std::process::{Child, ChildStdin, ChildStdout, Command, Stdio};

// The calls by number, from the list in tests/driver.c.
include!(env!("CALLS"));

// Which end of every buffer lies against a page that nobody may touch.
pub const AT_END: u64 = 0;
pub const AT_START: u64 = 1;

#[derive(Clone, Debug, PartialEq)]
pub struct Buffer {
    pub bytes: Vec<u8>,
    pub writable: bool,
}

pub fn words(from: &[u32]) -> Buffer {
    let bytes = from.iter().flat_map(|w| w.to_le_bytes()).collect();
    Buffer { bytes, writable: true }
}

pub fn sizes(from: &[u64]) -> Buffer {
    let bytes = from.iter().flat_map(|v| v.to_le_bytes()).collect();
    Buffer { bytes, writable: true }
}

pub fn readings(from: &[i64]) -> Buffer {
    let bytes = from.iter().flat_map(|v| v.to_le_bytes()).collect();
    Buffer { bytes, writable: false }
}

pub fn bytes(from: &[u8]) -> Buffer {
    Buffer { bytes: from.to_vec(), writable: true }
}

impl Buffer {
    // The same, lent for reading.
    pub fn read_only(mut self) -> Buffer {
        self.writable = false;
        self
    }
}

#[derive(Clone)]
pub struct Request {
    pub call: u64,
    pub numbers: Vec<u64>,
    pub buffers: Vec<Buffer>,
}

#[derive(Debug, PartialEq)]
pub struct Answer {
    pub numbers: Vec<u64>,
    pub buffers: Vec<Buffer>,
}

struct Running {
    child: Child,
    to: BufWriter<ChildStdin>,
    from: BufReader<ChildStdout>,
}

pub struct Driver {
    command: Vec<String>,
    running: Option<Running>,
    // whether its last words are kept from the screen, where it is meant to die
    pub muted: bool,
}

fn start(command: &[String], muted: bool) -> Running {
    let mut child = Command::new(&command[0])
        .args(&command[1..])
        .stdin(Stdio::piped())
        .stdout(Stdio::piped())
        .stderr(if muted { Stdio::null() } else { Stdio::inherit() })
        .spawn()
        .expect("the driver starts");
    let to = BufWriter::with_capacity(1 << 16, child.stdin.take().unwrap());
    let from = BufReader::with_capacity(1 << 16, child.stdout.take().unwrap());
    Running { child, to, from }
}

fn put(to: &mut impl Write, v: u64) -> Result<()> {
    to.write_all(&v.to_le_bytes())
}

fn get(from: &mut impl Read) -> Result<u64> {
    let mut v = [0; 8];
    from.read_exact(&mut v)?;
    Ok(u64::from_le_bytes(v))
}

fn exchange(r: &mut Running, side: u64, q: &Request) -> Result<Answer> {
    put(&mut r.to, q.call)?;
    put(&mut r.to, side)?;
    put(&mut r.to, q.numbers.len() as u64)?;
    for &v in &q.numbers {
        put(&mut r.to, v)?;
    }
    put(&mut r.to, q.buffers.len() as u64)?;
    for b in &q.buffers {
        put(&mut r.to, b.bytes.len() as u64)?;
        put(&mut r.to, b.writable as u64)?;
    }
    for b in &q.buffers {
        r.to.write_all(&b.bytes)?;
    }
    r.to.flush()?;
    let count = get(&mut r.from)?;
    let mut numbers = Vec::new();
    for _ in 0..count {
        numbers.push(get(&mut r.from)?);
    }
    let mut buffers = q.buffers.clone();
    for b in &mut buffers {
        r.from.read_exact(&mut b.bytes)?;
    }
    Ok(Answer { numbers, buffers })
}

impl Driver {
    pub fn new(command: &[String]) -> Driver {
        Driver { command: command.to_vec(), running: None, muted: false }
    }

    // The answer, or how the driver died of the request; it is started anew for the next one.
    pub fn ask(&mut self, side: u64, q: &Request) -> std::result::Result<Answer, String> {
        if self.running.is_none() {
            self.running = Some(start(&self.command, self.muted));
        }
        let running = self.running.as_mut().unwrap();
        match exchange(running, side, q) {
            Ok(a) => Ok(a),
            Err(_) => {
                let mut dead = self.running.take().unwrap();
                drop(dead.to);
                Err(format!("the driver died: {}", dead.child.wait().unwrap()))
            }
        }
    }
}

impl Driver {
    // Ends the driver; whether it ended well. Under valgrind it does not where any access was wrong.
    pub fn end(&mut self) -> bool {
        match self.running.take() {
            Some(Running { mut child, to, .. }) => {
                drop(to);
                child.wait().map_or(false, |status| status.success())
            }
            None => true,
        }
    }
}
