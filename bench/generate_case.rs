//! Writes a case file of about 16 MB to standard output, or of as many bytes as its argument says: 64 rows in four
//! families, with every kind of line. The first row of a family creates five threads and ten processes, each of which
//! execs now and then. The same text each time.
use std::env;
use std::io::{self, BufWriter, Write};

const MOST: usize = 16_777_216;
const FAMILIES: u32 = 4;
const THREADS: u32 = 5;
const PROCESSES: u32 = 10;
const ROWS: u32 = FAMILIES * (1 + THREADS + PROCESSES);
/// What the last lines of a row may take, so that all rows do not exceed the most that a file may have.
const LAST_LINES: usize = 256;
/// How many steps lie between two execs, or two births, in a file of MOST bytes.
const APART: usize = 500;

/// How large a row is.
struct Size {
    /// How many bytes it has, its last lines aside.
    bytes: usize,
    /// How many steps lie between two execs, or two births.
    apart: u32,
}

const TEXT: u64 = 0x401000;
const DATA: u64 = 0x601000;
const STACK: u64 = 0x7ffd_3a10_0000;

/// Pseudo-random numbers (Lehmer's generator).
struct Numbers(u64);

impl Numbers {
    fn below(&mut self, end: u64) -> u64 {
        self.0 = self.0 * 48_271 % 2_147_483_647;
        self.0 % end
    }

    /// So many bytes as hexadecimal digits.
    fn bytes(&mut self, count: u64) -> String {
        (0..count).map(|_| format!("{:02x}", self.below(256))).collect()
    }
}

/// What a block's steps may be beside calls and signals.
enum Row {
    /// The first row of a family, which creates these threads and processes.
    First { tid: u32 },
    Thread,
    /// A process of one thread.
    Process,
}

/// The lines of an image: two pages of code and data and two of the stack, with their first bytes.
fn image(numbers: &mut Numbers, out: &mut String) {
    for page in [TEXT, DATA, STACK, STACK + 0x1000] {
        *out += &format!("page {page:#x}\n");
    }
    for address in [DATA, DATA + 0x40, DATA + 0x80, STACK + 0xf80] {
        *out += &format!("data {address:#x} {}\n", numbers.bytes(32));
    }
    *out += &format!("at {:#x} {:#x}\n", TEXT + 0x40, STACK + 0xf80);
}

/// A call as a program makes it: most are reads and writes.
fn call(numbers: &mut Numbers) -> String {
    let path = DATA + 0x40 * numbers.below(3);
    let buffer = STACK + 0x10 * numbers.below(0xff);
    let file = 3 + numbers.below(9);
    let size = 1 + numbers.below(48);
    match numbers.below(16) {
        0..=3 => {
            let bytes = numbers.bytes(size);
            format!("call read {file} {buffer:#x} 4096 = {size} fill {buffer:#x} {bytes}")
        }
        4..=7 => format!("call write {file} {buffer:#x} {size} = {size}"),
        8 => format!("call close {file} = 0"),
        9 => {
            let bytes = numbers.bytes(size);
            format!("call readv {file} {path:#x} 2 = {size} fill {buffer:#x} {bytes}")
        }
        10 => format!("call writev {file} {path:#x} 3 = {}", 3 * size),
        11 => "call getpid = 1000".to_string(),
        12 => format!("call chdir {path:#x} = -2"),
        13 => format!("call mkdir {path:#x} 0x1ed = -17"),
        14 => format!("call rename {path:#x} {:#x} = 0", DATA + 0x80),
        _ => format!("call unlink {path:#x} = 0"),
    }
}

/// The step that is not a call, where it is time for one, the first time being 0.
fn other(row: &Row, time: u32, numbers: &mut Numbers, out: &mut String) {
    match row {
        Row::First { tid } if time < THREADS => *out += &format!("thread {}\n", tid + 1 + time),
        Row::First { tid } if time < THREADS + PROCESSES => {
            *out += &format!("fork {}\n", tid + 1 + time)
        }
        Row::Process if time % 4 == 1 => {
            *out += &format!("exec {DATA:#x}\n");
            image(numbers, out);
        }
        _ => *out += &format!("signal {}\n", [1, 10, 14, 15, 17][numbers.below(5) as usize]),
    }
}

fn block(head: &str, row: &Row, size: &Size, numbers: &mut Numbers) -> String {
    let mut out = format!("# a tracee of {} bytes\n{head}\n", size.bytes);
    image(numbers, &mut out);
    let mut turn = 0;
    while out.len() < size.bytes {
        if turn % size.apart == 0 {
            other(row, turn / size.apart, numbers, &mut out);
        } else {
            out += &call(numbers);
            out.push('\n');
        }
        turn += 1;
    }
    out + "signal 15 deadly\nexit 3\nend\n\n"
}

fn main() -> io::Result<()> {
    let mut out = BufWriter::new(io::stdout().lock());
    let mut numbers = Numbers(1);
    let most = env::args().nth(1).and_then(|word| word.parse().ok()).unwrap_or(MOST);
    let apart = (APART * most / MOST).max(1) as u32;
    let size = Size { bytes: (most / ROWS as usize).saturating_sub(LAST_LINES), apart };
    for first in (1000..).step_by(100).take(FAMILIES as usize) {
        let head = format!("tracee {first} {first} {first} 0");
        out.write_all(block(&head, &Row::First { tid: first }, &size, &mut numbers).as_bytes())?;
        for tid in first + 1..=first + THREADS + PROCESSES {
            let thread = tid <= first + THREADS;
            let (tgid, row) = if thread { (first, Row::Thread) } else { (tid, Row::Process) };
            let head = format!("tracee {tid} {tgid} {first} {first}");
            out.write_all(block(&head, &row, &size, &mut numbers).as_bytes())?;
        }
    }
    out.flush()
}
