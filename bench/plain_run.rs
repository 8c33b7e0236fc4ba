//! The run of a case file on standard input as a plain Rust program, to measure against: the standard library only,
//! safe code, one thread. It reads the case as `plain_case.rs` does, runs the scripts one after the other, and prints
//! the text of each row at once, with every call shown. Its argument is how many bytes of a string are shown, 32
//! without one.

#[path = "plain_case.rs"]
pub mod plain_case;

use plain_case::{Call, Case, Image, MOST_BYTES, PAGE_SIZE, Row, Script, Step, read};
use std::env;
use std::io::{self, Read, Write};
use std::process::ExitCode;

pub const LIMIT: u64 = 32;
const MOST_ENTRIES: u64 = 1024;

pub const SIGNALS: [&str; 31] = [
    "HUP", "INT", "QUIT", "ILL", "TRAP", "ABRT", "BUS", "FPE", "KILL", "USR1", "SEGV", "USR2", "PIPE", "ALRM", "TERM",
    "STKFLT", "CHLD", "CONT", "STOP", "TSTP", "TTIN", "TTOU", "URG", "XCPU", "XFSZ", "VTALRM", "PROF", "WINCH", "IO",
    "PWR", "SYS",
];

fn error_name(number: u64) -> Option<&'static str> {
    Some(match number {
        1 => "EPERM",
        2 => "ENOENT",
        3 => "ESRCH",
        4 => "EINTR",
        5 => "EIO",
        7 => "E2BIG",
        8 => "ENOEXEC",
        9 => "EBADF",
        10 => "ECHILD",
        11 => "EAGAIN",
        12 => "ENOMEM",
        13 => "EACCES",
        14 => "EFAULT",
        16 => "EBUSY",
        17 => "EEXIST",
        20 => "ENOTDIR",
        21 => "EISDIR",
        22 => "EINVAL",
        24 => "EMFILE",
        28 => "ENOSPC",
        30 => "EROFS",
        32 => "EPIPE",
        38 => "ENOSYS",
        39 => "ENOTEMPTY",
        _ => return None,
    })
}

/// The pieces of a run of addresses, each a slice of a page, up to its end or the first address that is not mapped.
struct Pieces<'a> {
    image: &'a Image,
    at: u64,
    left: u64,
}

impl<'a> Iterator for Pieces<'a> {
    type Item = &'a [u8];

    fn next(&mut self) -> Option<&'a [u8]> {
        if self.left == 0 {
            return None;
        }
        let offset = (self.at % PAGE_SIZE as u64) as usize;
        let place = self.image.place(self.at - offset as u64).ok()?;
        let room = PAGE_SIZE - offset;
        let length = room.min(self.left.min(room as u64) as usize);
        let bytes = &self.image.pages[place].1[offset..offset + length];
        self.left -= length as u64;
        match self.at.checked_add(length as u64) {
            Some(next) => self.at = next,
            None if self.left > 0 => return None,
            None => {}
        }
        Some(bytes)
    }
}

/// The text of a row, as it is printed.
pub struct Text<'a> {
    pub bytes: &'a mut Vec<u8>,
    /// How many bytes of a string, and how many parts of an array, are shown.
    pub limit: u64,
}

impl Text<'_> {
    pub fn words(&mut self, words: &str) {
        self.bytes.extend_from_slice(words.as_bytes());
    }

    pub fn decimal(&mut self, number: u64) {
        let mut digits = [0u8; 20];
        let mut start = digits.len();
        let mut left = number;
        loop {
            start -= 1;
            digits[start] = b'0' + (left % 10) as u8;
            left /= 10;
            if left == 0 {
                break;
            }
        }
        self.bytes.extend_from_slice(&digits[start..]);
    }

    pub fn signed(&mut self, number: i64) {
        if number < 0 {
            self.bytes.push(b'-');
        }
        self.decimal(number.unsigned_abs());
    }

    fn hexadecimal(&mut self, number: u64) {
        self.words("0x");
        let count = (64 - number.leading_zeros()).div_ceil(4).max(1);
        for place in (0..count).rev() {
            self.bytes.push(b"0123456789abcdef"[(number >> (4 * place) & 15) as usize]);
        }
    }

    fn address(&mut self, number: u64) {
        if number == 0 { self.words("NULL") } else { self.hexadecimal(number) }
    }

    fn mode(&mut self, number: u64) {
        let mode = number & 0xffff;
        self.words(if mode < 8 { "00" } else { "0" });
        let count = (64 - mode.leading_zeros()).div_ceil(3).max(1);
        for place in (0..count).rev() {
            self.bytes.push(b'0' + (mode >> (3 * place) & 7) as u8);
        }
    }

    fn quoted(&mut self, bytes: &[u8]) {
        for byte in bytes {
            match byte {
                b'\n' => self.words("\\n"),
                b'\t' => self.words("\\t"),
                0x0b => self.words("\\v"),
                0x0c => self.words("\\f"),
                b'\r' => self.words("\\r"),
                b'"' => self.words("\\\""),
                b'\\' => self.words("\\\\"),
                0x20..=0x7e => self.bytes.push(*byte),
                _ => {
                    let digits = [b'\\', b'0' + (byte >> 6), b'0' + (byte >> 3 & 7), b'0' + (byte & 7)];
                    self.bytes.extend_from_slice(&digits);
                }
            }
        }
    }

    fn buffer(&mut self, image: &Image, address: u64, length: u64) {
        let start = self.bytes.len();
        self.bytes.push(b'"');
        let mut left = length.min(self.limit);
        for piece in (Pieces { image, at: address, left }) {
            self.quoted(piece);
            left -= piece.len() as u64;
        }
        if left > 0 {
            self.bytes.truncate(start);
            return self.address(address);
        }
        self.words(if length > self.limit { "\"..." } else { "\"" });
    }

    pub fn string(&mut self, image: &Image, address: u64) {
        let start = self.bytes.len();
        self.bytes.push(b'"');
        let mut left = self.limit + 1;
        for piece in (Pieces { image, at: address, left }) {
            if let Some(end) = piece.iter().position(|byte| *byte == 0) {
                let shown = (end as u64).min(left - 1) as usize;
                self.quoted(&piece[..shown]);
                return self.words(if shown < end { "\"..." } else { "\"" });
            }
            let shown = (piece.len() as u64).min(left - 1) as usize;
            self.quoted(&piece[..shown]);
            left -= piece.len() as u64;
            if left == 0 {
                return self.words("\"...");
            }
        }
        self.bytes.truncate(start);
        self.address(address);
    }

    /// An array of buffers; where bytes come out, they share those that the call has answered.
    fn array(&mut self, image: &Image, address: u64, count: u64, mut answered: Option<u64>) {
        let start = self.bytes.len();
        if count > MOST_ENTRIES {
            return self.address(address);
        }
        self.bytes.push(b'[');
        for place in 0..count.min(self.limit) {
            let mut entry = [0u8; 16];
            let mut filled = 0;
            let pieces = address.checked_add(16 * place).map(|at| Pieces { image, at, left: 16 });
            for piece in pieces.into_iter().flatten() {
                entry[filled..filled + piece.len()].copy_from_slice(piece);
                filled += piece.len();
            }
            if filled < 16 {
                self.bytes.truncate(start);
                return self.address(address);
            }
            let (base, length) = entry.split_at(8);
            let base = u64::from_le_bytes(base.try_into().unwrap_or_default());
            let length = u64::from_le_bytes(length.try_into().unwrap_or_default());
            let shown = answered.map_or(length, |left| length.min(left));
            answered = answered.map(|left| left - shown);
            self.words(if place == 0 { "{iov_base=" } else { ", {iov_base=" });
            self.buffer(image, base, shown);
            self.words(", iov_len=");
            self.decimal(length);
            self.bytes.push(b'}');
        }
        if count > self.limit {
            self.words(", ...");
        }
        self.bytes.push(b']');
    }

    pub fn result(&mut self, answer: u64) {
        self.words(") = ");
        let error = answer.wrapping_neg();
        if (1..=4095).contains(&error) {
            self.words("-1 ");
            match error_name(error) {
                Some(name) => self.words(name),
                None => {
                    self.words("ERR_");
                    self.decimal(error);
                }
            }
        } else {
            self.signed(answer.cast_signed());
        }
        self.bytes.push(b'\n');
    }
}

/// Prints the first part of a call, from the memory at its entry; whether bytes that come out follow.
pub fn before(text: &mut Text, image: &Image, call: &Call) -> bool {
    let [first, second, third, ..] = call.args;
    let file = i64::from(first as u32 as i32);
    match call.nr {
        0 | 19 => {
            text.words(if call.nr == 0 { "read(" } else { "readv(" });
            text.signed(file);
            text.words(", ");
            return true;
        }
        1 => {
            text.words("write(");
            text.signed(file);
            text.words(", ");
            text.buffer(image, second, third);
            text.words(", ");
            text.decimal(third);
        }
        3 => {
            text.words("close(");
            text.signed(file);
        }
        20 => {
            text.words("writev(");
            text.signed(file);
            text.words(", ");
            text.array(image, second, third, None);
            text.words(", ");
            text.decimal(third);
        }
        39 => text.words("getpid("),
        83 => {
            text.words("mkdir(");
            text.string(image, first);
            text.words(", ");
            text.mode(second);
        }
        82 => {
            text.words("rename(");
            text.string(image, first);
            text.words(", ");
            text.string(image, second);
        }
        80 | 84 | 87 => {
            text.words(match call.nr {
                80 => "chdir(",
                84 => "rmdir(",
                _ => "unlink(",
            });
            text.string(image, first);
        }
        _ => {}
    }
    false
}

/// Prints the bytes that come out of a call, and what follows them.
pub fn after(text: &mut Text, image: &Image, call: &Call) {
    let [_, second, third, ..] = call.args;
    if call.answer.cast_signed() < 0 {
        text.address(second);
    } else if call.nr == 0 {
        text.buffer(image, second, call.answer);
    } else {
        text.array(image, second, third, Some(call.answer));
    }
    text.words(", ");
    text.decimal(third);
}

/// Runs a script and prints its lines; the children that it creates are born.
fn run(row: &Row, script: Script, fills: &[u8], births: &mut Vec<u32>, text: &mut Text) {
    let mut tid = Vec::new();
    Text { bytes: &mut tid, limit: LIMIT }.decimal(u64::from(row.tid));
    tid.push(b' ');
    let mut image = script.image;
    for step in script.steps {
        text.bytes.extend_from_slice(&tid);
        match step {
            Step::Call(call) => {
                let comes_out = before(text, &image, &call);
                if let Some(fill) = &call.fill {
                    let start = fill.start as usize;
                    image.store(fill.address, &fills[start..start + fill.length as usize]);
                }
                if comes_out {
                    after(text, &image, &call);
                }
                text.result(call.answer);
            }
            Step::Fork(child) => {
                births.push(child);
                text.words("fork(");
                text.result(u64::from(child));
            }
            Step::Thread(child) => {
                births.push(child);
                text.words("clone(0x10900");
                text.result(u64::from(child));
            }
            Step::Exec { path, image: next } => {
                text.words("execve(");
                text.string(&image, path);
                text.words(", NULL, NULL");
                text.result(0);
                image = *next;
            }
            Step::Signal { signal, deadly } => {
                let name = SIGNALS[usize::from(signal) - 1];
                text.words("--- SIG");
                text.words(name);
                text.words(" ---\n");
                if deadly {
                    text.bytes.extend_from_slice(&tid);
                    text.words("+++ killed by SIG");
                    text.words(name);
                    return text.words(" +++\n");
                }
            }
            Step::Exit(status) => {
                text.words("exit(");
                text.signed(i64::from(status as u32 as i32));
                text.words(") = ?\n");
                text.bytes.extend_from_slice(&tid);
                text.words("+++ exited with ");
                text.decimal(status % 256);
                return text.words(" +++\n");
            }
        }
    }
    text.bytes.extend_from_slice(&tid);
    text.words("+++ exited with 0 +++\n");
}

/// The text of a case. A row's parent stands before it.
fn text_of(case: Case, limit: u64) -> Vec<u8> {
    let mut bytes = Vec::new();
    let mut births = Vec::new();
    for (row, script) in case.rows.iter().zip(case.scripts) {
        if row.parent.is_none() || births.contains(&row.tid) {
            run(row, script, &case.bytes, &mut births, &mut Text { bytes: &mut bytes, limit });
        }
    }
    bytes
}

fn main() -> ExitCode {
    let limit = env::args().nth(1).and_then(|word| word.parse().ok()).unwrap_or(LIMIT);
    let mut text = Vec::with_capacity(MOST_BYTES + 1);
    if io::stdin().lock().take(MOST_BYTES as u64 + 1).read_to_end(&mut text).is_err() {
        eprintln!("tracer: cannot read");
        return ExitCode::from(3);
    }
    match read(&text) {
        Ok(case) => {
            drop(text);
            match io::stdout().write_all(&text_of(case, limit)) {
                Ok(()) => ExitCode::SUCCESS,
                Err(_) => {
                    eprintln!("tracer: cannot write");
                    ExitCode::from(3)
                }
            }
        }
        Err((line, cause)) => {
            eprintln!("tracer: line {line}: {cause:?}");
            ExitCode::from(1)
        }
    }
}
