//! The reading of a case file on standard input as a plain Rust program, to measure against: the standard library
//! only, safe code, one thread. It goes over the bytes once and keeps the rows, and of each the script with its images,
//! steps and fills, and prints how many rows and steps there are. The bytes of all fills are in one buffer.

// Only the reading is measured: much of what a case keeps is for those that run it.
#![allow(dead_code)]

use std::hint::black_box;
use std::io::{self, Read, Write};
use std::process::ExitCode;

pub const MOST_BYTES: usize = 16_777_216;
const MOST_ROWS: usize = 256;
const MOST_STEPS: usize = 65_536;
const MOST_PAGES: usize = 256;
pub const PAGE_SIZE: usize = 4096;
const LAST_ID: u32 = 4_194_303;

#[derive(Clone, Copy, Debug)]
pub enum Cause {
    UnknownWord,
    BadNumber,
    BadHex,
    NoSuchTracee,
    TwiceTracee,
    ParentLater,
    GroupMismatch,
    SharedExec,
    TooMany,
    Unmapped,
    NoEnd,
    Signal,
    ChildOrder,
}

use Cause::{BadHex, BadNumber, TooMany, UnknownWord, Unmapped};

/// The value of each byte as a hexadecimal digit, or NO_DIGIT.
const DIGITS: [u8; 256] = digits();
const NO_DIGIT: u8 = 0x10;

const fn digits() -> [u8; 256] {
    let mut values = [NO_DIGIT; 256];
    let mut value = 0;
    while value < 16 {
        values[b"0123456789abcdef"[value] as usize] = value as u8;
        values[b"0123456789ABCDEF"[value] as usize] = value as u8;
        value += 1;
    }
    values
}

/// What is left of a text, from inside its current line on.
struct Words<'a> {
    rest: &'a [u8],
    /// Whether a word of the line is not the number that is wanted.
    bad_number: bool,
    /// Whether a word of the line is not hexadecimal bytes.
    bad_hex: bool,
}

/// Whether a word ends before this rest of a text.
fn is_end(rest: &[u8]) -> bool {
    matches!(rest, [] | [b' ' | b'\n', ..])
}

impl<'a> Words<'a> {
    fn skip_spaces(&mut self) {
        while let [b' ', rest @ ..] = self.rest {
            self.rest = rest;
        }
    }

    fn is_line_end(&mut self) -> bool {
        self.skip_spaces();
        matches!(self.rest, [] | [b'\n', ..])
    }

    /// The next word, which is empty at the end of the line.
    fn word(&mut self) -> &'a [u8] {
        self.skip_spaces();
        let end = self.rest.iter().position(|b| matches!(b, b' ' | b'\n'));
        let (word, rest) = self.rest.split_at(end.unwrap_or(self.rest.len()));
        self.rest = rest;
        word
    }

    /// Whether the next word is this one, which is then taken.
    fn takes(&mut self, word: &[u8]) -> bool {
        self.skip_spaces();
        match self.rest.strip_prefix(word) {
            Some(rest) if is_end(rest) => {
                self.rest = rest;
                true
            }
            _ => false,
        }
    }

    /// Takes the rest of the line with its line feed.
    fn skip_line(&mut self) {
        let end = self.rest.iter().position(|b| *b == b'\n').unwrap_or(self.rest.len());
        self.rest = self.rest.get(end + 1..).unwrap_or(&[]);
    }

    /// Ends a line: it has no further word, and each number and byte word is one.
    fn end(&mut self) -> Result<(), Cause> {
        if !self.is_line_end() {
            return Err(UnknownWord);
        }
        if self.bad_number {
            return Err(BadNumber);
        }
        if self.bad_hex {
            return Err(BadHex);
        }
        Ok(())
    }

    /// Takes the next word as a number of 64 bits. Where it is none, the line has a bad number.
    fn number(&mut self) -> Result<u64, Cause> {
        self.skip_spaces();
        let (base, most, mut rest) = match self.rest {
            [] | [b'\n', ..] => return Err(UnknownWord),
            [b'0', b'x', rest @ ..] => (16, 16, rest),
            rest => (10, 19, rest),
        };
        let length = rest.len();
        let mut number = 0u64;
        while let [b, after @ ..] = rest {
            let digit = u64::from(DIGITS[usize::from(*b)]);
            if digit >= base {
                break;
            }
            number = number.wrapping_mul(base).wrapping_add(digit);
            rest = after;
        }
        let count = length - rest.len();
        if count == 0 || count > most || !is_end(rest) {
            return Ok(self.other_number());
        }
        self.rest = rest;
        Ok(number)
    }

    /// A number that so many digits do not write in 64 bits for certain, or none.
    #[cold]
    fn other_number(&mut self) -> u64 {
        let number = match self.word() {
            [b'0', b'x', digits @ ..] => number_in(16, digits),
            digits => number_in(10, digits),
        };
        self.bad_number |= number.is_none();
        number.unwrap_or(0)
    }

    /// Takes the next word as a number of 64 bits with a sign, as the word that a call leaves in a register.
    fn answer(&mut self) -> Result<u64, Cause> {
        self.skip_spaces();
        let (minus, mut rest) = match self.rest {
            [] | [b'\n', ..] => return Err(UnknownWord),
            [b'-', rest @ ..] => (true, rest),
            rest => (false, rest),
        };
        let length = rest.len();
        let mut number = 0u64;
        while let [b @ b'0'..=b'9', after @ ..] = rest {
            number = number.wrapping_mul(10).wrapping_add(u64::from(b - b'0'));
            rest = after;
        }
        let count = length - rest.len();
        if count == 0 || count > 18 || !is_end(rest) {
            return Ok(self.other_answer());
        }
        self.rest = rest;
        Ok(if minus { number.wrapping_neg() } else { number })
    }

    #[cold]
    fn other_answer(&mut self) -> u64 {
        let number = match self.word() {
            [b'-', digits @ ..] => number_in(10, digits).and_then(|n| 0i64.checked_sub_unsigned(n)),
            digits => number_in(10, digits).and_then(|n| 0i64.checked_add_unsigned(n)),
        };
        self.bad_number |= number.is_none();
        number.unwrap_or(0).cast_unsigned()
    }

    /// Takes the next word as a number from `low` to the last id.
    fn id(&mut self, low: u32) -> Result<u32, Cause> {
        let number = self.number()?;
        self.bad_number |= number < u64::from(low) || number > u64::from(LAST_ID);
        Ok(number as u32)
    }

    /// Takes the next word as hexadecimal bytes, which are added to these.
    fn bytes(&mut self, bytes: &mut Vec<u8>) -> Result<(), Cause> {
        let word = self.word();
        let (pairs, odd) = word.as_chunks::<2>();
        let mut seen = 0;
        bytes.extend(pairs.iter().map(|[high, low]| {
            let (high, low) = (DIGITS[usize::from(*high)], DIGITS[usize::from(*low)]);
            seen |= high | low;
            high << 4 | low
        }));
        self.bad_hex |= seen >= NO_DIGIT || !odd.is_empty();
        if word.is_empty() { Err(UnknownWord) } else { Ok(()) }
    }
}

/// The number that digits of a base write, if there are any, all are digits, and it fits 64 bits.
fn number_in(base: u8, digits: &[u8]) -> Option<u64> {
    let shifted = |number: u64, b: &u8| {
        let digit = DIGITS[usize::from(*b)];
        let number = number.checked_mul(u64::from(base))?.checked_add(u64::from(digit))?;
        (digit < base).then_some(number)
    };
    if digits.is_empty() {
        None
    } else {
        digits.iter().try_fold(0, shifted)
    }
}

#[derive(Clone, Copy)]
pub struct Row {
    pub tid: u32,
    pub tgid: u32,
    pub pgid: u32,
    /// The place of the parent, if there is one, and the row's rank among its children.
    pub parent: Option<u8>,
    pub rank: u8,
    pub children: u8,
}

/// A program as it is loaded. Its pages are in the order of their addresses.
#[derive(Default)]
pub struct Image {
    pub pages: Vec<(u64, Box<[u8; PAGE_SIZE]>)>,
    pub rip: u64,
    pub rsp: u64,
}

impl Image {
    pub fn place(&self, page: u64) -> Result<usize, usize> {
        self.pages.binary_search_by_key(&page, |(address, _)| *address)
    }

    fn map(&mut self, page: u64) -> Result<(), Cause> {
        match self.place(page) {
            Ok(_) => Err(BadNumber),
            Err(_) if self.pages.len() == MOST_PAGES => Err(TooMany),
            Err(place) => {
                self.pages.insert(place, (page, Box::new([0; PAGE_SIZE])));
                Ok(())
            }
        }
    }

    /// Whether all addresses of a run are mapped.
    fn has(&self, address: u64, length: usize) -> bool {
        let Some(last) = address.checked_add(length as u64 - 1) else {
            return false;
        };
        let size = PAGE_SIZE as u64;
        (address / size..=last / size).all(|page| self.place(page * size).is_ok())
    }

    /// Stores bytes whose addresses are mapped.
    pub fn store(&mut self, address: u64, bytes: &[u8]) {
        let mut at = address;
        let mut left = bytes;
        while !left.is_empty() {
            let offset = (at % PAGE_SIZE as u64) as usize;
            let (piece, after) = left.split_at(left.len().min(PAGE_SIZE - offset));
            if let Ok(place) = self.place(at - offset as u64) {
                self.pages[place].1[offset..offset + piece.len()].copy_from_slice(piece);
            }
            at = at.wrapping_add(piece.len() as u64);
            left = after;
        }
    }
}

/// What a call writes: its bytes are a part of the case's buffer.
pub struct Fill {
    pub address: u64,
    pub start: u32,
    pub length: u32,
}

pub struct Call {
    pub nr: u32,
    pub args: [u64; 6],
    pub answer: u64,
    pub fill: Option<Fill>,
}

pub enum Step {
    Call(Call),
    Fork(u32),
    Thread(u32),
    Exec { path: u64, image: Box<Image> },
    Signal { signal: u8, deadly: bool },
    Exit(u64),
}

#[derive(Default)]
pub struct Script {
    pub image: Image,
    pub steps: Vec<Step>,
    /// The place of the last exec.
    pub exec: Option<usize>,
}

impl Script {
    /// The image in force: that of the last exec, or else the first.
    fn image(&self) -> &Image {
        match self.exec.map(|place| &self.steps[place]) {
            Some(Step::Exec { image, .. }) => image,
            _ => &self.image,
        }
    }

    fn image_mut(&mut self) -> &mut Image {
        match self.exec.map(|place| &mut self.steps[place]) {
            Some(Step::Exec { image, .. }) => image,
            _ => &mut self.image,
        }
    }
}

/// Where a line is.
#[derive(Clone, Copy, PartialEq)]
enum Place {
    /// Outside of blocks.
    Outside,
    /// Right after a `tracee` or `exec`, or other lines of its image.
    Loading,
    /// After another step.
    Stepping,
}

/// A birth or an exec, which is tested after the last line.
struct Late {
    line: u32,
    row: u8,
    what: LateStep,
}

enum LateStep {
    /// Of a child, the row's so many births before it.
    Fork(u32, u32),
    Thread(u32, u32),
    Exec,
}

pub struct Case {
    pub rows: Vec<Row>,
    pub scripts: Vec<Script>,
    /// The bytes of all fills.
    pub bytes: Vec<u8>,
}

struct Reading {
    case: Case,
    place: Place,
    /// By thread id: the row's place, or 0 where no row has it. So it counts only where that row has the id.
    places: Vec<u8>,
    /// How many children the open block has created.
    births: u32,
    late: Vec<Late>,
}

impl Reading {
    fn new() -> Reading {
        Reading {
            case: Case {
                rows: Vec::with_capacity(MOST_ROWS),
                scripts: Vec::with_capacity(MOST_ROWS),
                bytes: Vec::new(),
            },
            place: Place::Outside,
            places: vec![0; LAST_ID as usize + 1],
            births: 0,
            late: Vec::new(),
        }
    }

    fn place(&self, tid: u32) -> Option<u8> {
        let place = self.places[tid as usize];
        self.case.rows.get(usize::from(place)).filter(|row| row.tid == tid).map(|_| place)
    }

    /// The script of the block that is open.
    fn script(&mut self) -> Result<&mut Script, Cause> {
        self.case.scripts.last_mut().ok_or(UnknownWord)
    }

    fn open(&mut self, words: &mut Words) -> Result<(), Cause> {
        let (tid, tgid) = (words.id(1)?, words.id(1)?);
        let (pgid, parent) = (words.id(1)?, words.id(0)?);
        words.end()?;
        if self.place(tid).is_some() {
            return Err(Cause::TwiceTracee);
        }
        let (parent, fits) = match parent {
            0 => (None, tgid == tid),
            _ => {
                let place = self.place(parent).ok_or(Cause::ParentLater)?;
                let parent = self.case.rows[usize::from(place)];
                (Some(place), (tgid == tid || tgid == parent.tgid) && pgid == parent.pgid)
            }
        };
        if !fits {
            return Err(Cause::GroupMismatch);
        }
        if self.case.rows.len() == MOST_ROWS {
            return Err(TooMany);
        }
        let rank = parent.map_or(0, |place| {
            let parent = &mut self.case.rows[usize::from(place)];
            parent.children += 1;
            parent.children - 1
        });
        self.case.rows.push(Row {
            tid,
            tgid,
            pgid,
            parent,
            rank,
            children: 0,
        });
        self.case.scripts.push(Script::default());
        self.places[tid as usize] = (self.case.rows.len() - 1) as u8;
        self.place = Place::Loading;
        self.births = 0;
        Ok(())
    }

    /// The same script, if it has room for a further step.
    fn room(&mut self) -> Result<&mut Script, Cause> {
        let script = self.script()?;
        if script.steps.len() == MOST_STEPS { Err(TooMany) } else { Ok(script) }
    }

    fn step(&mut self, step: Step, place: Place) -> Result<(), Cause> {
        self.room()?.steps.push(step);
        self.place = place;
        Ok(())
    }

    fn call(&mut self, words: &mut Words) -> Result<(), Cause> {
        let nr = call_number(words.word()).ok_or(UnknownWord)?;
        let mut args = [0; 6];
        let mut count = 0;
        while !words.takes(b"=") {
            *args.get_mut(count).ok_or(UnknownWord)? = words.number()?;
            count += 1;
        }
        let answer = words.answer()?;
        let mut fill = None;
        if !words.is_line_end() {
            if !words.takes(b"fill") {
                return Err(UnknownWord);
            }
            let address = words.number()?;
            let start = self.case.bytes.len();
            words.bytes(&mut self.case.bytes)?;
            let length = self.case.bytes.len() - start;
            fill = Some(Fill {
                address,
                start: start as u32,
                length: length as u32,
            });
        }
        words.end()?;
        let script = self.room()?;
        if fill.as_ref().is_some_and(|fill| !script.image().has(fill.address, fill.length as usize)) {
            return Err(Unmapped);
        }
        script.steps.push(Step::Call(Call {
            nr,
            args,
            answer,
            fill,
        }));
        self.place = Place::Stepping;
        Ok(())
    }

    fn birth(&mut self, words: &mut Words, line: u32, forks: bool) -> Result<(), Cause> {
        let child = words.id(1)?;
        words.end()?;
        let (step, what) = if forks {
            (Step::Fork(child), LateStep::Fork(child, self.births))
        } else {
            (Step::Thread(child), LateStep::Thread(child, self.births))
        };
        self.step(step, Place::Stepping)?;
        self.births += 1;
        self.test_later(line, what);
        Ok(())
    }

    fn exec(&mut self, words: &mut Words, line: u32) -> Result<(), Cause> {
        let path = words.number()?;
        words.end()?;
        let image = Box::default();
        self.step(Step::Exec { path, image }, Place::Loading)?;
        let script = self.script()?;
        script.exec = Some(script.steps.len() - 1);
        self.test_later(line, LateStep::Exec);
        Ok(())
    }

    fn test_later(&mut self, line: u32, what: LateStep) {
        let row = (self.case.rows.len() - 1) as u8;
        self.late.push(Late { line, row, what });
    }

    fn signal(&mut self, words: &mut Words) -> Result<(), Cause> {
        let number = words.number()?;
        let deadly = words.takes(b"deadly");
        words.end()?;
        let signal = match number {
            9 | 19..=22 => None,
            1..=31 => Some(number as u8),
            _ => None,
        };
        self.room()?;
        let signal = signal.ok_or(Cause::Signal)?;
        self.step(Step::Signal { signal, deadly }, Place::Stepping)
    }

    fn data(&mut self, words: &mut Words) -> Result<(), Cause> {
        let address = words.number()?;
        let start = self.case.bytes.len();
        words.bytes(&mut self.case.bytes)?;
        words.end()?;
        let Case { scripts, bytes, .. } = &mut self.case;
        let image = scripts.last_mut().ok_or(UnknownWord)?.image_mut();
        if !image.has(address, bytes.len() - start) {
            return Err(Unmapped);
        }
        image.store(address, &bytes[start..]);
        bytes.truncate(start);
        Ok(())
    }

    fn page(&mut self, words: &mut Words) -> Result<(), Cause> {
        let page = words.number()?;
        words.bad_number |= page % PAGE_SIZE as u64 != 0;
        words.end()?;
        self.script()?.image_mut().map(page)
    }

    fn start(&mut self, words: &mut Words) -> Result<(), Cause> {
        let (rip, rsp) = (words.number()?, words.number()?);
        words.end()?;
        let image = self.script()?.image_mut();
        (image.rip, image.rsp) = (rip, rsp);
        Ok(())
    }

    /// Takes one line, up to its line feed.
    fn take(&mut self, words: &mut Words, line: u32) -> Result<(), Cause> {
        if words.is_line_end() || words.rest.starts_with(b"#") {
            return Ok(());
        }
        if self.place == Place::Outside {
            return if words.takes(b"tracee") { self.open(words) } else { Err(UnknownWord) };
        }
        if words.takes(b"call") {
            return self.call(words);
        }
        if self.place == Place::Loading {
            if words.takes(b"data") {
                return self.data(words);
            }
            if words.takes(b"page") {
                return self.page(words);
            }
            if words.takes(b"at") {
                return self.start(words);
            }
        }
        self.rare(words, line)
    }

    fn rare(&mut self, words: &mut Words, line: u32) -> Result<(), Cause> {
        match words.word() {
            b"signal" => self.signal(words),
            b"fork" => self.birth(words, line, true),
            b"thread" => self.birth(words, line, false),
            b"exec" => self.exec(words, line),
            b"exit" => {
                let status = words.number()?;
                words.end()?;
                self.step(Step::Exit(status), Place::Stepping)
            }
            b"end" => {
                words.end()?;
                self.place = Place::Outside;
                Ok(())
            }
            _ => Err(UnknownWord),
        }
    }

    /// What is wrong with a birth or an exec once all rows are known.
    fn late_cause(&self, late: &Late) -> Option<Cause> {
        let rows = &self.case.rows;
        let (tid, births, forks) = match late.what {
            LateStep::Fork(tid, births) => (tid, births, true),
            LateStep::Thread(tid, births) => (tid, births, false),
            LateStep::Exec => {
                let tgid = rows[usize::from(late.row)].tgid;
                let shared = rows.iter().filter(|row| row.tgid == tgid).count() > 1;
                return shared.then_some(Cause::SharedExec);
            }
        };
        let Some(place) = self.place(tid) else {
            return Some(Cause::NoSuchTracee);
        };
        let child = rows[usize::from(place)];
        if (child.tgid == child.tid) != forks {
            return Some(Cause::GroupMismatch);
        }
        let is_next = child.parent == Some(late.row) && u32::from(child.rank) == births;
        (!is_next).then_some(Cause::ChildOrder)
    }
}

/// The number of a call that has no line of its own.
fn call_number(name: &[u8]) -> Option<u32> {
    Some(match name {
        b"read" => 0,
        b"write" => 1,
        b"close" => 3,
        b"readv" => 19,
        b"writev" => 20,
        b"getpid" => 39,
        b"chdir" => 80,
        b"rename" => 82,
        b"mkdir" => 83,
        b"rmdir" => 84,
        b"unlink" => 87,
        _ => return None,
    })
}

pub fn read(text: &[u8]) -> Result<Case, (u32, Cause)> {
    if text.len() > MOST_BYTES {
        return Err((1, TooMany));
    }
    let mut reading = Reading::new();
    let mut rest = text;
    let mut line = 0;
    while !rest.is_empty() {
        line += 1;
        let mut words = Words {
            rest,
            bad_number: false,
            bad_hex: false,
        };
        reading.take(&mut words, line).map_err(|cause| (line, cause))?;
        words.skip_line();
        rest = words.rest;
    }
    if reading.place != Place::Outside {
        return Err((line, Cause::NoEnd));
    }
    for late in &reading.late {
        if let Some(cause) = reading.late_cause(late) {
            return Err((late.line, cause));
        }
    }
    Ok(reading.case)
}

fn main() -> ExitCode {
    let mut text = Vec::with_capacity(MOST_BYTES + 1);
    if io::stdin()
        .lock()
        .take(MOST_BYTES as u64 + 1)
        .read_to_end(&mut text)
        .is_err()
    {
        eprintln!("tracer: cannot read");
        return ExitCode::from(3);
    }
    match read(&text) {
        Ok(case) => {
            let case = black_box(case);
            let steps: usize = case.scripts.iter().map(|script| script.steps.len()).sum();
            match writeln!(io::stdout(), "{} rows, {steps} steps", case.rows.len()) {
                Ok(()) => ExitCode::SUCCESS,
                Err(_) => {
                    eprintln!("tracer: cannot write");
                    ExitCode::from(3)
                }
            }
        }
        Err((line, cause)) => {
            eprintln!("tracer: line {line}: {cause:?}");
            ExitCode::from(1)
        }
    }
}
