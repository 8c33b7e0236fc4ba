//! The job of `tracer replay` on standard input as a plain Rust program, to measure against: the standard library
//! only, safe code, one thread. It goes over the bytes once, runs each command as it is read, and keeps the replies
//! in one buffer, which is printed only where the whole file is accepted.
use std::io::{self, Read, Write};
use std::process::ExitCode;

const MOST_BYTES: usize = 16_777_216;
const MOST_ROWS: usize = 256;
const LAST_NUMBER: u32 = 16_777_215;
const LAST_ID: u32 = 4_194_303;
/// The tracers are 0 to 15.
const LAST_TRACER: u32 = 15;
/// What a word that is not a number reads as: above every range.
const BAD: u32 = LAST_ID + 1;

#[derive(Clone, Copy, Debug)]
enum Cause {
    UnknownWord,
    BadNumber,
    NoSuchTracee,
    TwiceTracee,
    ParentLater,
    GroupMismatch,
    TooMany,
}

use Cause::{BadNumber, UnknownWord};

/// The words of a text, taken from the front of its current line.
struct Words<'a> {
    text: &'a [u8],
    at: usize,
}

impl Words<'_> {
    /// The next byte; the end of the text reads as the end of a line.
    fn next(&self) -> u8 {
        self.text.get(self.at).copied().unwrap_or(b'\n')
    }

    fn skip_spaces(&mut self) {
        while self.next() == b' ' {
            self.at += 1;
        }
    }

    fn skip_word(&mut self) {
        while !matches!(self.next(), b' ' | b'\n') {
            self.at += 1;
        }
    }

    fn skip_line(&mut self) {
        let rest = &self.text[self.at..];
        self.at += rest.iter().position(|b| *b == b'\n').unwrap_or(rest.len());
    }

    /// Whether the next word is this one, which is then taken.
    fn takes(&mut self, word: &[u8]) -> bool {
        self.skip_spaces();
        let rest = &self.text[self.at..];
        let found = rest.starts_with(word) && matches!(rest.get(word.len()), None | Some(b' ' | b'\n'));
        if found {
            self.at += word.len();
        }
        found
    }

    /// Takes the next word as a number, BAD where it is none or above every range.
    fn number(&mut self) -> Result<u32, Cause> {
        self.skip_spaces();
        let rest = &self.text[self.at..];
        let mut number = 0;
        for (i, b) in rest.iter().take(8).enumerate() {
            let digit = b.wrapping_sub(b'0');
            if digit > 9 {
                if i > 0 && matches!(b, b' ' | b'\n') {
                    self.at += i;
                    return Ok(number);
                }
                break;
            }
            number = number * 10 + u32::from(digit);
        }
        self.other_number()
    }

    /// A number that is not a short decimal one.
    fn other_number(&mut self) -> Result<u32, Cause> {
        let start = self.at;
        self.skip_word();
        match &self.text[start..self.at] {
            [] => Err(UnknownWord),
            [b'0', b'x', digits @ ..] => Ok(number_in(16, digits)),
            digits => Ok(number_in(10, digits)),
        }
    }

    /// The line has no further word.
    fn end(&mut self) -> Result<(), Cause> {
        self.skip_spaces();
        if self.next() == b'\n' { Ok(()) } else { Err(UnknownWord) }
    }
}

/// The number that digits of a base write; BAD where there are none, or one is no digit.
fn number_in(base: u32, digits: &[u8]) -> u32 {
    let shifted = |number: u32, digit: &u8| Some((number * base + char::from(*digit).to_digit(base)?).min(BAD));
    if digits.is_empty() {
        BAD
    } else {
        digits.iter().try_fold(0, shifted).unwrap_or(BAD)
    }
}

/// A number of a word, if it is in range.
fn between(low: u32, high: u32, number: u32) -> Result<u32, Cause> {
    if low <= number && number <= high {
        Ok(number)
    } else {
        Err(BadNumber)
    }
}

#[derive(Clone, Copy)]
enum State {
    Unborn,
    Running,
    Stopped(u32),
    Claimed(u32),
    Dead(u32),
    Reaped,
}

#[derive(Clone, Copy)]
struct Row {
    tid: u32,
    tgid: u32,
    pgid: u32,
    parent: Option<u8>,
    rank: u8,
    children: u8,
    births: u8,
    number: u32,
    state: State,
}

/// The replies so far.
struct Replies {
    text: Vec<u8>,
}

impl Replies {
    /// A line of fixed text.
    fn line(&mut self, line: &str) {
        self.text.extend_from_slice(line.as_bytes());
    }

    fn decimal(&mut self, number: u32) {
        let mut digits = [0; 10];
        let mut at = digits.len();
        let mut left = number;
        loop {
            at -= 1;
            digits[at] = b'0' + (left % 10) as u8;
            left /= 10;
            if left == 0 {
                break;
            }
        }
        self.text.extend_from_slice(&digits[at..]);
    }

    /// `NAME NUMBER`, as a line.
    fn one(&mut self, name: &str, number: u32) {
        self.line(name);
        self.decimal(number);
        self.line("\n");
    }

    /// `NAME NUMBER STATUS`, as a line, the status in six hexadecimal digits.
    fn status(&mut self, name: &str, number: u32, status: u32) {
        self.line(name);
        self.decimal(number);
        let digit = |at: u32| b"0123456789abcdef"[(status >> at & 15) as usize];
        let tail = [
            b' ',
            b'0',
            b'x',
            digit(20),
            digit(16),
            digit(12),
            digit(8),
            digit(4),
            digit(0),
            b'\n',
        ];
        self.text.extend_from_slice(&tail);
    }
}

struct Board {
    rows: Vec<Row>,
    /// By thread id: the row's place, or 0 where no row has it. So it counts only where that row has the id.
    places: Vec<u8>,
    replies: Replies,
}

impl Board {
    fn new() -> Board {
        Board {
            rows: Vec::with_capacity(MOST_ROWS),
            places: vec![0; LAST_ID as usize + 1],
            replies: Replies { text: Vec::new() },
        }
    }

    fn place(&self, tid: u32) -> Option<u8> {
        let place = self.places[tid as usize];
        self.rows.get(usize::from(place)).filter(|row| row.tid == tid).map(|_| place)
    }

    fn row_of(&mut self, tid: u32) -> Result<&mut Row, Cause> {
        let place = self.place(tid).ok_or(Cause::NoSuchTracee)?;
        Ok(&mut self.rows[usize::from(place)])
    }

    fn add_row(&mut self, words: &mut Words) -> Result<(), Cause> {
        let (tid, tgid) = (words.number()?, words.number()?);
        let (pgid, parent) = (words.number()?, words.number()?);
        words.end()?;
        for id in [tid, tgid, pgid] {
            between(1, LAST_ID, id)?;
        }
        between(0, LAST_ID, parent)?;
        if self.place(tid).is_some() {
            return Err(Cause::TwiceTracee);
        }
        let (parent, fits) = match parent {
            0 => (None, tgid == tid),
            _ => {
                let place = self.place(parent).ok_or(Cause::ParentLater)?;
                let parent = self.rows[usize::from(place)];
                (Some(place), (tgid == tid || tgid == parent.tgid) && pgid == parent.pgid)
            }
        };
        if !fits {
            return Err(Cause::GroupMismatch);
        }
        if self.rows.len() == MOST_ROWS {
            return Err(Cause::TooMany);
        }
        let (rank, state) = match parent {
            None => (0, State::Running),
            Some(place) => {
                let parent = &mut self.rows[usize::from(place)];
                parent.children += 1;
                (parent.children - 1, State::Unborn)
            }
        };
        self.rows.push(Row {
            tid,
            tgid,
            pgid,
            parent,
            rank,
            children: 0,
            births: 0,
            number: 0,
            state,
        });
        self.places[tid as usize] = (self.rows.len() - 1) as u8;
        Ok(())
    }

    fn publish(&mut self, words: &mut Words) -> Result<(), Cause> {
        let tid = words.number()?;
        let mut child = None;
        let mut argument = 1;
        let (status, low, high) = if words.takes(b"enter") || words.takes(b"exit") {
            (0x857f, 1, 1)
        } else if words.takes(b"signal") {
            argument = words.number()?;
            (argument << 8 | 0x7f, 1, 64)
        } else if words.takes(b"seccomp") {
            argument = words.number()?;
            (0x7057f, 0, 65535)
        } else if words.takes(b"start") {
            (0x80057f, 1, 1)
        } else if words.takes(b"clone") {
            argument = words.number()?;
            child = Some(argument);
            (0x3057f, 1, LAST_ID)
        } else if words.takes(b"fork") {
            argument = words.number()?;
            child = Some(argument);
            (0x1057f, 1, LAST_ID)
        } else if words.takes(b"exec") {
            argument = words.number()?;
            (0x4057f, 1, LAST_ID)
        } else {
            return Err(UnknownWord);
        };
        words.end()?;
        between(1, LAST_ID, tid)?;
        between(low, high, argument)?;
        let row = *self.row_of(tid)?;
        match row.state {
            State::Unborn => self.replies.line("refused Unborn\n"),
            State::Running if child.is_some_and(|child| !self.is_next(tid, child)) => {
                self.replies.line("refused NotNext\n")
            }
            State::Running if row.number >= LAST_NUMBER => self.replies.line("refused Full\n"),
            State::Running => {
                let births = row.births + u8::from(child.is_some());
                let number = row.number + 1;
                *self.row_of(tid)? = Row {
                    births,
                    number,
                    state: State::Stopped(status),
                    ..row
                };
                if let Some(child) = child {
                    self.row_of(child)?.state = State::Running;
                }
                self.replies.one("published ", number);
            }
            _ => self.replies.line("refused NotRunning\n"),
        }
        Ok(())
    }

    /// Whether the next child of a row has this thread id.
    fn is_next(&self, tid: u32, child: u32) -> bool {
        let place = self.place(tid);
        self.place(child).zip(place).is_some_and(|(child, place)| {
            let child = self.rows[usize::from(child)];
            child.parent == Some(place) && child.rank == self.rows[usize::from(place)].births
        })
    }

    fn claim(&mut self, words: &mut Words) -> Result<(), Cause> {
        let (tid, tracer) = (words.number()?, words.number()?);
        words.end()?;
        between(1, LAST_ID, tid)?;
        between(0, LAST_TRACER, tracer)?;
        let row = self.row_of(tid)?;
        let number = row.number;
        match row.state {
            State::Stopped(status) => {
                row.state = State::Claimed(tracer);
                self.replies.status("stop ", number, status);
            }
            State::Dead(status) => {
                row.state = State::Reaped;
                self.replies.status("ended ", number, status);
            }
            State::Unborn => self.replies.line("refused Unborn\n"),
            _ => self.replies.line("refused NotWaitable\n"),
        }
        Ok(())
    }

    fn resume(&mut self, words: &mut Words) -> Result<(), Cause> {
        let (tid, tracer) = (words.number()?, words.number()?);
        if !(words.takes(b"syscall") || words.takes(b"cont")) {
            return Err(UnknownWord);
        }
        let signal = words.number()?;
        words.end()?;
        between(1, LAST_ID, tid)?;
        between(0, LAST_TRACER, tracer)?;
        between(0, 64, signal)?;
        let row = self.row_of(tid)?;
        let reply = match row.state {
            State::Claimed(holder) if holder == tracer => {
                row.state = State::Running;
                "resumed\n"
            }
            State::Claimed(_) => "refused NotHolder\n",
            State::Unborn => "refused Unborn\n",
            _ => "refused NotClaimed\n",
        };
        self.replies.line(reply);
        Ok(())
    }

    fn exit(&mut self, words: &mut Words) -> Result<(), Cause> {
        let tid = words.number()?;
        let exited = words.takes(b"exited");
        if !exited && !words.takes(b"killed") {
            return Err(UnknownWord);
        }
        let number = words.number()?;
        words.end()?;
        between(1, LAST_ID, tid)?;
        let status = if exited {
            between(0, 255, number)? << 8
        } else {
            between(1, 64, number)?
        };
        match self.row_of(tid)?.state {
            State::Running => match self.holding_back(tid) {
                Some(other) => self.replies.one("refused GroupAlive ", other),
                None => {
                    self.row_of(tid)?.state = State::Dead(status);
                    self.replies.line("exited\n");
                }
            },
            State::Unborn => self.replies.line("refused Unborn\n"),
            _ => self.replies.line("refused NotRunning\n"),
        }
        Ok(())
    }

    /// The first other row that is alive of the group that this row leads.
    fn holding_back(&self, tid: u32) -> Option<u32> {
        let alive = |row: &&Row| matches!(row.state, State::Running | State::Stopped(_) | State::Claimed(_));
        let others = self.rows.iter().filter(|row| row.tgid == tid && row.tid != tid);
        others.filter(alive).map(|row| row.tid).next()
    }

    fn state(&mut self, words: &mut Words) -> Result<(), Cause> {
        let tid = words.number()?;
        words.end()?;
        between(1, LAST_ID, tid)?;
        let row = *self.row_of(tid)?;
        match row.state {
            State::Unborn => self.replies.line("unborn\n"),
            State::Running => self.replies.line("running\n"),
            State::Stopped(status) => self.replies.status("stopped ", row.number, status),
            State::Claimed(tracer) => {
                self.replies.line("claimed ");
                self.replies.decimal(row.number);
                self.replies.one(" ", tracer);
            }
            State::Dead(status) => self.replies.status("dead ", row.number, status),
            State::Reaped => self.replies.line("reaped\n"),
        }
        Ok(())
    }

    /// Takes one line, up to its line feed; `begun` says whether commands have begun.
    fn take(&mut self, words: &mut Words, begun: &mut bool) -> Result<(), Cause> {
        if !*begun && words.takes(b"row") {
            return self.add_row(words);
        }
        words.skip_spaces();
        match words.next() {
            b'\n' => return Ok(()),
            b'#' => {
                words.skip_line();
                return Ok(());
            }
            _ => {}
        }
        if words.takes(b"claim") {
            self.claim(words)?;
        } else if words.takes(b"publish") {
            self.publish(words)?;
        } else if words.takes(b"state") {
            self.state(words)?;
        } else if words.takes(b"resume") {
            self.resume(words)?;
        } else if words.takes(b"exit") {
            self.exit(words)?;
        } else {
            return Err(UnknownWord);
        }
        *begun = true;
        Ok(())
    }
}

fn replay(text: &[u8]) -> Result<Vec<u8>, (u32, Cause)> {
    if text.len() > MOST_BYTES {
        return Err((1, Cause::TooMany));
    }
    let mut board = Board::new();
    let mut begun = false;
    let mut words = Words { text, at: 0 };
    let mut line = 1;
    while words.at < text.len() {
        board.take(&mut words, &mut begun).map_err(|cause| (line, cause))?;
        words.at += 1;
        line += 1;
    }
    Ok(board.replies.text)
}

fn main() -> ExitCode {
    let mut text = Vec::with_capacity(MOST_BYTES + 1);
    if io::stdin()
        .lock()
        .take(MOST_BYTES as u64 + 1)
        .read_to_end(&mut text)
        .is_err()
    {
        eprintln!("tracer: cannot read");
        return ExitCode::from(3);
    }
    match replay(&text) {
        Ok(replies) => match io::stdout().lock().write_all(&replies) {
            Ok(()) => ExitCode::SUCCESS,
            Err(_) => {
                eprintln!("tracer: cannot write");
                ExitCode::from(3)
            }
        },
        Err((line, cause)) => {
            eprintln!("tracer: line {line}: {cause:?}");
            ExitCode::from(1)
        }
    }
}
