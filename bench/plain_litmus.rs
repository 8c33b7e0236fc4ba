//! What a litmus file says, and what its commands are answered on a board, for `plain_explore.rs`.
//!
//! It knows no replies: a command with one has too many words, and is refused.
use std::collections::HashMap;

pub const MOST_BYTES: usize = 16_777_216;
const MOST_ROWS: usize = 256;
pub const MOST_THREADS: usize = 64;
const MOST_COMMANDS: usize = 4096;
const LONGEST_NAME: usize = 32;
const LAST_NUMBER: u32 = 16_777_215;
const LAST_ID: u32 = 4_194_303;
/// The tracers are 0 to 15.
const LAST_TRACER: u32 = 15;
/// What a word that is not a number reads as: above every range.
const BAD: u32 = LAST_ID + 1;

// ---- reading

#[derive(Clone, Copy, Debug)]
pub enum Cause {
    UnknownWord,
    BadNumber,
    NoSuchTracee,
    TwiceTracee,
    ParentLater,
    GroupMismatch,
    TooMany,
    NoEnd,
}

use Cause::{BadNumber, UnknownWord};

type Word<'a> = &'a [u8];

/// The number that a word writes; BAD where it writes none, or one above every range.
fn number(word: Word) -> u32 {
    let (base, digits) = match word {
        [b'0', b'x', digits @ ..] => (16, digits),
        digits => (10, digits),
    };
    let shifted = |number: u32, digit: &u8| Some((number * base + char::from(*digit).to_digit(base)?).min(BAD));
    if digits.is_empty() {
        return BAD;
    }
    digits.iter().try_fold(0, shifted).unwrap_or(BAD)
}

/// The number that a word writes, if it is in range.
fn between(low: u32, high: u32, word: Word) -> Result<u32, Cause> {
    Some(number(word)).filter(|number| low <= *number && *number <= high).ok_or(BadNumber)
}

/// The words with one space between them, and numbers in decimal.
fn text_of(words: &[Word]) -> Vec<u8> {
    let word_text = |word: &Word| match number(word) {
        BAD.. => word.to_vec(),
        number => number.to_string().into_bytes(),
    };
    words.iter().map(word_text).collect::<Vec<_>>().join(&b' ')
}

#[derive(Clone, Copy)]
pub struct Row {
    pub tid: u32,
    tgid: u32,
    pgid: u32,
    /// The place of the parent.
    parent: Option<usize>,
    /// How many earlier rows have the same parent.
    rank: u32,
}

/// The tracee that a command is about.
#[derive(Clone, Copy, PartialEq, Eq, Hash)]
pub enum Aim {
    Row(usize),
    Any,
    /// The one that the thread claimed last.
    It,
}

#[derive(Clone, Copy, PartialEq, Eq, Hash)]
pub enum Call {
    /// The status, and the tid of the child that is created.
    Publish(u32, Option<u32>),
    State,
    Look,
    Claim(u32),
    /// The tracer, and the kind and the signal as one number.
    Resume(u32, u32),
    Exit(u32),
}

/// A command, and its text.
#[derive(Clone, PartialEq, Eq, Hash)]
pub struct Command {
    pub aim: Aim,
    pub call: Call,
    waits: bool,
    pub text: Vec<u8>,
}

/// A command of a thread: its place among all different commands, and where the thread goes on after `no child`.
#[derive(Clone, Copy)]
pub struct Step {
    pub command: u32,
    pub leave_to: u32,
}

pub struct Thread {
    pub name: Vec<u8>,
    pub steps: Vec<Step>,
}

/// A repeat that has not ended: how many times its commands are done, and these.
type Repeat = (usize, Vec<u32>);

#[derive(Default)]
pub struct Program {
    pub rows: Vec<Row>,
    pub threads: Vec<Thread>,
    /// All different commands.
    pub commands: Vec<Command>,
    numbers: HashMap<Command, u32>,
    /// How many commands the threads have.
    count: usize,
    repeat: Option<Repeat>,
}

impl Program {
    pub fn read(text: &[u8]) -> Result<Program, (usize, Cause)> {
        if text.len() > MOST_BYTES {
            return Err((1, Cause::TooMany));
        }
        let mut program = Program::default();
        let mut lines = 0;
        for line in text.strip_suffix(b"\n").unwrap_or(text).split(|b| *b == b'\n') {
            lines += 1;
            let words: Vec<Word> = line.split(|b| *b == b' ').filter(|word| !word.is_empty()).collect();
            program.take(&words).map_err(|cause| (lines, cause))?;
        }
        match program.repeat {
            None => Ok(program),
            Some(_) => Err((lines, Cause::NoEnd)),
        }
    }

    fn take(&mut self, words: &[Word]) -> Result<(), Cause> {
        match words {
            [] | [[b'#', ..], ..] => Ok(()),
            [b"row", ids @ ..] if self.threads.is_empty() => self.add_row(ids),
            [b"thread", name @ ..] => self.add_thread(name),
            _ if self.threads.is_empty() => Err(UnknownWord),
            [b"repeat", times] if self.repeat.is_none() => {
                self.repeat = Some((between(1, 64, times)? as usize, Vec::new()));
                Ok(())
            }
            [b"end"] => {
                let (times, body) = self.repeat.take().ok_or(UnknownWord)?;
                self.add_steps(times, &body)
            }
            words => self.add_command(words),
        }
    }

    fn place(&self, tid: u32) -> Option<usize> {
        self.rows.iter().position(|row| row.tid == tid)
    }

    fn add_row(&mut self, ids: &[Word]) -> Result<(), Cause> {
        let [tid, tgid, pgid, parent] = ids else {
            return Err(UnknownWord);
        };
        let id = |word| between(1, LAST_ID, word);
        let (tid, tgid, pgid, parent) = (id(tid)?, id(tgid)?, id(pgid)?, between(0, LAST_ID, parent)?);
        if self.place(tid).is_some() {
            return Err(Cause::TwiceTracee);
        }
        let parent = match parent {
            0 => None,
            parent => Some(self.place(parent).ok_or(Cause::ParentLater)?),
        };
        let fits = match parent.map(|place| self.rows[place]) {
            None => tgid == tid,
            Some(parent) => (tgid == tid || tgid == parent.tgid) && pgid == parent.pgid,
        };
        if !fits {
            return Err(Cause::GroupMismatch);
        }
        if self.rows.len() == MOST_ROWS {
            return Err(Cause::TooMany);
        }
        let rank = self.rows.iter().filter(|row| row.parent == parent).count() as u32;
        self.rows.push(Row { tid, tgid, pgid, parent, rank });
        Ok(())
    }

    fn add_thread(&mut self, name: &[Word]) -> Result<(), Cause> {
        let is_part = |b: &u8| b.is_ascii_alphanumeric() || matches!(b, b'_' | b'-');
        let is_name = |word: Word| {
            word[0].is_ascii_alphabetic() && word.len() <= LONGEST_NAME && word.iter().all(is_part)
        };
        let name = match name {
            [] => (self.threads.len() + 1).to_string().into_bytes(),
            [name] if is_name(name) => name.to_vec(),
            _ => return Err(UnknownWord),
        };
        if self.threads.len() == MOST_THREADS {
            return Err(Cause::TooMany);
        }
        if self.repeat.is_some() {
            return Err(Cause::NoEnd);
        }
        self.threads.push(Thread { name, steps: Vec::new() });
        Ok(())
    }

    fn add_command(&mut self, words: &[Word]) -> Result<(), Cause> {
        let (aim, call, waits) = self.read_command(words)?;
        let command = Command { aim, call, waits, text: text_of(words) };
        let next = self.commands.len() as u32;
        let number = *self.numbers.entry(command.clone()).or_insert(next);
        if number == next {
            self.commands.push(command);
        }
        match &mut self.repeat {
            Some((_, body)) => {
                body.push(number);
                Ok(())
            }
            None => self.add_steps(1, &[number]),
        }
    }

    /// The tracee of a command, its call, and whether it waits. A row is looked for after all words have been read.
    fn read_command(&self, words: &[Word]) -> Result<(Aim, Call, bool), Cause> {
        let tracer = |word| between(0, LAST_TRACER, word);
        match words {
            [b"publish", tid, stop @ ..] => {
                let call = publish_of(stop)?;
                Ok((self.row(tid)?, call, true))
            }
            [b"exit", tid, death @ ..] => {
                let status = death_of(death)?;
                Ok((self.row(tid)?, Call::Exit(status), true))
            }
            [b"state", tid] => Ok((self.row(tid)?, Call::State, false)),
            [verb @ (b"claim" | b"wait" | b"look"), named, by] => {
                let by = tracer(by)?;
                let call = if *verb == b"look" { Call::Look } else { Call::Claim(by) };
                let aim = if *named == b"any" { Aim::Any } else { self.row(named)? };
                Ok((aim, call, *verb != b"claim"))
            }
            [b"resume", named, by, kind @ (b"syscall" | b"cont"), signal] => {
                let (by, signal) = (tracer(by)?, between(0, 64, signal)?);
                let how = if *kind == b"cont" { 256 + signal } else { signal };
                let aim = if *named == b"it" { Aim::It } else { self.row(named)? };
                Ok((aim, Call::Resume(by, how), false))
            }
            _ => Err(UnknownWord),
        }
    }

    fn row(&self, tid: Word) -> Result<Aim, Cause> {
        let place = self.place(between(1, LAST_ID, tid)?);
        place.map(Aim::Row).ok_or(Cause::NoSuchTracee)
    }

    /// Adds commands to the last thread, this many times each.
    fn add_steps(&mut self, times: usize, commands: &[u32]) -> Result<(), Cause> {
        self.count += times * commands.len();
        if self.count > MOST_COMMANDS {
            return Err(Cause::TooMany);
        }
        let steps = &mut self.threads.last_mut().ok_or(UnknownWord)?.steps;
        let leave_to = (steps.len() + times * commands.len()) as u32;
        for _ in 0..times {
            steps.extend(commands.iter().map(|command| Step { command: *command, leave_to }));
        }
        Ok(())
    }
}

/// A stop's publish: its status, and the child that it creates.
fn publish_of(stop: &[Word]) -> Result<Call, Cause> {
    let only = |status| Ok(Call::Publish(status, None));
    let creates = |status, child| Ok(Call::Publish(status, Some(between(1, LAST_ID, child)?)));
    match stop {
        [b"start"] => only(0x80057f),
        [b"enter" | b"exit"] => only(0x857f),
        [b"ending", death @ ..] => death_of(death).and_then(|_| only(0x6057f)),
        [b"seccomp", data] => between(0, 65535, data).and_then(|_| only(0x7057f)),
        [b"exec", former] => between(1, LAST_ID, former).and_then(|_| only(0x4057f)),
        [b"signal", signal] => between(1, 64, signal).and_then(|signal| only(signal << 8 | 0x7f)),
        [b"fork", child] => creates(0x1057f, child),
        [b"clone", child] => creates(0x3057f, child),
        _ => Err(UnknownWord),
    }
}

/// A death's status.
fn death_of(words: &[Word]) -> Result<u32, Cause> {
    match words {
        [b"exited", code] => between(0, 255, code).map(|code| code << 8),
        [b"killed", signal] => between(1, 64, signal),
        _ => Err(UnknownWord),
    }
}

// ---- boards

#[derive(Clone, Copy, PartialEq, Eq)]
pub enum Phase {
    Fresh,
    Resumed,
    Stopped,
    Claimed,
    Dead,
    Reaped,
}

/// What the board keeps of a row: with its phase the status of a stop or a death, or the tracer, or the restart.
#[derive(Clone, Copy, PartialEq, Eq)]
pub struct Cell {
    pub phase: Phase,
    pub value: u32,
    pub births: u32,
    pub number: u32,
}

impl Cell {
    fn with(self, phase: Phase, value: u32) -> Cell {
        Cell { phase, value, ..self }
    }

    /// `NAME NUMBER 0xSTATUS`, the status in six digits.
    fn text(self, name: &str) -> String {
        format!("{name} {} 0x{:06x}", self.number, self.value)
    }
}

#[derive(Clone, Copy, PartialEq, Eq)]
enum State {
    Unborn,
    Running,
    Stopped,
    Claimed,
    Dead,
    Reaped,
}

#[derive(Clone, Copy, PartialEq, Eq, Hash)]
pub enum Kind {
    /// The thread has claimed a stop, or a death.
    Stop,
    Ended,
    Nothing,
    NoChild,
    /// A refusal that a wait waits out.
    Passing,
    Other,
}

#[derive(Clone, PartialEq, Eq, Hash)]
pub struct Answer {
    pub kind: Kind,
    pub text: String,
}

impl Answer {
    fn new(kind: Kind, text: impl Into<String>) -> Answer {
        Answer { kind, text: text.into() }
    }

    fn passing(refusal: &str) -> Answer {
        Answer::new(Kind::Passing, format!("refused {refusal}"))
    }
}

/// A board: the rows, and what it keeps of each.
#[derive(Clone, Copy)]
pub struct Board<'a> {
    pub rows: &'a [Row],
    pub cells: &'a [Cell],
}

impl Board<'_> {
    fn state(&self, row: usize) -> State {
        let is_born = |parent: usize| self.rows[row].rank < self.cells[parent].births;
        match self.cells[row].phase {
            Phase::Fresh if self.rows[row].parent.is_none_or(is_born) => State::Running,
            Phase::Fresh => State::Unborn,
            Phase::Resumed => State::Running,
            Phase::Stopped => State::Stopped,
            Phase::Claimed => State::Claimed,
            Phase::Dead => State::Dead,
            Phase::Reaped => State::Reaped,
        }
    }

    pub fn state_text(&self, row: usize) -> String {
        let cell = self.cells[row];
        match self.state(row) {
            State::Unborn => "unborn".into(),
            State::Running => "running".into(),
            State::Stopped => cell.text("stopped"),
            State::Claimed => format!("claimed {} {}", cell.number, cell.value),
            State::Dead => cell.text("dead"),
            State::Reaped => "reaped".into(),
        }
    }

    /// What a call about a row is answered, and what the board then keeps of the row.
    pub fn call(&self, row: usize, call: Call) -> (Answer, Cell) {
        let cell = self.cells[row];
        let passing = |refusal| (Answer::passing(refusal), cell);
        let other = |text, cell| (Answer::new(Kind::Other, text), cell);
        match (call, self.state(row)) {
            (Call::State, _) => other(self.state_text(row), cell),
            (_, State::Unborn) => passing("Unborn"),
            (Call::Publish(status, child), State::Running) => self.publish(row, status, child),
            (Call::Exit(status), State::Running) => match self.holding_back(row) {
                Some(tid) => passing(&format!("GroupAlive {tid}")),
                None => other("exited".into(), cell.with(Phase::Dead, status)),
            },
            (Call::Publish(..) | Call::Exit(_), _) => passing("NotRunning"),
            (Call::Look, State::Stopped) => other(cell.text("stop"), cell),
            (Call::Look, State::Dead) => other(cell.text("ended"), cell),
            (Call::Claim(by), State::Stopped) => {
                (Answer::new(Kind::Stop, cell.text("stop")), cell.with(Phase::Claimed, by))
            }
            (Call::Claim(_), State::Dead) => {
                (Answer::new(Kind::Ended, cell.text("ended")), cell.with(Phase::Reaped, 0))
            }
            (Call::Look | Call::Claim(_), _) => passing("NotWaitable"),
            (Call::Resume(by, how), State::Claimed) if by == cell.value => {
                other("resumed".into(), cell.with(Phase::Resumed, how))
            }
            (Call::Resume(..), State::Claimed) => passing("NotHolder"),
            (Call::Resume(..), _) => passing("NotClaimed"),
        }
    }

    /// A publish of a row that runs.
    fn publish(&self, row: usize, status: u32, child: Option<u32>) -> (Answer, Cell) {
        let cell = self.cells[row];
        let refused = |text: &str| (Answer::new(Kind::Other, text), cell);
        let is_next = |tid: u32, it: &Row| it.tid == tid && it.parent == Some(row) && it.rank == cell.births;
        if child.is_some_and(|tid| !self.rows.iter().any(|it| is_next(tid, it))) {
            return refused("refused NotNext");
        }
        if cell.number == LAST_NUMBER {
            return refused("refused Full");
        }
        let number = cell.number + 1;
        let births = cell.births + u32::from(child.is_some());
        let after = Cell { phase: Phase::Stopped, value: status, births, number };
        (Answer::new(Kind::Other, format!("published {number}")), after)
    }

    /// The first other row that is alive of the group that this row leads.
    fn holding_back(&self, row: usize) -> Option<u32> {
        let Row { tid, tgid, .. } = self.rows[row];
        let is_alive = |place| matches!(self.state(place), State::Running | State::Stopped | State::Claimed);
        let holds = |place: &usize| *place != row && self.rows[*place].tgid == tid && is_alive(*place);
        (0..self.rows.len()).filter(|_| tid == tgid).find(holds).map(|place| self.rows[place].tid)
    }

    /// Whether a row has ended, or will never be created.
    fn is_settled(&self, row: usize) -> bool {
        match self.state(row) {
            State::Dead | State::Reaped => true,
            State::Unborn => self.rows[row].parent.is_some_and(|parent| self.is_settled(parent)),
            _ => false,
        }
    }

    /// Whether nothing can be claimed of a row, now or later.
    fn is_over(&self, row: usize) -> bool {
        self.state(row) != State::Dead && self.is_settled(row)
    }

    /// What a command is answered about each row, with what the board then keeps of that row, and about none.
    pub fn turns(&self, aim: Aim, command: &Command) -> Vec<(usize, Answer, Option<Cell>)> {
        let none = self.rows.len();
        let about_none = |kind, text| (none, Answer::new(kind, text), None);
        let about = |row: usize| {
            let (answer, cell) = self.call(row, command.call);
            (row, answer, Some(cell))
        };
        match aim {
            Aim::It => vec![about_none(Kind::Nothing, "nothing")],
            Aim::Row(row) => {
                let is_claim = matches!(command.call, Call::Look | Call::Claim(_));
                let turn = match command.waits && is_claim && self.is_over(row) {
                    true => about_none(Kind::NoChild, "no child"),
                    false => about(row),
                };
                Some(turn).into_iter().filter(|turn| !command.waits || turn.1.kind != Kind::Passing).collect()
            }
            Aim::Any => {
                let mut turns: Vec<_> = (0..none).map(about).filter(|turn| turn.1.kind != Kind::Passing).collect();
                for (row, answer, _) in &mut turns {
                    answer.text = format!("{} {}", self.rows[*row].tid, answer.text);
                }
                if (0..none).all(|row| self.is_over(row)) {
                    turns.push(about_none(Kind::NoChild, "no child"));
                } else if !command.waits && turns.is_empty() {
                    turns.push(about_none(Kind::Nothing, "nothing"));
                }
                turns
            }
        }
    }
}
