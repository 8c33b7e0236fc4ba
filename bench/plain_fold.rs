//! The rows of bench/time_fold.rattle in plain Rust, to compare with: the text of the stops that are folded, and a map
//! of those that came early.
//!
//! Usage: plain_fold order|window|stream PIECES

use std::collections::{BTreeMap, HashMap};
use std::time::Instant;

const TID: u32 = 100;
const WINDOW: usize = 64;

struct Start {
    shown: bool,
    number: u64,
    before: Vec<u8>,
    out: Option<Vec<u8>>,
    after: Vec<u8>,
}

struct End {
    number: u64,
    out: Option<Vec<u8>>,
    result: Vec<u8>,
}

enum Note {
    Enter(Start),
    #[allow(dead_code)]
    Seccomp(Start),
    Exit(End),
    Signal(Vec<u8>),
    #[allow(dead_code)]
    Birth(u32),
    Quiet,
}

struct Piece {
    tid: u32,
    number: u32,
    note: Note,
}

#[derive(Default)]
struct Row {
    named: bool,
    last: u32,
    done: u32,
    death: Option<u32>,
    text: Vec<u8>,
    pending: Option<Start>,
    behind: Vec<u8>,
    entered: bool,
    early: BTreeMap<u32, Note>,
}

impl Row {
    fn flush(&mut self) {
        self.text.append(&mut self.behind);
    }

    fn line(&mut self, start: &Start, end: &End) {
        if !start.shown {
            return;
        }
        self.text.extend_from_slice(&start.before);
        if let Some(address) = &start.out {
            let out = end.out.as_ref().filter(|_| start.number == end.number);
            self.text.extend_from_slice(out.unwrap_or(address));
        }
        self.text.extend_from_slice(&start.after);
        self.text.extend_from_slice(&end.result);
        self.text.push(b'\n');
    }

    fn take(&mut self, note: Note) {
        match note {
            Note::Enter(start) => {
                self.flush();
                self.pending = Some(start);
                self.entered = true;
            }
            Note::Seccomp(start) if !self.entered => {
                self.flush();
                self.pending = Some(start);
            }
            Note::Exit(end) => {
                if let Some(start) = self.pending.take() {
                    self.line(&start, &end);
                }
                self.flush();
                self.entered = false;
            }
            Note::Signal(line) => self.behind.extend_from_slice(&line),
            Note::Seccomp(_) | Note::Birth(_) | Note::Quiet => {}
        }
    }

    fn add(&mut self, number: u32, note: Note) -> Result<(), &'static str> {
        if number == 0 || self.death.is_some_and(|last| last < number) {
            return Err("stranger");
        }
        if number <= self.done || self.early.contains_key(&number) {
            return Err("twice");
        }
        if number == self.done + 1 {
            self.take(note);
            self.done = number;
            while let Some(note) = self.early.remove(&(self.done + 1)) {
                self.take(note);
                self.done += 1;
            }
        } else {
            self.early.insert(number, note);
        }
        self.last = self.last.max(number);
        Ok(())
    }
}

/// What bench/time_fold.rattle makes of a stop.
fn make_piece(number: u32) -> Piece {
    let note = match number % 16 {
        1 => Note::Quiet,
        2 => Note::Signal(format!("{TID} --- SIGUSR1 ---\n").into_bytes()),
        odd if odd % 2 == 1 => Note::Enter(Start {
            shown: true,
            number: 39,
            before: format!("{TID} getpid(").into_bytes(),
            out: None,
            after: b") = ".to_vec(),
        }),
        _ => Note::Exit(End {
            number: 39,
            out: None,
            result: format!("{TID}").into_bytes(),
        }),
    };
    Piece {
        tid: TID,
        number,
        note,
    }
}

fn next(number: u64) -> u64 {
    number
        .wrapping_mul(6364136223846793005)
        .wrapping_add(1442695040888963407)
}

fn numbers(kind: &str, count: u32) -> Vec<u32> {
    let mut numbers: Vec<u32> = (1..=count).collect();
    if kind == "window" {
        let mut seed = 1;
        for place in 0..numbers.len() {
            seed = next(seed);
            numbers.swap(place, place - (seed >> 33) as usize % (place % WINDOW + 1));
        }
    }
    numbers
}

fn add(rows: &mut HashMap<u32, Row>, piece: Piece) {
    let child = match piece.note {
        Note::Birth(child) => Some(child),
        _ => None,
    };
    rows.get_mut(&piece.tid)
        .unwrap()
        .add(piece.number, piece.note)
        .unwrap();
    if let Some(row) = child.and_then(|child| rows.get_mut(&child)) {
        row.named = true;
    }
}

fn finish(mut row: Row) -> Vec<u8> {
    row.flush();
    assert!(!row.named && row.death == Some(row.last) && row.done == row.last);
    row.text
        .extend_from_slice(format!("{TID} +++ exited with 0 +++\n").as_bytes());
    row.text
}

fn main() {
    let words: Vec<String> = std::env::args().collect();
    let (kind, count) = (words[1].as_str(), words[2].parse().unwrap());
    let stored: Vec<Piece> = match kind {
        "stream" => Vec::new(),
        _ => numbers(kind, count).into_iter().map(make_piece).collect(),
    };
    let start = Instant::now();
    let mut rows = HashMap::from([(TID, Row::default())]);
    for piece in stored {
        add(&mut rows, piece);
    }
    if kind == "stream" {
        for number in 1..=count {
            add(&mut rows, make_piece(number));
        }
    }
    rows.get_mut(&TID).unwrap().death = Some(count);
    let text = finish(rows.remove(&TID).unwrap());
    let time = start.elapsed().as_micros();
    let sum = text.iter().fold(0u64, |sum, byte| {
        sum.wrapping_mul(31).wrapping_add(u64::from(*byte))
    });
    println!("{count} pieces, {time} us, {} bytes, sum {sum}", text.len());
}
