//! The rounds of bench/time_cells.rattle in plain Rust, to compare with: by compare-exchange on a word with a slot
//! beside it, and by a mutex and condition variables. A record has the size of a stop's record, and moves as it does
//! there.
//!
//! Each row is on cache lines of its own.
//!
//! Usage: plain_cells exchange|lock own|shared ROUNDS

use std::cell::UnsafeCell;
use std::mem::MaybeUninit;
use std::sync::atomic::{AtomicU64, Ordering::SeqCst};
use std::sync::{Arc, Condvar, Mutex};
use std::thread;
use std::time::Instant;

const THREADS: u32 = 4;
const MISSES: u32 = 100;

/// A stop's record: thread id, number, stop, registers, and the pages of the memory.
#[allow(dead_code)]
struct Record {
    tid: u32,
    number: u32,
    stop: (u32, u32),
    regs: [u64; 27],
    pages: Vec<u64>,
    bytes: Vec<u8>,
}

const RAX: usize = 10;

impl Record {
    fn empty(tid: u32) -> Record {
        Record { tid, number: 0, stop: (0, 0), regs: [0; 27], pages: Vec::new(), bytes: Vec::new() }
    }

    /// Makes it the record of the next stop.
    fn next(&mut self) {
        self.number += 1;
        self.stop = (1, 0);
        self.regs[RAX] = u64::from(self.number);
    }
}

/// Counts misses in a row.
struct Pause(u32);

impl Pause {
    fn miss(&mut self) {
        self.0 += 1;
        if self.0 >= MISSES {
            self.0 = 0;
            thread::yield_now();
        }
    }
}

/// What a tracer's attempt got.
enum Got {
    Stop(u64),
    Ended,
    Nothing,
}

// ---- by compare-exchange

const RESUMED: u64 = 0;
const ACTIVE: u64 = 1;
const STOPPED: u64 = 2;
const CLAIMED: u64 = 3;
const DEAD: u64 = 4;

/// The number of the last stop above the phase.
fn word(phase: u64, number: u32) -> u64 {
    u64::from(number) << 3 | phase
}

fn phase(word: u64) -> u64 {
    word & 7
}

/// A row, on cache lines of its own.
#[repr(align(128))]
struct Cell {
    word: AtomicU64,
    slot: UnsafeCell<MaybeUninit<Record>>,
}

// The slot is touched by the one thread that the word allows.
unsafe impl Sync for Cell {}

impl Cell {
    fn new(tid: u32) -> Cell {
        Cell { word: AtomicU64::new(word(RESUMED, 0)), slot: UnsafeCell::new(MaybeUninit::new(Record::empty(tid))) }
    }

    fn take(&self) -> Record {
        unsafe { (*self.slot.get()).assume_init_read() }
    }

    fn put(&self, record: Record) {
        unsafe { (*self.slot.get()).write(record) };
    }

    fn swap(&self, old: u64, new: u64) -> bool {
        self.word.compare_exchange(old, new, SeqCst, SeqCst).is_ok()
    }

    fn take_up(&self) -> Option<Record> {
        let old = self.word.load(SeqCst);
        if phase(old) != RESUMED || !self.swap(old, old & !7 | ACTIVE) {
            return None;
        }
        Some(self.take())
    }

    fn publish(&self, record: Record) {
        let number = record.number;
        self.put(record);
        self.swap(word(ACTIVE, number - 1), word(STOPPED, number));
    }

    fn exit(&self, record: Record) {
        let number = record.number;
        self.put(record);
        self.swap(word(ACTIVE, number), word(DEAD, number));
    }

    fn claim(&self) -> Result<Record, u64> {
        let old = self.word.load(SeqCst);
        if phase(old) != STOPPED || !self.swap(old, old & !7 | CLAIMED) {
            return Err(old);
        }
        Ok(self.take())
    }

    fn resume(&self, record: Record) {
        let number = record.number;
        self.put(record);
        self.swap(word(CLAIMED, number), word(RESUMED, number));
    }
}

impl Row for Cell {
    fn new(tid: u32) -> Cell {
        Cell::new(tid)
    }

    fn stop(&self) -> bool {
        let Some(mut record) = self.take_up() else { return false };
        record.next();
        self.publish(record);
        true
    }

    fn stop_next(&self) {
        let mut pause = Pause(0);
        while !self.stop() {
            pause.miss();
        }
    }

    fn settle(&self) -> Got {
        match self.claim() {
            Ok(record) => {
                let mark = record.regs[RAX];
                self.resume(record);
                Got::Stop(mark)
            }
            Err(old) if phase(old) == DEAD => Got::Ended,
            Err(_) => Got::Nothing,
        }
    }

    fn settle_next(&self) -> Got {
        let mut pause = Pause(0);
        loop {
            match self.settle() {
                Got::Nothing => pause.miss(),
                got => return got,
            }
        }
    }

    fn end(&self) {
        loop {
            if let Some(record) = self.take_up() {
                return self.exit(record);
            }
            thread::yield_now();
        }
    }
}

// ---- by a lock

#[derive(Clone, Copy, PartialEq)]
enum Phase {
    Resumed,
    Active,
    Stopped,
    Claimed,
    Dead,
}

/// A row under a lock. Tracers sleep until it stops or ends, its tracee until it is resumed.
#[repr(align(128))]
struct Locked {
    state: Mutex<(Phase, Option<Record>)>,
    stops: Condvar,
    runs: Condvar,
}

impl Locked {
    /// Makes a step on the row, if it is in the phase `from` and has its record there: to the phase `to`.
    fn take(&self, from: Phase, to: Phase) -> Option<Record> {
        let mut state = self.state.lock().unwrap();
        if state.0 != from {
            return None;
        }
        state.0 = to;
        state.1.take()
    }

    fn put(&self, to: Phase, record: Record) {
        let mut state = self.state.lock().unwrap();
        *state = (to, Some(record));
    }

    fn publish(&self, mut record: Record) {
        record.next();
        self.put(Phase::Stopped, record);
        self.stops.notify_one();
    }

    fn resume(&self, record: Record) -> Got {
        let mark = record.regs[RAX];
        self.put(Phase::Resumed, record);
        self.runs.notify_one();
        Got::Stop(mark)
    }

    fn take_up_next(&self) -> Record {
        let mut state = self.state.lock().unwrap();
        while state.0 != Phase::Resumed {
            state = self.runs.wait(state).unwrap();
        }
        state.0 = Phase::Active;
        state.1.take().unwrap()
    }
}

impl Row for Locked {
    fn new(tid: u32) -> Locked {
        Locked {
            state: Mutex::new((Phase::Resumed, Some(Record::empty(tid)))),
            stops: Condvar::new(),
            runs: Condvar::new(),
        }
    }

    fn stop(&self) -> bool {
        let Some(record) = self.take(Phase::Resumed, Phase::Active) else { return false };
        self.publish(record);
        true
    }

    fn stop_next(&self) {
        let record = self.take_up_next();
        self.publish(record);
    }

    fn settle(&self) -> Got {
        match self.take(Phase::Stopped, Phase::Claimed) {
            Some(record) => self.resume(record),
            None => Got::Nothing,
        }
    }

    fn settle_next(&self) -> Got {
        let mut state = self.state.lock().unwrap();
        while state.0 != Phase::Stopped {
            if state.0 == Phase::Dead {
                return Got::Ended;
            }
            state = self.stops.wait(state).unwrap();
        }
        state.0 = Phase::Claimed;
        let record = state.1.take().unwrap();
        drop(state);
        self.resume(record)
    }

    fn end(&self) {
        let record = self.take_up_next();
        self.put(Phase::Dead, record);
        self.stops.notify_all();
    }
}

// ---- the rounds

trait Row: Send + Sync + 'static {
    fn new(tid: u32) -> Self;
    /// Takes the row up and publishes its next stop, if it is to run.
    fn stop(&self) -> bool;
    /// The same, once it is to run.
    fn stop_next(&self);
    /// Claims the row's stop, if it is at one, and resumes it.
    fn settle(&self) -> Got;
    /// The same, once it is at a stop or has ended.
    fn settle_next(&self) -> Got;
    /// Ends the row, once it is to run.
    fn end(&self);
}

fn own<R: Row>(rounds: u32) -> u64 {
    let rows: Arc<Vec<R>> = Arc::new((1..THREADS + 1).map(R::new).collect());
    let threads: Vec<_> = (0..THREADS as usize)
        .map(|at| {
            let rows = Arc::clone(&rows);
            thread::spawn(move || {
                let mut sum = 0u64;
                for _ in 0..rounds {
                    rows[at].stop();
                    if let Got::Stop(mark) = rows[at].settle() {
                        sum += mark;
                    }
                }
                sum
            })
        })
        .collect();
    threads.into_iter().map(|thread| thread.join().unwrap()).sum()
}

fn shared<R: Row>(rounds: u32) -> u64 {
    let row = Arc::new(R::new(1));
    let mut threads: Vec<_> = (1..THREADS)
        .map(|_| {
            let row = Arc::clone(&row);
            thread::spawn(move || {
                let mut sum = 0u64;
                while let Got::Stop(mark) = row.settle_next() {
                    sum += mark;
                }
                sum
            })
        })
        .collect();
    threads.push(thread::spawn(move || {
        for _ in 0..rounds {
            row.stop_next();
        }
        row.end();
        0
    }));
    threads.into_iter().map(|thread| thread.join().unwrap()).sum()
}

fn main() {
    let words: Vec<String> = std::env::args().collect();
    let rounds: u32 = words[3].parse().unwrap();
    let start = Instant::now();
    let sum = match (words[1].as_str(), words[2].as_str()) {
        ("exchange", "own") => own::<Cell>(rounds),
        ("exchange", _) => shared::<Cell>(rounds),
        (_, "own") => own::<Locked>(rounds),
        _ => shared::<Locked>(rounds),
    };
    let tenths = start.elapsed().as_nanos() * 10 / u128::from(rounds);
    println!("{rounds} rounds, {}.{} ns a round, sum {sum}", tenths / 10, tenths % 10);
}
