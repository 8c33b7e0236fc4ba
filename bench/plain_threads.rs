//! The run of a case file on standard input with threads, as a plain Rust program, to measure against: the standard
//! library only, safe code. A thread runs each row's script and hands each stop to the workers over a mutex and a
//! condition variable of its row; one queue tells the workers which rows have stopped. A stop's record, with the memory
//! and what the row has printed, moves to the cell and back, so that nothing is copied. It prints what `plain_run.rs`
//! does. Usage: plain_threads WORKERS < CASE

// The printing alone is taken from the program on one thread.
#[allow(dead_code)]
#[path = "plain_run.rs"]
mod plain_run;

use plain_run::plain_case::{Case, Image, MOST_BYTES, Row, Script, Step, read};
use plain_run::{LIMIT, SIGNALS, Text, after, before};
use std::collections::VecDeque;
use std::io::{self, Read, Write};
use std::process::ExitCode;
use std::sync::atomic::{AtomicUsize, Ordering};
use std::sync::{Condvar, Mutex, MutexGuard};
use std::{env, thread};

/// Where a tracee has stopped.
#[derive(Clone, Copy)]
enum At {
    Start,
    Enter,
    Event,
    Exit,
    Signal(u8),
    Exited(u64),
    Killed(u8),
}

/// What a tracer reads at a stop: the step that is made, the memory, and what the row has printed up to there.
struct Record {
    tid: u32,
    at: At,
    step: Option<Step>,
    image: Image,
    text: Vec<u8>,
}

enum State {
    Unborn,
    Never,
    Running,
    Stopped(Box<Record>),
    Resumed(Box<Record>),
    Ended(Box<Record>),
}

struct Cell {
    state: Mutex<State>,
    changed: Condvar,
}

/// How many threads of a group are alive.
struct Group {
    alive: Mutex<u32>,
    changed: Condvar,
}

struct Queue {
    stopped: VecDeque<usize>,
    is_done: bool,
}

struct Board {
    cells: Vec<Cell>,
    groups: Vec<Group>,
    queue: Mutex<Queue>,
    has_stopped: Condvar,
    /// How many rows are born and not reaped.
    left: AtomicUsize,
    rows: Vec<Row>,
    fills: Vec<u8>,
}

fn locked<T>(mutex: &Mutex<T>) -> MutexGuard<'_, T> {
    mutex.lock().expect("no thread panics")
}

impl Board {
    fn place(&self, tid: u32) -> usize {
        self.rows.iter().position(|row| row.tid == tid).expect("a row of the case")
    }

    fn group(&self, row: usize) -> &Group {
        &self.groups[self.place(self.rows[row].tgid)]
    }

    /// A row is born, and its thread may go.
    fn bear(&self, row: usize) {
        *locked(&self.group(row).alive) += 1;
        self.left.fetch_add(1, Ordering::SeqCst);
        *locked(&self.cells[row].state) = State::Running;
        self.cells[row].changed.notify_one();
    }

    /// Whether the row has been born, once that is known.
    fn is_born(&self, row: usize) -> bool {
        let cell = &self.cells[row];
        let mut state = locked(&cell.state);
        loop {
            match *state {
                State::Unborn => state = cell.changed.wait(state).expect("no thread panics"),
                State::Never => return false,
                _ => return true,
            }
        }
    }

    fn tell(&self, row: usize) {
        locked(&self.queue).stopped.push_back(row);
        self.has_stopped.notify_one();
    }

    /// Stops a row until a worker has resumed it.
    fn stop(&self, row: usize, mut record: Box<Record>, at: At) -> Box<Record> {
        let cell = &self.cells[row];
        record.at = at;
        let mut state = locked(&cell.state);
        *state = State::Stopped(record);
        self.tell(row);
        loop {
            state = cell.changed.wait(state).expect("no thread panics");
            if let State::Resumed(_) = *state {
                break;
            }
        }
        match std::mem::replace(&mut *state, State::Running) {
            State::Resumed(record) => record,
            _ => unreachable!(),
        }
    }

    /// Ends a row; a leader only once it is alone in its group.
    fn end(&self, row: usize, mut record: Box<Record>, at: At) {
        let group = self.group(row);
        let mut alive = locked(&group.alive);
        if self.rows[row].tid == self.rows[row].tgid {
            while *alive > 1 {
                alive = group.changed.wait(alive).expect("no thread panics");
            }
        }
        *alive -= 1;
        drop(alive);
        group.changed.notify_one();
        record.at = at;
        *locked(&self.cells[row].state) = State::Ended(record);
        self.tell(row);
    }

    /// The next row that has stopped or ended; None once all rows are reaped.
    fn next(&self) -> Option<usize> {
        let mut queue = locked(&self.queue);
        loop {
            if let Some(row) = queue.stopped.pop_front() {
                return Some(row);
            }
            if queue.is_done {
                return None;
            }
            queue = self.has_stopped.wait(queue).expect("no thread panics");
        }
    }

    /// Once all rows are reaped, the rows that are not born never are, and the workers are done.
    fn finish(&self) {
        for cell in &self.cells {
            let mut state = locked(&cell.state);
            if let State::Unborn = *state {
                *state = State::Never;
                cell.changed.notify_one();
            }
        }
        locked(&self.queue).is_done = true;
        self.has_stopped.notify_all();
    }
}

/// Prints a step's part at its first stop, and at its last one.
fn print(record: &mut Record) {
    let Record { tid, at, step, image, text } = record;
    let mut text = Text { bytes: text, limit: LIMIT };
    match (*at, step) {
        (At::Start | At::Event, _) | (_, None) => {}
        (At::Enter, Some(step)) => {
            text.decimal(u64::from(*tid));
            text.words(" ");
            match step {
                Step::Call(call) => {
                    before(&mut text, image, call);
                }
                Step::Fork(_) => text.words("fork("),
                Step::Thread(_) => text.words("clone(0x10900"),
                Step::Exec { path, .. } => {
                    text.words("execve(");
                    text.string(image, *path);
                    text.words(", NULL, NULL");
                }
                Step::Exit(status) => {
                    text.words("exit(");
                    text.signed(i64::from(*status as u32 as i32));
                    text.words(") = ?\n");
                }
                Step::Signal { .. } => {}
            }
        }
        (At::Exit, Some(step)) => match step {
            Step::Call(call) => {
                if matches!(call.nr, 0 | 19) {
                    after(&mut text, image, call);
                }
                text.result(call.answer);
            }
            Step::Fork(child) | Step::Thread(child) => text.result(u64::from(*child)),
            _ => text.result(0),
        },
        (At::Signal(signal), _) => line(&mut text, *tid, "--- SIG", SIGNALS[usize::from(signal) - 1], " ---\n"),
        (At::Killed(signal), _) => {
            line(&mut text, *tid, "+++ killed by SIG", SIGNALS[usize::from(signal) - 1], " +++\n");
        }
        (At::Exited(status), _) => line(&mut text, *tid, "+++ exited with ", &(status % 256).to_string(), " +++\n"),
    }
}

fn line(text: &mut Text, tid: u32, first: &str, word: &str, last: &str) {
    text.decimal(u64::from(tid));
    text.words(" ");
    for part in [first, word, last] {
        text.words(part);
    }
}

/// Runs a row's script from stop to stop.
fn run_tracee(board: &Board, row: usize, script: Script) {
    if !board.is_born(row) {
        return;
    }
    let Script { image, steps, .. } = script;
    let first = Record {
        tid: board.rows[row].tid,
        at: At::Start,
        step: Some(Step::Exit(0)),
        image,
        text: Vec::new(),
    };
    let mut record = board.stop(row, Box::new(first), At::Start);
    for step in steps {
        if let Step::Signal { signal, deadly } = step {
            record = board.stop(row, record, At::Signal(signal));
            if deadly {
                return board.end(row, record, At::Killed(signal));
            }
            continue;
        }
        record.step = Some(step);
        record = board.stop(row, record, At::Enter);
        match &mut record.step {
            Some(Step::Call(call)) => {
                if let Some(fill) = &call.fill {
                    let start = fill.start as usize;
                    record.image.store(fill.address, &board.fills[start..start + fill.length as usize]);
                }
            }
            Some(Step::Fork(child) | Step::Thread(child)) => {
                board.bear(board.place(*child));
                record = board.stop(row, record, At::Event);
            }
            Some(Step::Exec { image, .. }) => {
                std::mem::swap(&mut record.image, image);
                record = board.stop(row, record, At::Event);
            }
            Some(Step::Exit(status)) => {
                let status = *status;
                return board.end(row, record, At::Exited(status));
            }
            _ => {}
        }
        record = board.stop(row, record, At::Exit);
    }
    board.end(row, record, At::Exited(0));
}

/// Prints and resumes what has stopped, until all rows are reaped.
fn run_worker(board: &Board) {
    while let Some(row) = board.next() {
        let cell = &board.cells[row];
        let mut state = locked(&cell.state);
        match std::mem::replace(&mut *state, State::Running) {
            State::Stopped(mut record) => {
                print(&mut record);
                *state = State::Resumed(record);
                cell.changed.notify_one();
            }
            State::Ended(mut record) => {
                print(&mut record);
                *state = State::Ended(record);
                drop(state);
                if board.left.fetch_sub(1, Ordering::SeqCst) == 1 {
                    board.finish();
                }
            }
            other => *state = other,
        }
    }
}

/// The text of a case, whose rows each have a thread, by so many workers.
fn text_of(case: Case, workers: usize) -> Vec<u8> {
    let rows = case.rows.len();
    let board = Board {
        cells: (0..rows).map(|_| Cell { state: Mutex::new(State::Unborn), changed: Condvar::new() }).collect(),
        groups: (0..rows).map(|_| Group { alive: Mutex::new(0), changed: Condvar::new() }).collect(),
        queue: Mutex::new(Queue { stopped: VecDeque::new(), is_done: false }),
        has_stopped: Condvar::new(),
        left: AtomicUsize::new(0),
        rows: case.rows,
        fills: case.bytes,
    };
    let board = &board;
    let roots: Vec<usize> = (0..rows).filter(|row| board.rows[*row].parent.is_none()).collect();
    // So that no worker finds all reaped before all roots are born.
    board.left.fetch_add(1, Ordering::SeqCst);
    thread::scope(|scope| {
        for (row, script) in case.scripts.into_iter().enumerate() {
            scope.spawn(move || run_tracee(board, row, script));
        }
        for _ in 0..workers {
            scope.spawn(move || run_worker(board));
        }
        for row in roots {
            board.bear(row);
        }
        if board.left.fetch_sub(1, Ordering::SeqCst) == 1 {
            board.finish();
        }
    });
    let mut bytes = Vec::new();
    for cell in &board.cells {
        if let State::Ended(record) = &*locked(&cell.state) {
            bytes.extend_from_slice(&record.text);
        }
    }
    bytes
}

fn main() -> ExitCode {
    let workers = env::args().nth(1).and_then(|word| word.parse().ok()).unwrap_or(4);
    let mut text = Vec::with_capacity(MOST_BYTES + 1);
    if io::stdin().lock().take(MOST_BYTES as u64 + 1).read_to_end(&mut text).is_err() {
        eprintln!("tracer: cannot read");
        return ExitCode::from(3);
    }
    match read(&text) {
        Ok(case) => {
            drop(text);
            match io::stdout().write_all(&text_of(case, workers)) {
                Ok(()) => ExitCode::SUCCESS,
                Err(_) => {
                    eprintln!("tracer: cannot write");
                    ExitCode::from(3)
                }
            }
        }
        Err((line, cause)) => {
            eprintln!("tracer: line {line}: {cause:?}");
            ExitCode::from(1)
        }
    }
}
