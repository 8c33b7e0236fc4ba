//! One round: the cells, the threads over them, and the watch over whether something still happens.

use super::Stress;
use super::thread::{Place, Role, tracee_body};
use crate::context::{self, Body, World};
use crate::end::{End, Phase};
use crate::library::{MOST_TRACERS, RowNumbers, TraceeHandle, TracerHandle, open_cells, phase};
use crate::row::refusal_words;
use crate::sim::{Declared, Sim};
use crate::stop::FirstStop;
use std::sync::atomic::{AtomicBool, AtomicU32, AtomicU64, AtomicUsize, Ordering::SeqCst};
use std::sync::{Arc, Mutex, MutexGuard, PoisonError};
use std::thread::Thread;
use std::time::{Duration, Instant};

/// How long the watch sleeps where nobody wakes it.
const NAP: Duration = Duration::from_micros(200);
/// How long threads of a round that is over have to end. Those that wait for a lock of std never do.
const GRACE: Duration = Duration::from_millis(500);

/// What went wrong first.
pub(super) type Fault = Arc<Mutex<Option<String>>>;

/// Locks also what a thread that panicked held.
pub(super) fn lock<T>(mutex: &Mutex<T>) -> MutexGuard<'_, T> {
    mutex.lock().unwrap_or_else(PoisonError::into_inner)
}

pub(super) struct Round {
    settings: Stress,
    seed: u64,
    fault: Fault,
}

impl Round {
    pub(super) fn new(settings: &Stress, round: u64, fault: Fault) -> Round {
        Round { settings: settings.clone(), seed: settings.seed.wrapping_add(round), fault }
    }

    fn shared(&self, declared: &Declared) -> Shared {
        let rows = declared.rows.clone();
        let only = declared.only_tracer.as_ref().map(|only| {
            let place = declared.tracers.iter().position(|(name, _)| name == only);
            place.unwrap_or_else(|| panic!("pukzarn: there is no tracer {only}, which is to be the only one"))
        });
        let handles = if only.is_some() { 1 } else { MOST_TRACERS };
        let cells = open_cells(&rows, handles);
        let (tracees, tracers) = cells.unwrap_or_else(|refused| panic!("{}", refusal_words(&rows, refused)));
        Shared {
            settings: self.settings.clone(),
            seed: self.seed,
            only,
            tracees: tracees.into_iter().map(Mutex::new).collect(),
            tracers: tracers.into_iter().map(Mutex::new).collect(),
            options: rows.iter().map(|_| AtomicU32::new(declared.options)).collect(),
            first_stop: declared.first_stop,
            interrupted: rows.iter().map(|_| AtomicBool::new(false)).collect(),
            exiting: rows.iter().map(|_| AtomicBool::new(false)).collect(),
            claimed_by: rows.iter().map(|_| AtomicUsize::new(0)).collect(),
            rows,
            eintrs: AtomicU32::new(declared.eintrs),
            progress: AtomicU64::new(0),
            next_tracer: AtomicUsize::new(0),
            tracers_left: AtomicUsize::new(0),
            live: AtomicUsize::new(0),
            over: AtomicBool::new(false),
            fault: self.fault.clone(),
            ended: Mutex::default(),
            watch: std::thread::current(),
        }
    }
}

impl World for Round {
    fn run(&self, sim: &Sim) -> End {
        let declared = sim.take_declared();
        let shared = Arc::new(self.shared(&declared));
        let mut ready: Vec<(Place, Body)> = Vec::new();
        for (name, body) in declared.tracers {
            ready.push((shared.enroll(Some(name)).1, body));
        }
        for (row, follows) in declared.tracees.into_iter().enumerate() {
            let name = format!("tracee {}", shared.rows[row].tid);
            let place = shared.place(Role::Tracee, name, Arc::default());
            ready.push((place, tracee_body(&shared, row, follows)));
        }
        // Whoever is started first has a lead.
        if !ready.is_empty() {
            let first = self.seed as usize % ready.len();
            ready.rotate_left(first);
        }
        ready.into_iter().for_each(|(place, body)| place.start(body));
        shared.watch();
        if lock(&self.fault).is_some() {
            context::leave();
        }
        shared.end()
    }
}

/// What the threads of a round share. Each has a handle of its own; its lock is for the looks of the watch, and for the
/// one handle that all share where one thread traces.
pub(super) struct Shared {
    pub(super) settings: Stress,
    seed: u64,
    pub(super) rows: Vec<RowNumbers>,
    pub(super) tracees: Vec<Mutex<TraceeHandle>>,
    pub(super) tracers: Vec<Mutex<TracerHandle>>,
    /// The number of the one tracer that restarts. All waits are then made by the handle 0.
    pub(super) only: Option<usize>,
    /// By row: PTRACE_O_..., a PTRACE_INTERRUPT that is to come, whether it only waits for its threads to end, and the
    /// number of the tracer that was last answered its stop.
    pub(super) options: Vec<AtomicU32>,
    pub(super) first_stop: FirstStop,
    pub(super) interrupted: Vec<AtomicBool>,
    pub(super) exiting: Vec<AtomicBool>,
    pub(super) claimed_by: Vec<AtomicUsize>,
    /// How many more waits are interrupted.
    pub(super) eintrs: AtomicU32,
    /// How many calls have changed something.
    progress: AtomicU64,
    next_tracer: AtomicUsize,
    tracers_left: AtomicUsize,
    live: AtomicUsize,
    over: AtomicBool,
    fault: Fault,
    /// Whether each thread of the tracer has ended, by its number.
    ended: Mutex<Vec<Arc<AtomicBool>>>,
    watch: Thread,
}

impl Shared {
    pub(super) fn row_of(&self, pid: i32) -> Option<usize> {
        self.rows.iter().position(|row| i64::from(row.tid) == i64::from(pid))
    }

    pub(super) fn is_over(&self) -> bool {
        self.over.load(SeqCst)
    }

    pub(super) fn has_changed(&self) {
        self.progress.fetch_add(1, SeqCst);
    }

    /// The round fails, and all of its threads are to end.
    pub(super) fn fail(&self, cause: String) {
        lock(&self.fault).get_or_insert(cause);
        self.over.store(true, SeqCst);
        self.watch.unpark();
    }

    /// Takes a place for a further thread of the tracer, and answers its number.
    pub(super) fn enroll(self: &Arc<Shared>, name: Option<String>) -> (usize, Place) {
        let number = self.next_tracer.fetch_add(1, SeqCst);
        assert!(
            self.only.is_some() || number < MOST_TRACERS,
            "pukzarn: a round on threads has at most {MOST_TRACERS} threads of a tracer"
        );
        let ended = Arc::new(AtomicBool::new(false));
        lock(&self.ended).push(ended.clone());
        self.tracers_left.fetch_add(1, SeqCst);
        let name = name.unwrap_or_else(|| format!("thread {number}"));
        (number, self.place(Role::Tracer(number), name, ended))
    }

    fn place(self: &Arc<Shared>, role: Role, name: String, ended: Arc<AtomicBool>) -> Place {
        let count = self.live.fetch_add(1, SeqCst) as u64;
        let random = (self.seed ^ (count << 32)).wrapping_mul(0x9E37_79B9_7F4A_7C15) | 1;
        Place { shared: self.clone(), role, name, random, ended }
    }

    /// A thread has ended.
    pub(super) fn leave(&self, role: Role) {
        if matches!(role, Role::Tracer(_)) {
            self.tracers_left.fetch_sub(1, SeqCst);
        }
        self.live.fetch_sub(1, SeqCst);
        self.watch.unpark();
    }

    pub(super) fn has_ended(&self, thread: usize) -> bool {
        let ended = lock(&self.ended)[thread].clone();
        ended.load(SeqCst)
    }

    fn phase(&self, row: usize) -> u32 {
        lock(&self.tracers[0]).look(row).phase
    }

    /// Whether no tracee does anything any more, where no tracer is left: each has ended, or is stopped, or is a leader
    /// that waits for the end of a thread that is stopped.
    fn is_settled(&self) -> bool {
        let phases: Vec<u32> = (0..self.rows.len()).map(|row| self.phase(row)).collect();
        let is_stopped = |row: usize| matches!(phases[row], phase::STOPPED | phase::CLAIMED);
        let waits_for_ever = |row: usize| {
            let group = self.rows[row].tgid;
            let others = (0..self.rows.len()).filter(|other| *other != row && self.rows[*other].tgid == group);
            self.exiting[row].load(SeqCst) && others.into_iter().any(is_stopped)
        };
        (0..self.rows.len()).all(|row| phases[row] != phase::RUNNING || waits_for_ever(row))
    }

    /// Waits until each thread has ended, or none does anything any more.
    fn watch(&self) {
        let mut seen = (self.progress.load(SeqCst), Instant::now());
        while self.live.load(SeqCst) > 0 && !self.is_over() {
            std::thread::park_timeout(NAP);
            let progress = self.progress.load(SeqCst);
            if progress != seen.0 {
                seen = (progress, Instant::now());
            }
            let left = self.tracers_left.load(SeqCst);
            if left == 0 && self.is_settled() {
                self.over.store(true, SeqCst);
            } else if seen.1.elapsed() > self.settings.patience {
                let patience = self.settings.patience;
                self.fail(format!(
                    "nothing has happened for {patience:?}, and {left} threads of the tracer have not ended"
                ));
            }
        }
        let until = Instant::now() + GRACE;
        while self.live.load(SeqCst) > 0 && Instant::now() < until {
            std::thread::park_timeout(NAP);
        }
    }

    fn end(&self) -> End {
        let phase = |row: usize| match self.phase(row) {
            phase::UNBORN => Phase::Unborn,
            phase::RUNNING => Phase::Running,
            phase::STOPPED => Phase::Stopped,
            phase::CLAIMED => Phase::Claimed { tracer: self.claimed_by[row].load(SeqCst) as u32 },
            phase::DEAD => Phase::Dead,
            _ => Phase::Reaped,
        };
        let tracees = self.rows.iter().enumerate().map(|(row, numbers)| (numbers.tid, phase(row))).collect();
        End { tracees, waiting: Vec::new() }
    }
}
