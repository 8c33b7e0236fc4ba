//! The threads of the system that run a model's threads. One of them runs at a time: it has the baton.

use super::builder::Threads;
use super::run::Model;
use crate::context::Body;
use crate::tracee::{Play, play};
use std::sync::atomic::{AtomicBool, Ordering, fence};
use std::sync::{Arc, Mutex, MutexGuard, OnceLock, PoisonError};
use std::thread::Thread;

/// What a thread waits on for its turn.
#[derive(Default)]
pub(super) struct Baton {
    is_here: AtomicBool,
    thread: OnceLock<Thread>,
}

impl Baton {
    /// Hands the baton to the thread that waits here, or will.
    pub(super) fn pass(&self) {
        self.is_here.store(true, Ordering::Release);
        if let Some(thread) = self.thread.get() {
            thread.unpark();
            return;
        }
        // A thread that names itself here and finds no baton is seen below, or sees the baton.
        fence(Ordering::SeqCst);
        if let Some(thread) = self.thread.get() {
            thread.unpark();
        }
    }

    /// Waits for the baton. Always the same thread calls this.
    pub(super) fn wait(&self) {
        // Later waits need no fence: who hands it here again has seen the name, since a lock was taken in between.
        if self.thread.get().is_none() {
            self.thread.get_or_init(std::thread::current);
            fence(Ordering::SeqCst);
        }
        while !self.is_here.swap(false, Ordering::Acquire) {
            std::thread::park();
        }
    }
}

/// How an actor comes to run.
#[derive(Default)]
pub(super) enum Seat {
    /// It has no thread: a scripted tracee, or one whose thread has ended before it.
    #[default]
    None,
    /// Its thread is started at its first turn.
    NotStarted(Part),
    /// Its thread waits here, or runs.
    Started(Arc<Baton>),
}

impl Seat {
    pub(super) fn baton(&self) -> Option<Arc<Baton>> {
        match self {
            Seat::Started(baton) => Some(baton.clone()),
            Seat::None | Seat::NotStarted(_) => None,
        }
    }
}

/// What an actor's thread runs.
pub(super) enum Part {
    Tracee(Play),
    Tracer(Body),
}

/// What begins to run an actor of a schedule, whose turn it is.
pub(super) struct Start {
    pub(super) model: Arc<Model>,
    pub(super) actor: usize,
    pub(super) part: Part,
}

impl Start {
    fn run(self, baton: &Arc<Baton>) {
        let Start { model, actor, part } = self;
        model.run_thread(actor, baton, || match part {
            // The actors of tracees come first, in the order of the rows.
            Part::Tracee(closure) => play(actor, closure),
            Part::Tracer(body) => body(),
        });
    }
}

/// A thread that is used again by later schedules.
pub(super) struct Worker {
    baton: Arc<Baton>,
    job: Mutex<Job>,
}

/// What a worker does next.
#[derive(Default)]
enum Job {
    #[default]
    None,
    Run(Start),
    End,
}

impl Worker {
    fn run(&self) {
        loop {
            self.baton.wait();
            match std::mem::take(&mut *self.job()) {
                Job::None => {}
                Job::Run(start) => start.run(&self.baton),
                Job::End => return,
            }
        }
    }

    fn job(&self) -> MutexGuard<'_, Job> {
        self.job.lock().unwrap_or_else(PoisonError::into_inner)
    }

    fn start(&self, job: Job) {
        *self.job() = job;
        self.baton.pass();
    }
}

/// The threads of one search.
#[derive(Default)]
pub(super) struct Crew {
    workers: Vec<Arc<Worker>>,
    /// How many of them the schedule uses.
    used: usize,
}

impl Crew {
    /// Begins a schedule: no job of another is left.
    pub(super) fn begin_schedule(&mut self) {
        self.used = 0;
    }

    /// A thread for an actor, which is not started yet.
    pub(super) fn reserve(&mut self, threads: Threads) -> Reserved {
        match threads {
            Threads::New => Reserved::New(Arc::default()),
            Threads::Reused => Reserved::Worker(self.next_worker()),
        }
    }

    fn next_worker(&mut self) -> Arc<Worker> {
        if self.used == self.workers.len() {
            let worker = Arc::new(Worker { baton: Arc::default(), job: Mutex::default() });
            let of_thread = worker.clone();
            spawn("pukzarn".into(), move || of_thread.run());
            self.workers.push(worker);
        }
        self.used += 1;
        self.workers[self.used - 1].clone()
    }
}

impl Drop for Crew {
    fn drop(&mut self) {
        self.workers.iter().for_each(|worker| worker.start(Job::End));
    }
}

/// A thread that an actor is to have.
pub(super) enum Reserved {
    New(Arc<Baton>),
    Worker(Arc<Worker>),
}

impl Reserved {
    pub(super) fn is_new(&self) -> bool {
        matches!(self, Reserved::New(_))
    }

    /// What it is to wait on for its further turns.
    pub(super) fn baton(&self) -> &Arc<Baton> {
        match self {
            Reserved::New(baton) => baton,
            Reserved::Worker(worker) => &worker.baton,
        }
    }

    /// Starts it, with the baton. A new thread has the name that a panic is printed with.
    pub(super) fn start(self, name: Option<String>, start: Start) {
        match self {
            Reserved::New(baton) => spawn(name.unwrap_or_default(), move || start.run(&baton)),
            Reserved::Worker(worker) => worker.start(Job::Run(start)),
        }
    }
}

fn spawn(name: String, job: impl FnOnce() + Send + 'static) {
    let started = std::thread::Builder::new().name(name.replace('\0', "")).spawn(job);
    if let Err(error) = started {
        panic!("pukzarn: a thread cannot be started: {error}");
    }
}
