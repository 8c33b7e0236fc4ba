//! Threads that own what they use.

use super::{Result, Thread};
use crate::context;
use std::sync::{Arc, Mutex, PoisonError};
use std::{fmt, io, thread};

/// Starts a thread; in a simulation one of it.
///
/// ```
/// use pukzarn::thread;
///
/// pukzarn::model(|sim| {
///     sim.tracer("main", || {
///         let worker = thread::spawn(|| 7);
///         assert_eq!(worker.join().unwrap(), 7);
///     });
///     assert!(sim.run().waiting.is_empty());
/// });
/// ```
pub fn spawn<F, T>(body: F) -> JoinHandle<T>
where
    F: FnOnce() -> T + Send + 'static,
    T: Send + 'static,
{
    Builder::new().spawn(body).expect("a thread can be started")
}

/// What a thread is to have, before it is started.
///
/// ```
/// let builder = pukzarn::thread::Builder::new().name("reaper".into());
/// let reaper = builder.spawn(|| pukzarn::thread::current().name().map(str::to_string)).unwrap();
/// assert_eq!(reaper.join().unwrap().as_deref(), Some("reaper"));
/// ```
#[derive(Debug, Default)]
pub struct Builder {
    pub(super) name: Option<String>,
    stack_size: Option<usize>,
}

impl Builder {
    /// A thread without a name.
    ///
    /// ```
    /// let thread = pukzarn::thread::Builder::new().spawn(|| 7).unwrap();
    /// assert_eq!(thread.join().unwrap(), 7);
    /// ```
    pub fn new() -> Builder {
        Builder::default()
    }

    /// Gives it a name, which reports use.
    ///
    /// ```
    /// let thread = pukzarn::thread::Builder::new().name("reaper".into()).spawn(|| ()).unwrap();
    /// assert_eq!(thread.thread().name(), Some("reaper"));
    /// ```
    pub fn name(mut self, name: String) -> Builder {
        self.name = Some(name);
        self
    }

    /// Gives it a stack of this size, in bytes; in a simulation, one that borrows alone.
    ///
    /// ```
    /// let thread = pukzarn::thread::Builder::new().stack_size(1 << 20).spawn(|| ()).unwrap();
    /// thread.join().unwrap();
    /// ```
    pub fn stack_size(mut self, size: usize) -> Builder {
        self.stack_size = Some(size);
        self
    }

    /// Starts it.
    ///
    /// ```
    /// let thread = pukzarn::thread::Builder::new().spawn(|| 7).unwrap();
    /// assert_eq!(thread.join().unwrap(), 7);
    /// ```
    pub fn spawn<F, T>(self, body: F) -> io::Result<JoinHandle<T>>
    where
        F: FnOnce() -> T + Send + 'static,
        T: Send + 'static,
    {
        let Some(calls) = context::get() else {
            let real = self.of_std().spawn(body)?;
            return Ok(JoinHandle { thread: Thread::real(real.thread()), end: End::Real(real) });
        };
        let thread = Thread::simulated(self.name.clone());
        let (answer, body) = answering(thread.clone(), body);
        let number = calls.spawn(self.name, Box::new(body));
        Ok(JoinHandle { thread, end: End::Simulated { number, answer } })
    }

    pub(super) fn of_std(&self) -> thread::Builder {
        let builder = match &self.name {
            Some(name) => thread::Builder::new().name(name.clone()),
            None => thread::Builder::new(),
        };
        match self.stack_size {
            Some(size) => builder.stack_size(size),
            None => builder,
        }
    }
}

/// What a thread of a simulation answers, once it has ended.
pub(super) type Answer<T> = Arc<Mutex<Option<T>>>;

/// A body that puts its answer there.
pub(super) fn answering<T>(thread: Thread, body: impl FnOnce() -> T) -> (Answer<T>, impl FnOnce()) {
    let answer = Answer::default();
    let to = Arc::clone(&answer);
    let body = move || {
        thread.set_current();
        let value = body();
        *to.lock().unwrap_or_else(PoisonError::into_inner) = Some(value);
    };
    (answer, body)
}

/// Waits until a thread of a simulation has ended.
pub(super) fn join_simulated<T>(number: usize, answer: &Answer<T>) -> Result<T> {
    context::calls().join(number);
    let value = answer.lock().unwrap_or_else(PoisonError::into_inner).take();
    value.ok_or_else(|| Box::new("the thread has ended without an answer") as _)
}

/// A thread that may be waited for.
///
/// ```
/// use pukzarn::thread::{JoinHandle, spawn};
///
/// let worker: JoinHandle<u32> = spawn(|| 7);
/// assert_eq!(worker.join().unwrap(), 7);
/// ```
pub struct JoinHandle<T> {
    thread: Thread,
    end: End<T>,
}

enum End<T> {
    Simulated { number: usize, answer: Answer<T> },
    Real(thread::JoinHandle<T>),
}

impl<T> JoinHandle<T> {
    /// The thread.
    ///
    /// ```
    /// let worker = pukzarn::thread::spawn(|| ());
    /// assert_eq!(worker.thread().name(), None);
    /// ```
    pub fn thread(&self) -> &Thread {
        &self.thread
    }

    /// Waits until the thread has ended, and answers what its body did; one step of a model.
    ///
    /// ```
    /// assert_eq!(pukzarn::thread::spawn(|| 7).join().unwrap(), 7);
    /// ```
    pub fn join(self) -> Result<T> {
        match self.end {
            End::Simulated { number, answer } => join_simulated(number, &answer),
            End::Real(real) => real.join(),
        }
    }

    /// Whether the thread has ended; one step of a model.
    ///
    /// ```
    /// let worker = pukzarn::thread::spawn(|| 7);
    /// while !worker.is_finished() {
    ///     pukzarn::thread::yield_now();
    /// }
    /// assert_eq!(worker.join().unwrap(), 7);
    /// ```
    pub fn is_finished(&self) -> bool {
        match &self.end {
            End::Simulated { number, .. } => context::calls().is_finished(*number),
            End::Real(real) => real.is_finished(),
        }
    }
}

impl<T> fmt::Debug for JoinHandle<T> {
    fn fmt(&self, formatter: &mut fmt::Formatter<'_>) -> fmt::Result {
        formatter.debug_struct("JoinHandle").field("thread", &self.thread).finish_non_exhaustive()
    }
}
