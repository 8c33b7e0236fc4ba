//! Threads that borrow.

use super::handle::{Answer, answering, join_simulated};
use super::{Builder, Result, Thread};
use crate::context;
use std::any::Any;
use std::collections::BTreeMap;
use std::panic::{AssertUnwindSafe, catch_unwind, resume_unwind};
use std::sync::{Mutex, MutexGuard, PoisonError};
use std::{fmt, io, thread};

pub use crate::library::Scope;

/// The threads of a simulation that nobody has joined, by the address of their scope.
static LEFT: Mutex<BTreeMap<usize, Vec<usize>>> = Mutex::new(BTreeMap::new());

/// Starts threads that borrow, and ends once they have; in a simulation they are threads of it.
///
/// ```
/// use pukzarn::thread;
///
/// pukzarn::model(|sim| {
///     sim.tracer("main", || {
///         let mut served = vec![100];
///         thread::scope(|scope| {
///             scope.spawn(|| served.push(101));
///         });
///         assert_eq!(served, [100, 101]);
///     });
///     assert!(sim.run().waiting.is_empty());
/// });
/// ```
pub fn scope<'env, F, T>(body: F) -> T
where
    F: for<'scope> FnOnce(&'scope Scope<'scope, 'env>) -> T,
{
    thread::scope(|inner| {
        let scope = Scope::of(inner);
        let _listed = Listed { scope: scope.address() };
        // The threads that are left have to end by calls of the simulation before std waits for them.
        match catch_unwind(AssertUnwindSafe(|| body(scope))) {
            Ok(answer) => {
                scope.join_left();
                answer
            }
            Err(payload) => scope.end_by(payload),
        }
    })
}

impl<'scope, 'env> Scope<'scope, 'env> {
    /// Starts a thread that the scope waits for.
    ///
    /// ```
    /// let number = 7;
    /// let answer = pukzarn::thread::scope(|scope| scope.spawn(|| number + 1).join().unwrap());
    /// assert_eq!(answer, 8);
    /// ```
    pub fn spawn<F, T>(&'scope self, body: F) -> ScopedJoinHandle<'scope, T>
    where
        F: FnOnce() -> T + Send + 'scope,
        T: Send + 'scope,
    {
        Builder::new().spawn_scoped(self, body).expect("a thread can be started")
    }

    fn address(&self) -> usize {
        std::ptr::from_ref(self).addr()
    }

    fn join_left(&self) {
        while let Some(number) = next_left(self.address()) {
            context::calls().join(number);
        }
    }

    /// Ends with a panic of the scope's body. The threads that are left may wait for what never comes, so another one
    /// reports the panic, which ends the simulation.
    fn end_by(&self, payload: Box<dyn Any + Send>) -> ! {
        let Some(calls) = context::get().filter(|_| left().get(&self.address()).is_some_and(|left| !left.is_empty()))
        else {
            resume_unwind(payload)
        };
        let Some(message) = context::message(payload) else { context::leave() };
        calls.spawn(Some("a scope".into()), Box::new(move || resume_unwind(Box::new(message))));
        self.join_left();
        context::leave()
    }
}

fn left() -> MutexGuard<'static, BTreeMap<usize, Vec<usize>>> {
    LEFT.lock().unwrap_or_else(PoisonError::into_inner)
}

/// Takes the number of a thread that nobody has joined.
fn next_left(scope: usize) -> Option<usize> {
    left().get_mut(&scope)?.pop()
}

/// Takes a scope from the list where it ends, also by unwinding.
struct Listed {
    scope: usize,
}

impl Drop for Listed {
    fn drop(&mut self) {
        left().remove(&self.scope);
    }
}

impl Builder {
    /// Starts it in a scope.
    ///
    /// ```
    /// use pukzarn::thread::{Builder, scope};
    ///
    /// let number = 7;
    /// scope(|s| {
    ///     let worker = Builder::new().name("worker".into()).spawn_scoped(s, || number + 1).unwrap();
    ///     assert_eq!(worker.join().unwrap(), 8);
    /// });
    /// ```
    pub fn spawn_scoped<'scope, F, T>(
        self,
        scope: &'scope Scope<'scope, '_>,
        body: F,
    ) -> io::Result<ScopedJoinHandle<'scope, T>>
    where
        F: FnOnce() -> T + Send + 'scope,
        T: Send + 'scope,
    {
        let Some(calls) = context::get() else {
            let real = self.of_std().spawn_scoped(scope.inner(), body)?;
            return Ok(ScopedJoinHandle { thread: Thread::real(real.thread()), end: End::Real(real) });
        };
        let thread = Thread::simulated(self.name.clone());
        let (answer, body) = answering(thread.clone(), body);
        let builder = self.of_std();
        let (number, place) = calls.enroll(self.name);
        left().entry(scope.address()).or_default().push(number);
        builder.spawn_scoped(scope.inner(), move || place.run(Box::new(body)))?;
        Ok(ScopedJoinHandle { thread, end: End::Simulated { number, answer, scope: scope.address() } })
    }
}

/// A thread of a scope that may be waited for.
///
/// ```
/// use pukzarn::thread::{ScopedJoinHandle, scope};
///
/// scope(|s| {
///     let worker: ScopedJoinHandle<'_, u32> = s.spawn(|| 7);
///     assert_eq!(worker.join().unwrap(), 7);
/// });
/// ```
pub struct ScopedJoinHandle<'scope, T> {
    thread: Thread,
    end: End<'scope, T>,
}

enum End<'scope, T> {
    Simulated { number: usize, answer: Answer<T>, scope: usize },
    Real(thread::ScopedJoinHandle<'scope, T>),
}

impl<T> ScopedJoinHandle<'_, T> {
    /// The thread.
    ///
    /// ```
    /// pukzarn::thread::scope(|scope| assert_eq!(scope.spawn(|| ()).thread().name(), None));
    /// ```
    pub fn thread(&self) -> &Thread {
        &self.thread
    }

    /// Waits until the thread has ended, and answers what its body did; one step of a model.
    ///
    /// ```
    /// pukzarn::thread::scope(|scope| assert_eq!(scope.spawn(|| 7).join().unwrap(), 7));
    /// ```
    pub fn join(self) -> Result<T> {
        match self.end {
            End::Simulated { number, answer, scope } => {
                let value = join_simulated(number, &answer);
                left().entry(scope).or_default().retain(|other| *other != number);
                value
            }
            End::Real(real) => real.join(),
        }
    }

    /// Whether the thread has ended; one step of a model.
    ///
    /// ```
    /// pukzarn::thread::scope(|scope| {
    ///     let worker = scope.spawn(|| 7);
    ///     while !worker.is_finished() {
    ///         pukzarn::thread::yield_now();
    ///     }
    /// });
    /// ```
    pub fn is_finished(&self) -> bool {
        match &self.end {
            End::Simulated { number, .. } => context::calls().is_finished(*number),
            End::Real(real) => real.is_finished(),
        }
    }
}

impl<T> fmt::Debug for ScopedJoinHandle<'_, T> {
    fn fmt(&self, formatter: &mut fmt::Formatter<'_>) -> fmt::Result {
        formatter.debug_struct("ScopedJoinHandle").field("thread", &self.thread).finish_non_exhaustive()
    }
}
