//! How a model is searched.

use super::report::{Coverage, Failure, Report};
use super::schedule::Place;
use super::search;
use crate::sim::Sim;
use std::io::Write;
use std::str::FromStr;
use std::time::Duration;

/// How a model is searched.
///
/// ```
/// use pukzarn::{Builder, Shares};
///
/// let report = Builder { shares: Shares::Sync, max_schedules: 1_000, ..Builder::new() }.check(|sim| drop(sim.run()));
/// assert_eq!(report.schedules, 1);
/// ```
#[derive(Clone, Debug)]
pub struct Builder {
    /// What the threads may share, which decides which situations are the same.
    pub shares: Shares,
    /// Whether a schedule in which a tracer's thread waits for ever fails.
    pub deadlocks: Deadlocks,
    /// Which threads of the system run the threads of a schedule.
    pub threads: Threads,
    /// Whether a search that did not try all interleavings fails.
    pub effort: Effort,
    /// At most this many decisions that are not the first one. None: 0, 1, 2, 3, and then any number
    /// (PUKZARN_DEVIATIONS).
    pub deviations: Option<u32>,
    /// The search ends after this many schedules (PUKZARN_SCHEDULES, 20,000).
    pub max_schedules: u64,
    /// A schedule of more steps fails: a loop that never waits.
    pub max_steps: usize,
    /// How often a poll that found nothing may find nothing once more before anything has changed.
    pub idle_polls: u32,
    /// The decisions of one schedule, which is run in place of the search, as `Failure::schedule` has them; ignored by
    /// models of another name (PUKZARN_SCHEDULE). Its steps are printed on standard error also where it passes.
    pub schedule: Option<String>,
    /// A thread that makes no call for so long is taken to wait for a lock of std.
    pub patience: Duration,
}

/// What the threads of the tracer, and the closures that play tracees, may share.
///
/// ```
/// assert_eq!(pukzarn::Builder::new().shares, pukzarn::Shares::Memory);
/// ```
#[derive(Clone, Copy, Debug, PartialEq, Eq)]
pub enum Shares {
    /// No situation is taken for another: each interleaving is run to its end.
    Everything,
    /// Memory of any kind: situations are the same where all threads made the same calls in one order, with the same
    /// answers.
    Memory,
    /// Only what is of `pukzarn::sync`: situations are the same where each thread was answered the same. What threads
    /// share by locks of std is missed.
    Sync,
}

/// Whether a schedule fails in which a thread of the tracer waits for ever.
///
/// ```
/// assert_eq!(pukzarn::Builder::new().deadlocks, pukzarn::Deadlocks::Fail);
/// ```
#[derive(Clone, Copy, Debug, PartialEq, Eq)]
pub enum Deadlocks {
    /// It fails.
    Fail,
    /// It ends, and `End::waiting` names the threads.
    End,
}

/// Which threads of the system run the threads of a schedule.
///
/// ```
/// assert_eq!(pukzarn::Builder::new().threads, pukzarn::Threads::New);
/// ```
#[derive(Clone, Copy, Debug, PartialEq, Eq)]
pub enum Threads {
    /// New ones for each schedule, so that a `thread_local!` is as at first.
    New,
    /// Those of the schedule before, which is faster.
    Reused,
}

/// Whether a search may end before all interleavings were tried.
///
/// ```
/// assert_eq!(pukzarn::Builder::new().exhaustive().effort, pukzarn::Effort::All);
/// ```
#[derive(Clone, Copy, Debug, PartialEq, Eq)]
pub enum Effort {
    /// It may, and its report says how far it came.
    Bounded,
    /// It then fails.
    All,
}

impl Builder {
    /// What `model` has, with the environment's PUKZARN_SCHEDULE, PUKZARN_SCHEDULES and PUKZARN_DEVIATIONS.
    ///
    /// ```
    /// assert_eq!(pukzarn::Builder::new().max_steps, 10_000);
    /// ```
    pub fn new() -> Builder {
        Builder {
            shares: Shares::Memory,
            deadlocks: Deadlocks::Fail,
            threads: Threads::New,
            effort: Effort::Bounded,
            deviations: variable("PUKZARN_DEVIATIONS"),
            max_schedules: variable("PUKZARN_SCHEDULES").unwrap_or(20_000),
            max_steps: 10_000,
            idle_polls: 1,
            schedule: variable("PUKZARN_SCHEDULE"),
            patience: Duration::from_secs(30),
        }
    }

    /// The same, of which a search fails that has not tried all interleavings.
    ///
    /// ```
    /// pukzarn::Builder::new().exhaustive().check(|sim| drop(sim.run()));
    /// ```
    pub fn exhaustive(self) -> Builder {
        Builder { effort: Effort::All, ..self }
    }

    /// Runs a simulation under every interleaving of its calls, and panics at the first that fails. Where not all were
    /// tried, it says so on standard error, past what a test's harness keeps back of a test that passes.
    ///
    /// ```
    /// pukzarn::Builder::new().check(|sim| {
    ///     sim.tracer("main", || ());
    ///     sim.run();
    /// });
    /// ```
    #[track_caller]
    pub fn check(&self, test: impl Fn(&Sim)) -> Report {
        let place = Place::ahead();
        let report = match self.explore(test) {
            Ok(report) => report,
            Err(failure) => panic!("pukzarn: {failure}"),
        };
        match self.advice(&report) {
            None => eprintln!("pukzarn: {report}"),
            // A harness keeps back what eprintln! writes.
            Some(advice) => {
                let line = format!("pukzarn: {place}: {report}. {advice}\n");
                drop(std::io::stderr().write_all(line.as_bytes()));
            }
        }
        report
    }

    /// The same, and answers the first failure.
    ///
    /// # Errors
    /// The first schedule that fails.
    ///
    /// ```
    /// let failure = pukzarn::Builder::new().explore(|_| panic!("a bug")).unwrap_err();
    /// assert_eq!(failure.cause, "the test panicked: a bug");
    /// ```
    pub fn explore(&self, test: impl Fn(&Sim)) -> Result<Report, Failure> {
        search::explore(self, &test)
    }

    /// What a report has left out, and what would have more tried. None where all interleavings were tried.
    ///
    /// ```
    /// use pukzarn::{Builder, Coverage};
    ///
    /// let builder = Builder::new();
    /// let report = builder.check(|sim| drop(sim.run()));
    /// assert_eq!(builder.advice(&report), None);
    /// let bounded = pukzarn::Report { coverage: Coverage::Deviations(3), ..report };
    /// assert!(builder.advice(&bounded).is_some());
    /// ```
    pub fn advice(&self, report: &Report) -> Option<String> {
        if report.coverage == Coverage::All {
            None
        } else if self.schedule.is_some() && report.schedules == 1 {
            Some("PUKZARN_SCHEDULE asks for this schedule alone".into())
        } else if self.deviations.is_some() && report.schedules < self.max_schedules {
            Some("Schedules with more deviations were not tried: raise `deviations` (PUKZARN_DEVIATIONS)".into())
        } else {
            Some(format!("What helps: {}", ways_to_more(report)))
        }
    }
}

/// What would have more tried of what a report says was begun, what takes least first.
fn ways_to_more(report: &Report) -> String {
    let mut ways = Vec::new();
    // Of one thread the order of calls is that of its own.
    if report.shares != Shares::Sync && report.threads > 1 {
        ways.push("where threads share nothing but what is of pukzarn::sync, say so (Shares::Sync)");
    }
    ways.push("make the case smaller");
    if report.forgets == 0 {
        ways.push("say at the heads of loops what counts (pukzarn::forget)");
    }
    format!("{}, or raise max_schedules (PUKZARN_SCHEDULES)", ways.join(", "))
}

impl Default for Builder {
    fn default() -> Builder {
        Builder::new()
    }
}

/// What a variable of the environment says, None where it is not set. Panics where it says something else.
fn variable<T: FromStr>(name: &str) -> Option<T> {
    let text = std::env::var(name).ok()?;
    Some(text.parse().unwrap_or_else(|_| panic!("pukzarn: {name} cannot be {text:?}")))
}
