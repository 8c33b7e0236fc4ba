//! What a search found.

use super::builder::Shares;
use std::fmt;
use std::time::Duration;

/// How far a search came.
///
/// ```
/// use pukzarn::Coverage;
///
/// assert_eq!(Coverage::All.to_string(), "all interleavings");
/// assert_eq!(Coverage::Deviations(3).to_string(), "all with at most 3 deviations");
/// ```
#[derive(Clone, Copy, Debug, PartialEq, Eq)]
pub enum Coverage {
    /// All interleavings.
    All,
    /// All with at most this many deviations: decisions that are not the first one: that a tracee acts before the
    /// tracer's threads, the first of each before the others, and that a wait is answered the first tracee. Who was
    /// taken in the place of another is preferred to it from then on.
    Deviations(u32),
    /// Less than that: one schedule was asked for, or `max_schedules` were tried.
    Part,
}

impl fmt::Display for Coverage {
    fn fmt(&self, f: &mut fmt::Formatter<'_>) -> fmt::Result {
        match self {
            Coverage::All => f.write_str("all interleavings"),
            Coverage::Deviations(0) => f.write_str("the one without deviations"),
            Coverage::Deviations(most) => write!(f, "all with at most {}", counted(u64::from(*most), "deviation")),
            Coverage::Part => f.write_str("not all"),
        }
    }
}

/// A number of things, as words.
fn counted(number: u64, thing: &str) -> String {
    format!("{number} {thing}{}", if number == 1 { "" } else { "s" })
}

/// What a search has done.
///
/// ```
/// let report = pukzarn::model(|sim| drop(sim.run()));
/// assert_eq!(report.schedules, 1);
/// assert!(report.to_string().contains("all interleavings"));
/// ```
#[derive(Clone, Copy, Debug, PartialEq, Eq)]
pub struct Report {
    /// How far it came.
    pub coverage: Coverage,
    /// What the threads were taken to share.
    pub shares: Shares,
    /// The most threads of a schedule: the tracer's, and one for each tracee that a closure plays.
    pub threads: u64,
    /// How often `forget` was called: the coverage holds as far as what was said there does.
    pub forgets: u64,
    /// The schedules that were run.
    pub schedules: u64,
    /// Those that were left early, at a situation that another had been in.
    pub left_early: u64,
    /// The most situations that were remembered at once: each number of deviations begins anew.
    pub situations: u64,
    /// The most bytes that they took.
    pub situation_bytes: u64,
    /// The steps of all schedules.
    pub steps: u64,
    /// The steps of the longest.
    pub longest: u64,
    /// How long it took.
    pub time: Duration,
}

impl fmt::Display for Report {
    fn fmt(&self, f: &mut fmt::Formatter<'_>) -> fmt::Result {
        write!(f, "{}", self.coverage)?;
        if self.forgets > 0 {
            f.write_str(", as far as `forget` holds")?;
        }
        if self.shares == Shares::Sync {
            f.write_str(", if threads share only what is of pukzarn::sync")?;
        }
        let (schedules, steps) = (counted(self.schedules, "schedule"), counted(self.steps, "step"));
        write!(f, ": {schedules}, {steps}, {:.2?}", self.time)
    }
}

/// A schedule that fails.
///
/// ```
/// let failure = pukzarn::Builder::new()
///     .explore(|sim| {
///         sim.tracer("main", || panic!("a bug"));
///         sim.run();
///     })
///     .unwrap_err();
/// assert_eq!(failure.cause, "thread `main` panicked: a bug");
/// ```
#[derive(Clone, Debug)]
pub struct Failure {
    /// What failed.
    pub cause: String,
    /// The calls, in the words of `tracer explore`.
    pub steps: Vec<String>,
    /// What PUKZARN_SCHEDULE has to be to run it again: the test's name, which of its models, and the decisions. Empty
    /// where no schedule failed, but not all were tried, or the test did not run its simulation any more.
    pub schedule: String,
    /// The decisions that were not the first one.
    pub deviations: u32,
    /// What was searched until then.
    pub report: Box<Report>,
}

impl Failure {
    /// Which schedule of the search it is, and how long.
    ///
    /// ```
    /// let failure = pukzarn::Builder::new()
    ///     .explore(|sim| {
    ///         sim.tracer("main", || panic!("a bug"));
    ///         sim.run();
    ///     })
    ///     .unwrap_err();
    /// assert_eq!(failure.summary(), "schedule 1 of the search: 0 steps, 0 deviations");
    /// ```
    pub fn summary(&self) -> String {
        let steps = counted(self.steps.len() as u64, "step");
        let deviations = counted(u64::from(self.deviations), "deviation");
        format!("schedule {} of the search: {steps}, {deviations}", self.report.schedules)
    }

    /// The line that runs this schedule again.
    ///
    /// ```
    /// let failing = |sim: &pukzarn::Sim| {
    ///     sim.run();
    ///     panic!("a bug");
    /// };
    /// let failure = pukzarn::Builder::new().explore(failing).unwrap_err();
    /// assert!(failure.command().starts_with("PUKZARN_SCHEDULE='"));
    /// ```
    pub fn command(&self) -> String {
        let test = self.schedule.rsplit_once('#').map_or("", |(test, _)| test);
        format!("PUKZARN_SCHEDULE='{}' cargo test {test} -- --exact", self.schedule)
    }

    /// The cause in short, for the end of a text that is longer than a screen, above which the cause stands. None where
    /// the steps are few.
    ///
    /// ```
    /// let mut failure = pukzarn::Builder::new().explore(|_| panic!("a bug\nand more")).unwrap_err();
    /// assert_eq!(failure.cause_again(), None);
    /// failure.steps = vec!["main       wait any 0: 100 stop 1 0x80057f".to_string(); 40];
    /// assert_eq!(failure.cause_again().unwrap(), "the cause, as above: the test panicked: a bug ..");
    /// ```
    pub fn cause_again(&self) -> Option<String> {
        if self.steps.len() < MANY_STEPS {
            return None;
        }
        let short: String = self.cause.lines().next().unwrap_or_default().chars().take(SHORT_CAUSE).collect();
        let more = if short.len() < self.cause.len() { " .." } else { "" };
        Some(format!("the cause, as above: {short}{more}"))
    }
}

/// The steps of a schedule as they are printed: one a line, indented.
pub(super) fn lines_of(steps: &[String]) -> String {
    steps.iter().map(|step| format!("  {step}\n")).collect()
}

/// A failure of so many steps may be longer than a screen.
const MANY_STEPS: usize = 20;
/// The characters of a cause in short.
const SHORT_CAUSE: usize = 100;

impl fmt::Display for Failure {
    fn fmt(&self, f: &mut fmt::Formatter<'_>) -> fmt::Result {
        write!(f, "{}", self.cause)?;
        if self.schedule.is_empty() {
            return Ok(());
        }
        write!(f, "\n{}", lines_of(&self.steps))?;
        writeln!(f, "{}; to run it again:", self.summary())?;
        write!(f, "  {}", self.command())?;
        self.cause_again().map_or(Ok(()), |cause| write!(f, "\n{cause}"))
    }
}

impl std::error::Error for Failure {}
