//! What a test declares: tracees, the tracer's threads, and a run of them.

use crate::context::{Body, World};
use crate::end::End;
use crate::library::{Case, CaseRefused, Machine, RestartNumbers, RowNumbers, StopNumbers, kind};
use crate::row::Row;
use crate::stop::FirstStop;
use crate::sys::ptrace::Options;
use crate::sys::signal::Signal;
use crate::tracee::{Play, Tracee};
use crate::{Errno, Result};
use std::cell::RefCell;
use std::fmt;

/// One simulation: what a test declares before it runs.
///
/// ```
/// use pukzarn::sys::{ptrace, wait};
///
/// let case = "tracee 100 100 100 0\ncall getpid = 100\nexit 0\nend\n";
/// pukzarn::model(|sim| {
///     sim.case(case).unwrap();
///     sim.tracer("main", || {
///         while let Ok(status) = wait::wait() {
///             let _ = ptrace::cont(status.pid().unwrap(), None);
///         }
///     });
///     sim.run().assert_all_reaped();
/// });
/// ```
pub struct Sim {
    declared: RefCell<Declared>,
    world: Box<dyn World>,
}

/// What a tracee follows.
pub(crate) enum Follows {
    Closure(Play),
    Script(Machine),
}

/// Whether a tracee may be killed: then each ptrace call is a step, since the stop may be gone.
#[derive(Clone, Copy, Debug, PartialEq, Eq)]
pub(crate) enum Kills {
    Never,
    MayHappen,
}

/// All that a test has declared.
pub(crate) struct Declared {
    pub(crate) rows: Vec<RowNumbers>,
    pub(crate) tracees: Vec<Follows>,
    pub(crate) tracers: Vec<(String, Body)>,
    /// The options of each tracee at first.
    pub(crate) options: u32,
    pub(crate) first_stop: FirstStop,
    pub(crate) kills: Kills,
    /// How many waits may be interrupted.
    pub(crate) eintrs: u32,
    /// The one tracer that restarts, where there is one.
    pub(crate) only_tracer: Option<String>,
}

/// PTRACE_O_TRACESYSGOOD, TRACEFORK, TRACECLONE and TRACEEXEC.
const FIRST_OPTIONS: u32 = 0x1b;

impl Declared {
    fn nothing() -> Declared {
        Declared {
            rows: Vec::new(),
            tracees: Vec::new(),
            tracers: Vec::new(),
            options: FIRST_OPTIONS,
            first_stop: FirstStop::Event,
            kills: Kills::Never,
            eintrs: 0,
            only_tracer: None,
        }
    }

    /// Forgets all, and keeps the room of the lists.
    pub(crate) fn clear(&mut self) {
        let mut before = std::mem::replace(self, Declared::nothing());
        before.rows.clear();
        before.tracees.clear();
        before.tracers.clear();
        (self.rows, self.tracees, self.tracers) = (before.rows, before.tracees, before.tracers);
    }
}

impl Sim {
    pub(crate) fn new(world: Box<dyn World>) -> Sim {
        Sim { declared: RefCell::new(Declared::nothing()), world }
    }

    /// What was declared, which is then no more there.
    pub(crate) fn take_declared(&self) -> Declared {
        self.declared.replace(Declared::nothing())
    }

    /// What a test is told that has declared what it has not run.
    pub(crate) fn not_run(&self) -> Option<String> {
        let declared = self.declared.borrow();
        let is_nothing = declared.rows.is_empty() && declared.tracers.is_empty();
        (!is_nothing).then(|| {
            "the test declares tracees or threads that it does not run: `Sim::run` has to come after them".to_string()
        })
    }

    /// Calls with what is declared.
    pub(crate) fn with_declared<T>(&self, call: impl FnOnce(&mut Declared) -> T) -> T {
        call(&mut self.declared.borrow_mut())
    }

    /// The tracees of a case file, each of which follows its script.
    ///
    /// # Errors
    /// The first faulty line.
    ///
    /// ```
    /// pukzarn::model(|sim| {
    ///     let fault = sim.case("tracee 100 100 100 0\ncall nothing\n").unwrap_err();
    ///     assert_eq!(fault.line, 2);
    /// });
    /// ```
    pub fn case(&self, text: &str) -> std::result::Result<(), CaseFault> {
        with_case(text, |case| {
            let rows = case.rows();
            let machines: Result<Vec<Machine>> = (0..rows.len()).map(|row| case.machine(row)).collect();
            let machines = machines.unwrap_or_else(|errno| panic!("pukzarn: a machine cannot be opened: {errno}"));
            let mut declared = self.declared.borrow_mut();
            declared.rows.extend(rows);
            declared.tracees.extend(machines.into_iter().map(Follows::Script));
        })
    }

    /// A tracee that a closure plays. It exits with 0 where the closure returns without an exit.
    ///
    /// A parent is declared before its children, and siblings in the order of their creation.
    ///
    /// ```
    /// use pukzarn::Row;
    ///
    /// pukzarn::model(|sim| {
    ///     sim.tracee(Row::root(100), |_| Ok(()));
    ///     sim.tracer("main", || drop(pukzarn::sys::wait::wait()));
    ///     sim.run().assert_all_reaped();
    /// });
    /// ```
    pub fn tracee(&self, row: Row, body: impl FnOnce(&mut Tracee) -> Result<()> + Send + 'static) {
        let mut declared = self.declared.borrow_mut();
        declared.rows.push(row.numbers());
        declared.tracees.push(Follows::Closure(Box::new(body)));
    }

    /// A thread of the tracer, and the name that reports have for it.
    ///
    /// ```
    /// pukzarn::model(|sim| {
    ///     sim.tracer("main", || assert!(pukzarn::sys::wait::wait().is_err()));
    ///     sim.run();
    /// });
    /// ```
    pub fn tracer(&self, name: &str, body: impl FnOnce() + Send + 'static) {
        self.declared.borrow_mut().tracers.push((name.to_string(), Box::new(body)));
    }

    /// The options that each tracee has at first, until a tracer sets others; without it, TRACESYSGOOD, TRACEFORK,
    /// TRACECLONE and TRACEEXEC. A child has those of its parent.
    ///
    /// ```
    /// use pukzarn::sys::ptrace::Options;
    ///
    /// pukzarn::model(|sim| {
    ///     sim.options(Options::PTRACE_O_TRACESYSGOOD | Options::PTRACE_O_TRACEEXIT);
    ///     sim.run();
    /// });
    /// ```
    pub fn options(&self, options: Options) {
        self.declared.borrow_mut().options = options.bits() as u32;
    }

    /// What the first stop of each tracee is, of a script or of a closure (`Stop::Start`); without it, the event.
    ///
    /// A tracer by PTRACE_TRACEME or PTRACE_ATTACH sees SIGSTOP, also of the children that its options attach.
    ///
    /// ```
    /// use pukzarn::FirstStop;
    /// use pukzarn::sys::signal::Signal;
    /// use pukzarn::sys::{ptrace, wait};
    ///
    /// pukzarn::model(|sim| {
    ///     sim.first_stops(FirstStop::Sigstop);
    ///     sim.case("tracee 100 100 100 0\nexit 0\nend\n").unwrap();
    ///     sim.tracer("main", || {
    ///         let status = wait::wait().unwrap();
    ///         let pid = status.pid().unwrap();
    ///         assert_eq!(status, wait::WaitStatus::Stopped(pid, Signal::SIGSTOP));
    ///         ptrace::cont(pid, None).unwrap();
    ///         wait::wait().unwrap();
    ///     });
    ///     sim.run().assert_all_reaped();
    /// });
    /// ```
    pub fn first_stops(&self, first_stop: FirstStop) {
        self.declared.borrow_mut().first_stop = first_stop;
    }

    /// Some thread may kill a tracee, or a tracee ends its thread group: each ptrace call is then a step of its own,
    /// since the stop may be gone. In a model alone.
    ///
    /// It kills nobody by itself. A further thread of the tracer does, as in the example, or the tracer's own code, or
    /// a tracee's `exit_group`. `only_tracer` goes with it where threads of the tracer kill: they then restart nobody,
    /// as on Linux.
    ///
    /// ```
    /// use pukzarn::sys::signal::{Signal, kill};
    /// use pukzarn::sys::{ptrace, wait};
    /// use pukzarn::unistd::Pid;
    ///
    /// pukzarn::model(|sim| {
    ///     sim.kills();
    ///     sim.only_tracer("main");
    ///     sim.case("tracee 100 100 100 0\nexit 0\nend\n").unwrap();
    ///     sim.tracer("killer", || { let _ = kill(Pid::from_raw(100), Signal::SIGKILL); });
    ///     sim.tracer("main", || {
    ///         while let Ok(status) = wait::wait() {
    ///             let _ = ptrace::cont(status.pid().unwrap(), None);
    ///         }
    ///     });
    ///     sim.run().assert_all_reaped();
    /// });
    /// ```
    pub fn kills(&self) {
        self.declared.borrow_mut().kills = Kills::MayHappen;
    }

    /// At most so many waits that block may be answered EINTR, as by a signal that the tracer handles.
    ///
    /// ```
    /// use pukzarn::Errno;
    /// use pukzarn::sys::wait::wait;
    ///
    /// pukzarn::model(|sim| {
    ///     sim.eintrs(1);
    ///     sim.case("tracee 100 100 100 0\nexit 0\nend\n").unwrap();
    ///     sim.tracer("main", || {
    ///         while !matches!(wait(), Err(Errno::ECHILD)) {
    ///             let _ = pukzarn::sys::ptrace::cont(pukzarn::unistd::Pid::from_raw(100), None);
    ///         }
    ///     });
    ///     sim.run().assert_all_reaped();
    /// });
    /// ```
    pub fn eintrs(&self, most: u32) {
        self.declared.borrow_mut().eintrs = most;
    }

    /// As on Linux: the tracer's thread of this name traces all tracees. The waits of every thread may be answered, but
    /// this one alone restarts a tracee or sees its registers; for all others that is ESRCH. Without it, the thread
    /// that was answered a stop does.
    ///
    /// ```
    /// use pukzarn::sys::{ptrace, wait};
    ///
    /// pukzarn::model(|sim| {
    ///     sim.only_tracer("main");
    ///     sim.case("tracee 100 100 100 0\nexit 0\nend\n").unwrap();
    ///     sim.tracer("main", || {
    ///         while let Ok(status) = wait::wait() {
    ///             let _ = ptrace::cont(status.pid().unwrap(), None);
    ///         }
    ///     });
    ///     sim.run().assert_all_reaped();
    /// });
    /// ```
    pub fn only_tracer(&self, name: &str) {
        self.declared.borrow_mut().only_tracer = Some(name.to_string());
    }

    /// Runs all of them to their ends, once.
    ///
    /// ```
    /// use pukzarn::{Phase, Row};
    ///
    /// pukzarn::model(|sim| {
    ///     sim.tracee(Row::root(100), |_| Ok(()));
    ///     let end = sim.run();
    ///     assert_eq!(end.phase(100), Some(Phase::Dead));
    /// });
    /// ```
    pub fn run(&self) -> End {
        self.world.run(self)
    }
}

/// Why a case file is refused.
///
/// ```
/// pukzarn::model(|sim| {
///     let fault = sim.case("tracee 0 0 0 0\n").unwrap_err();
///     assert!(fault.to_string().starts_with("line 1: "));
/// });
/// ```
#[derive(Clone, Debug, PartialEq, Eq)]
pub struct CaseFault {
    /// Its first faulty line, from 1.
    pub line: u32,
    /// The cause, as the library names it.
    pub cause: String,
}

impl fmt::Display for CaseFault {
    fn fmt(&self, f: &mut fmt::Formatter<'_>) -> fmt::Result {
        write!(f, "line {}: {}", self.line, self.cause)
    }
}

impl std::error::Error for CaseFault {}

thread_local! {
    /// The cases that this thread has read last: a model declares the same in each schedule.
    static CASES: RefCell<Vec<(String, Case)>> = const { RefCell::new(Vec::new()) };
}

const CASES_KEPT: usize = 8;

fn with_case<T>(text: &str, call: impl FnOnce(&mut Case) -> T) -> std::result::Result<T, CaseFault> {
    CASES.with_borrow_mut(|cases| {
        let at = match cases.iter().position(|(known, _)| known == text) {
            Some(at) => at,
            None => {
                let case = Case::open(text.as_bytes()).map_err(fault_of)?;
                cases.truncate(CASES_KEPT - 1);
                cases.insert(0, (text.to_string(), case));
                0
            }
        };
        Ok(call(&mut cases[at].1))
    })
}

fn fault_of(refused: CaseRefused) -> CaseFault {
    match refused {
        CaseRefused::Faulty(line, cause) => CaseFault { line, cause },
        CaseRefused::Other(errno) => panic!("pukzarn: a case cannot be read: {errno}"),
    }
}

/// The options that a machine takes of those that a tracer sets: without those that change nothing here (EXITKILL, and
/// the two of vfork).
pub(crate) fn machine_options(options: u32) -> u32 {
    const WITHOUT_EFFECT: u32 = 0x0010_0000 | 0x4 | 0x20;
    options & !WITHOUT_EFFECT
}

/// What a test is told whose tracer sets options that a scripted tracee does not take.
pub(crate) fn options_refused(options: u32, errno: Errno) -> String {
    format!(
        "pukzarn: options {options:#x} of a scripted tracee are not simulated ({errno}): they need TRACESYSGOOD, and \
         TRACEFORK and TRACECLONE together, from before its first child on; a tracee of a closure (in Rust) takes any"
    )
}

/// Whether a restart hands on the SIGSTOP that the last stop is of: the tracee would stop again, with its group.
pub(crate) fn is_group_stop(last: StopNumbers, how: RestartNumbers) -> bool {
    const SIGSTOP: u32 = Signal::SIGSTOP as u32;
    how.signal == SIGSTOP && last == StopNumbers { kind: kind::SIGNAL, value: SIGSTOP }
}

/// What a test is told whose tracer hands a scripted tracee the SIGSTOP of its first stop.
pub(crate) fn group_stop_refused(tid: u32) -> String {
    format!(
        "pukzarn: the restart of tracee {tid} hands on the SIGSTOP of its first stop: on Linux its thread group then \
         stops by it, a group-stop, which is not simulated. Hand on no signal at the first stop"
    )
}
