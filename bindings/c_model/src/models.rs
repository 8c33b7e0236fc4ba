//! Models of tests in C: how each is searched, and what is printed of it.

use crate::exports::watch_exits;
use crate::place::{self, Place, fail, place};
use crate::threads::Threads;
use crate::words::in_c;
use pukzarn::sys::ptrace::Options;
use pukzarn::{Builder, Deadlocks, Effort, End, Failure, FirstStop, Phase, Report, Shares, Sim};
use std::any::Any;
use std::cell::RefCell;
use std::ffi::{c_int, c_uint};
use std::sync::{Arc, Once};
use std::thread;

/// `struct pukzarn_bounds` of the header.
#[repr(C)]
#[derive(Clone, Copy, Debug)]
pub(crate) struct Bounds {
    schedules: u64,
    deviations: u32,
    reach: u32,
    shares: u32,
    deadlocks: u32,
}

const WIDENING: u32 = u32::MAX;

impl Bounds {
    /// `PUKZARN_BOUNDS`.
    pub(crate) const FIRST: Bounds = Bounds { schedules: 0, deviations: WIDENING, reach: 0, shares: 0, deadlocks: 0 };

    /// The builder of these bounds; the error says what has no meaning.
    fn builder(&self) -> Result<Builder, String> {
        let mut builder = Builder::new();
        if self.schedules != 0 {
            builder.max_schedules = self.schedules;
        }
        if self.deviations != WIDENING {
            builder.deviations = Some(self.deviations);
        }
        builder.effort = one_of("reach", self.reach, [Effort::Bounded, Effort::All])?;
        builder.shares = one_of("shares", self.shares, [Shares::Memory, Shares::Sync])?;
        builder.deadlocks = one_of("deadlocks", self.deadlocks, [Deadlocks::Fail, Deadlocks::End])?;
        Ok(builder)
    }
}

/// What a number of the header stands for.
fn one_of<T: Copy>(field: &str, number: u32, all: [T; 2]) -> Result<T, String> {
    let found = all.get(number as usize).copied();
    found.ok_or_else(|| format!("{number} is no {field} of struct pukzarn_bounds"))
}

/// What a test adds to one run.
pub(crate) struct Simulation<'a> {
    pub(crate) sim: &'a Sim,
    pub(crate) threads: Arc<Threads>,
    end: RefCell<Option<End>>,
}

impl<'a> Simulation<'a> {
    fn new(sim: &'a Sim) -> Simulation<'a> {
        Simulation { sim, threads: Arc::default(), end: RefCell::default() }
    }

    pub(crate) fn options(&self, bits: c_uint) {
        match Options::from_bits(bits.cast_signed()) {
            Some(options) => self.sim.options(options),
            None => fail(format!("pukzarn_sim_options: {bits:#x} has bits of no option")),
        }
    }

    pub(crate) fn first_stops(&self, number: c_uint) {
        match number {
            0 => self.sim.first_stops(FirstStop::Event),
            1 => self.sim.first_stops(FirstStop::Sigstop),
            _ => fail(format!("pukzarn_sim_first_stops: {number} is no first stop")),
        }
    }

    /// Answers how many tracees are left.
    pub(crate) fn run(&self) -> c_int {
        let end = self.sim.run();
        let is_left = |tracee: &&(u32, Phase)| !matches!(tracee.1, Phase::Unborn | Phase::Reaped);
        let left = end.tracees.iter().filter(is_left).count();
        self.end.replace(Some(end));
        left as c_int
    }

    /// The phase of a tracee, by the numbers of pukzarn.h.
    pub(crate) fn phase(&self, tid: i32) -> u32 {
        let end = self.end.borrow();
        let Some(end) = &*end else {
            fail("pukzarn_sim_phase is called before pukzarn_sim_run".to_string());
        };
        match end.phase(tid.cast_unsigned()) {
            None => 0,
            Some(Phase::Unborn) => 1,
            Some(Phase::Running) => 2,
            Some(Phase::Stopped) => 3,
            Some(Phase::Claimed { .. }) => 4,
            Some(Phase::Dead) => 5,
            Some(Phase::Reaped) => 6,
        }
    }
}

thread_local! {
    static PRINTED: RefCell<String> = const { RefCell::new(String::new()) };
}

/// What the last model of this thread printed.
pub(crate) fn printed() -> String {
    PRINTED.with_borrow(Clone::clone)
}

/// Runs a model, prints what it found, and answers whether a schedule failed.
pub(crate) fn run(bounds: Bounds, name: &str, test: impl Fn(&Simulation<'_>) + Send) -> c_int {
    if place() != Place::Outside {
        fail(format!("the model {name} is run within a test"));
    }
    let (code, found) = match search(bounds, name, test) {
        Ok(report) => (0, report),
        Err(failure) => (1, failure),
    };
    let text = format!("pukzarn: {name}: {found}\n");
    eprint!("{text}");
    PRINTED.set(text);
    code
}

/// Searches in a thread of the test's name, by which the crate knows the test. Answers what it reports.
fn search(bounds: Bounds, name: &str, test: impl Fn(&Simulation<'_>) + Send) -> Result<String, String> {
    prepare();
    let of_schedule = move |sim: &Sim| place::at(Place::Test, || test(&Simulation::new(sim)));
    let body = move || {
        let builder = bounds.builder()?;
        let report = builder.explore(of_schedule).map_err(|failure| of_failure(&failure))?;
        Ok(of_report(&builder, &report))
    };
    let searched = thread::scope(|scope| {
        let started = thread::Builder::new().name(name.to_string()).spawn_scoped(scope, body);
        started.map(|thread| thread.join())
    });
    match searched {
        Ok(Ok(found)) => found,
        Ok(Err(panic)) => Err(of_panic(&*panic)),
        Err(error) => Err(format!("its thread cannot be started: {error}")),
    }
}

/// The model prints why a schedule failed, so the threads of one need not; and an exit within one is no success.
fn prepare() {
    static ONCE: Once = Once::new();
    ONCE.call_once(|| {
        watch_exits();
        let others = std::panic::take_hook();
        std::panic::set_hook(Box::new(move |panic| {
            if place() == Place::Outside {
                others(panic);
            }
        }));
    });
}

fn of_panic(panic: &(dyn Any + Send)) -> String {
    let text = panic.downcast_ref::<&str>().map(ToString::to_string);
    text.or_else(|| panic.downcast_ref::<String>().cloned()).unwrap_or_else(|| "a panic without a text".to_string())
}

/// How far a model came, and where it left something out, what would have more tried.
fn of_report(builder: &Builder, report: &Report) -> String {
    let advice = builder.advice(report).map_or(String::new(), |advice| format!(". {advice}"));
    in_c(&format!("{report}{advice}"))
}

/// What failed, its steps, and the line that runs this program's schedule again, where it is one.
fn of_failure(failure: &Failure) -> String {
    let mut text = in_c(&failure.cause);
    for step in &failure.steps {
        text += &format!("\n  {step}");
    }
    if failure.schedule.is_empty() {
        return text;
    }
    text += &format!(
        "\n{}; to run it again:\n  PUKZARN_SCHEDULE='{}'{}",
        failure.summary(),
        failure.schedule,
        command_line()
    );
    if let Some(cause) = failure.cause_again() {
        text += &format!("\n{}", in_c(&cause));
    }
    text
}

/// The words that this program was started with, each after a space, in quotes where a shell needs them.
fn command_line() -> String {
    let is_plain = |word: &str| word.bytes().all(|byte| byte.is_ascii_alphanumeric() || b"/._-=+:".contains(&byte));
    let quoted = |word: String| if is_plain(&word) { word } else { format!("'{}'", word.replace('\'', r"'\''")) };
    std::env::args_os().map(|word| format!(" {}", quoted(word.to_string_lossy().into_owned()))).collect()
}

/// Fails the schedule, or ends the program, where what only a thread of a simulation has is called in another one.
pub(crate) fn in_simulation(call: &str) {
    if place() != Place::Simulation {
        fail(format!("{call} is called by a thread that is in no simulation"));
    }
}
