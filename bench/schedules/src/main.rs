//! What a schedule of a model costs: the time that it takes, beside that of the same number of hand-overs of a plain
//! baton between threads of std alone. Both are measured in turn, in one run, on one processor: `make bench-rust` gives
//! the program one.

use pukzarn::sys::ptrace;
use pukzarn::sys::wait::{WaitStatus, waitpid};
use pukzarn::{Builder, Death, Row, Shares, Sim, Stop, Threads};
use std::cell::Cell;
use std::sync::Arc;
use std::sync::atomic::{AtomicBool, AtomicU64, AtomicUsize, Ordering};
use std::time::{Duration, Instant};

/// A schedule may take so many times what its hand-overs take at least.
const LIMIT: f64 = 1.5;
const SCHEDULES: u64 = 10_000;
const TURNS: usize = 7;

/// Who ran last, and how often another ran than before.
static LAST: AtomicUsize = AtomicUsize::new(0);
static HAND_OVERS: AtomicU64 = AtomicU64::new(0);

/// Says that this thread runs: 0 is the one that runs the model.
fn runs(me: usize) {
    if LAST.swap(me, Ordering::Relaxed) != me {
        HAND_OVERS.fetch_add(1, Ordering::Relaxed);
    }
}

/// A process of one call, whose thread says that it runs after each of its calls.
fn process(sim: &Sim, tid: u32, me: usize) {
    sim.tracee(Row::root(tid), move |tracee| {
        runs(me);
        for stop in [Stop::Start, Stop::Enter, Stop::Exit] {
            tracee.stop(stop)?;
            runs(me);
        }
        tracee.exit(Death::Exited(0));
        runs(me);
        Ok(())
    });
}

/// One tracer, and two processes of one call each.
fn one_tracer(sim: &Sim) {
    process(sim, 100, 1);
    process(sim, 200, 2);
    sim.tracer("main", || {
        runs(3);
        while let Ok(status) = waitpid(None, None) {
            runs(3);
            if !matches!(status, WaitStatus::Exited(..)) {
                ptrace::syscall(status.pid().expect("a stop is of a tracee"), None).expect("it was claimed");
                runs(3);
            }
        }
        runs(3);
    });
    sim.run();
    runs(0);
}

/// The same processes as scripts, which have no threads.
fn one_tracer_over_scripts(sim: &Sim) {
    for tid in [100, 200] {
        sim.case(&format!("tracee {tid} {tid} {tid} 0\ncall getpid = 1\nend\n")).expect("the case is right");
    }
    sim.tracer("main", || {
        while let Ok(status) = waitpid(None, None) {
            if !matches!(status, WaitStatus::Exited(..)) {
                ptrace::syscall(status.pid().expect("a stop is of a tracee"), None).expect("it was claimed");
            }
        }
    });
    sim.run();
}

fn builder(threads: Threads, shares: Shares) -> Builder {
    Builder { threads, shares, max_schedules: SCHEDULES, schedule: None, ..Builder::new() }
}

struct Measured {
    schedules: u64,
    steps: u64,
    hand_overs: u64,
    time: Duration,
}

impl Measured {
    fn print(&self, what: &str) {
        let seconds = self.time.as_secs_f64();
        let (schedules, steps) = (self.schedules as f64 / seconds, self.steps as f64 / seconds);
        println!("{what}: {} schedules, {schedules:.0} schedules/s, {steps:.0} steps/s", self.schedules);
    }
}

fn measure(builder: &Builder, test: impl Fn(&Sim)) -> Measured {
    let before = HAND_OVERS.load(Ordering::Relaxed);
    let started = Instant::now();
    let report = builder.explore(test).expect("the tracer has no fault");
    let time = started.elapsed();
    let hand_overs = HAND_OVERS.load(Ordering::Relaxed) - before;
    Measured { schedules: report.schedules, steps: report.steps, hand_overs, time }
}

/// The time of the baton, on one processor as a model is: by the usual policy of the scheduler, and by that of a
/// model's threads, in a model of no threads. The faster one counts.
fn time_of_baton(hand_overs: u64) -> Duration {
    let usual = hand_baton(hand_overs);
    let time = Cell::new(Duration::ZERO);
    let alone = Builder { schedule: None, ..Builder::new() };
    alone.explore(|_| time.set(hand_baton(hand_overs))).expect("nothing can fail");
    usual.min(time.get())
}

/// A baton that two threads hand to each other by parking and unparking, and nothing else.
fn hand_baton(hand_overs: u64) -> Duration {
    let mine = [Arc::new(AtomicBool::new(false)), Arc::new(AtomicBool::new(false))];
    let take = |flag: &AtomicBool| {
        while !flag.swap(false, Ordering::Acquire) {
            std::thread::park();
        }
    };
    let [here, there] = mine;
    let (back, forth) = (here.clone(), there.clone());
    let main = std::thread::current();
    let rounds = hand_overs.div_ceil(2);
    let other = std::thread::spawn(move || {
        for _ in 0..rounds {
            take(&forth);
            back.store(true, Ordering::Release);
            main.unpark();
        }
    });
    let started = Instant::now();
    for _ in 0..rounds {
        there.store(true, Ordering::Release);
        other.thread().unpark();
        take(&here);
    }
    let time = started.elapsed();
    other.join().expect("the other thread ends");
    time
}

fn main() {
    let reused = builder(Threads::Reused, Shares::Everything);
    let what = "one tracer, two processes of one call, threads that are used again";
    println!("{what}");
    let (mut of_models, mut of_batons) = (Vec::new(), Vec::new());
    for _ in 0..TURNS {
        let measured = measure(&reused, one_tracer);
        let baton = time_of_baton(measured.hand_overs);
        let each = measured.hand_overs as f64 / measured.schedules as f64;
        println!("  {:.2?}; {each:.1} hand-overs a schedule by a plain baton: {baton:.2?}", measured.time);
        of_models.push(measured);
        of_batons.push(baton);
    }
    // The turn that others on the machine have disturbed least.
    let fastest = of_models.iter().min_by_key(|measured| measured.time).expect("there were turns");
    let baton = of_batons.iter().min().expect("there were turns");
    fastest.print(what);
    measure(&reused, one_tracer_over_scripts).print("the same, by scripts, which have no threads");
    measure(&builder(Threads::Reused, Shares::Memory), one_tracer).print("the same, and situations remembered");
    measure(&builder(Threads::New, Shares::Everything), one_tracer).print("the same, new threads for each schedule");
    let ratio = fastest.time.as_secs_f64() / baton.as_secs_f64();
    println!(
        "a schedule takes {ratio:.2} times its hand-overs, the fastest of {TURNS} turns each; the limit is {LIMIT}"
    );
    if ratio > LIMIT {
        eprintln!("FAILED: above the limit");
        std::process::exit(1);
    }
}
