//! A small program of two threads of a tracer over one or two tracees.

use pukzarn::sync::atomic::{AtomicUsize, Ordering::SeqCst};
use pukzarn::sync::{Condvar, Mutex, RwLock, mpsc};
use pukzarn::sys::ptrace::{self, Options};
use pukzarn::sys::wait::{Id, WaitPidFlag, WaitStatus, waitid, waitpid};
use pukzarn::unistd::Pid;
use pukzarn::{End, Row, Sim, Stop, thread};
use std::sync::Arc;

#[derive(Clone, Copy, Debug)]
pub enum Step {
    Wait,
    Poll,
    Look,
    Restart,
    Interrupt,
    Kill,
    TraceExits,
    Lock,
    TryLock,
    Read,
    Write,
    Add,
    Send,
    TryReceive,
    Notify,
    WaitNotified,
    Spawn,
    Pause,
}

const STEPS: [Step; 18] = [
    Step::Wait,
    Step::Poll,
    Step::Look,
    Step::Restart,
    Step::Interrupt,
    Step::Kill,
    Step::TraceExits,
    Step::Lock,
    Step::TryLock,
    Step::Read,
    Step::Write,
    Step::Add,
    Step::Send,
    Step::TryReceive,
    Step::Notify,
    Step::WaitNotified,
    Step::Spawn,
    Step::Pause,
];

/// What each thread was answered, and how the run ended.
pub type Outcome = (Vec<Vec<String>>, End);

#[derive(Clone, Debug)]
pub struct Program {
    threads: [Vec<Step>; 2],
    kills: bool,
    second_tracee: bool,
    eintrs: u32,
}

#[derive(Default)]
struct Shared {
    mutex: Mutex<u32>,
    flag: Mutex<()>,
    condvar: Condvar,
    lock: RwLock<u32>,
    atomic: AtomicUsize,
}

impl Program {
    pub fn random(seed: u64) -> Program {
        let mut word = seed.wrapping_mul(0x9E37_79B9_7F4A_7C15);
        let mut below = |most: usize| {
            word ^= word << 13;
            word ^= word >> 7;
            word ^= word << 17;
            (word >> 20) as usize % most
        };
        // Waits and restarts are half of all steps.
        let mut step = || match below(4) {
            0 => Step::Wait,
            1 => Step::Restart,
            _ => STEPS[below(STEPS.len())],
        };
        let threads = [[step(), step(), step()].to_vec(), [step(), step()].to_vec()];
        let (kills, second_tracee, eintrs) = (below(2) == 0, below(3) == 0, below(4) as u32 / 3);
        Program { threads, kills, second_tracee, eintrs }
    }

    pub fn run(&self, sim: &Sim) -> Outcome {
        if self.kills {
            sim.kills();
        }
        sim.eintrs(self.eintrs);
        sim.tracee(Row::root(100), |tracee| {
            tracee.stop(Stop::Start)?;
            tracee.call(39, [0; 6], 100)
        });
        if self.second_tracee {
            sim.case("tracee 200 200 200 0\nexit 3\nend\n").expect("the case is right");
        }
        let shared = Arc::new(Shared::default());
        let (sender, receiver) = mpsc::channel();
        let mut receiver = Some(receiver);
        let answers: Vec<_> = self.threads.iter().map(|_| Arc::new(std::sync::Mutex::new(Vec::new()))).collect();
        for (number, steps) in self.threads.iter().enumerate() {
            let (steps, answers) = (steps.clone(), answers[number].clone());
            let mut actor = Actor {
                shared: shared.clone(),
                sender: sender.clone(),
                receiver: receiver.take(),
                kills: self.kills,
                held: Vec::new(),
            };
            sim.tracer(&number.to_string(), move || {
                for step in steps {
                    let answer = actor.make(step);
                    answers.lock().unwrap().push(answer);
                }
            });
        }
        drop(sender);
        let end = sim.run();
        (answers.iter().map(|answers| answers.lock().unwrap().clone()).collect(), end)
    }
}

/// A thread of the program.
struct Actor {
    shared: Arc<Shared>,
    sender: mpsc::Sender<u32>,
    receiver: Option<mpsc::Receiver<u32>>,
    kills: bool,
    /// The tracees whose stops it was answered.
    held: Vec<Pid>,
}

impl Actor {
    fn make(&mut self, step: Step) -> String {
        match step {
            Step::Wait => self.wait(WaitPidFlag::empty()),
            Step::Poll => self.wait(WaitPidFlag::WNOHANG),
            Step::Look | Step::Restart | Step::Interrupt | Step::Kill | Step::TraceExits => self.of_tracee(step),
            _ => self.of_shared(step),
        }
    }

    fn wait(&mut self, flags: WaitPidFlag) -> String {
        let answer = waitpid(None, Some(flags));
        match answer {
            Ok(WaitStatus::Exited(..) | WaitStatus::Signaled(..) | WaitStatus::StillAlive) | Err(_) => {}
            Ok(stop) => self.held.extend(stop.pid()),
        }
        format!("{answer:?}")
    }

    fn of_tracee(&mut self, step: Step) -> String {
        let pid = Pid::from_raw(100);
        let looks = WaitPidFlag::WEXITED | WaitPidFlag::WSTOPPED | WaitPidFlag::WNOWAIT | WaitPidFlag::WNOHANG;
        match step {
            Step::Look => format!("{:?}", waitid(Id::All, looks)),
            Step::Restart => format!("{:?}", self.held.pop().map(|pid| ptrace::syscall(pid, None))),
            Step::Interrupt => format!("{:?}", ptrace::interrupt(pid)),
            Step::Kill if self.kills => format!("{:?}", ptrace::kill(pid)),
            Step::TraceExits => format!("{:?}", ptrace::seize(pid, Options::PTRACE_O_TRACEEXIT)),
            _ => String::new(),
        }
    }

    fn of_shared(&mut self, step: Step) -> String {
        let shared = &self.shared;
        match step {
            Step::Lock => add(&mut shared.mutex.lock().unwrap()),
            Step::TryLock => shared.mutex.try_lock().map_or_else(|_| "held".into(), |mut held| add(&mut held)),
            Step::Read => shared.lock.read().unwrap().to_string(),
            Step::Write => add(&mut shared.lock.write().unwrap()),
            Step::Add => shared.atomic.fetch_add(1, SeqCst).to_string(),
            Step::Send => format!("{:?}", self.sender.send(7)),
            Step::TryReceive => format!("{:?}", self.receiver.as_ref().map(mpsc::Receiver::try_recv)),
            Step::Notify => {
                shared.condvar.notify_one();
                String::new()
            }
            Step::WaitNotified => {
                drop(shared.condvar.wait(shared.flag.lock().unwrap()).unwrap());
                String::new()
            }
            Step::Spawn => {
                let shared = shared.clone();
                let spawned = thread::spawn(move || shared.atomic.fetch_add(10, SeqCst));
                format!("{:?}", spawned.join().expect("it ends"))
            }
            _ => {
                thread::yield_now();
                String::new()
            }
        }
    }
}

fn add(value: &mut u32) -> String {
    *value += 1;
    value.to_string()
}
