//! A program as the tracers and tracees of a model, and what came of it in the words of `explore`.

use crate::litmus::{Actor, Command, Line, Program, Thread, Whom};
use nix::errno::Errno;
use nix::sys::ptrace;
use nix::sys::wait::{Id, WaitPidFlag, WaitStatus, waitid, waitpid};
use nix::unistd::Pid;
use nix::{Death, End, Phase, Sim, Stop};
use std::sync::{Arc, Mutex};

/// What the threads were answered, in the order of the threads.
type Told = Arc<Mutex<Vec<Vec<String>>>>;

pub fn run(program: &Program, sim: &Sim) -> String {
    let told: Told = Arc::new(Mutex::new(vec![Vec::new(); program.threads.len()]));
    for row in &program.rows {
        let commands = program.commands_of(row.tid);
        sim.tracee(*row, move |tracee| {
            for command in commands {
                match command {
                    Command::Publish(stop) => tracee.stop(stop).map(drop)?,
                    Command::Exit(code) => tracee.exit(Death::Exited(code)),
                    other => unreachable!("a tracee has no {other:?}"),
                }
            }
            Ok(())
        });
    }
    let number = |place: &usize| match program.threads[*place].actor {
        Actor::Tracer(number) => Some(number),
        Actor::Tracee(_) => None,
    };
    let mut tracers: Vec<usize> = (0..program.threads.len()).filter(|place| number(place).is_some()).collect();
    tracers.sort_by_key(number);
    for place in tracers {
        let tracer = Tracer {
            thread: program.threads[place].clone(),
            stops: program.rows.iter().map(|row| (row.tid as i32, program.stops_of(row.tid))).collect(),
            told: told.clone(),
            place,
            it: None,
        };
        let name = tracer.thread.name.clone();
        sim.tracer(&name, move || tracer.run());
    }
    let end = sim.run();
    let told = told.lock().unwrap().clone();
    outcome(program, &told, &end)
}

struct Tracer {
    thread: Thread,
    /// How many stops each tracee makes.
    stops: Vec<(i32, usize)>,
    told: Told,
    place: usize,
    /// The tracee whose stop was claimed last.
    it: Option<Pid>,
}

impl Tracer {
    fn run(mut self) {
        for _ in 0..self.thread.rounds {
            for line in self.thread.lines.clone() {
                if self.step(&line) == "no child" && self.thread.rounds > 1 {
                    return;
                }
            }
        }
    }

    /// Makes the call of a line, and tells its answer; what was told before is that it waits.
    fn step(&mut self, line: &Line) -> String {
        let place = self.place;
        let tell = |told: &Told, answer: &str| told.lock().unwrap()[place].push(format!("{}: {answer}", line.text));
        tell(&self.told, waits(line.command));
        let answer = match line.command {
            Command::Wait { whom, blocks, keeps } => self.wait(whom, blocks, keeps),
            Command::ResumeIt => self.resume_it(),
            other => unreachable!("a tracer has no {other:?}"),
        };
        self.told.lock().unwrap()[place].pop();
        tell(&self.told, &answer);
        answer
    }

    fn resume_it(&mut self) -> String {
        match self.it.take() {
            Some(pid) => ptrace::cont(pid, None).map(|()| "resumed".into()).expect("its stop is claimed"),
            None => "nothing".into(),
        }
    }

    fn wait(&mut self, whom: Whom, blocks: bool, keeps: bool) -> String {
        let nohang = if blocks { WaitPidFlag::empty() } else { WaitPidFlag::WNOHANG };
        let pid = match whom {
            Whom::Any => -1,
            Whom::Tracee(pid) => pid,
            Whom::Group(group) => -group,
        };
        let answer = match (keeps, whom) {
            (false, _) => waitpid(Pid::from_raw(pid), Some(nohang)),
            (true, Whom::Tracee(pid)) => {
                let flags = WaitPidFlag::WEXITED | WaitPidFlag::WSTOPPED | WaitPidFlag::WNOWAIT | nohang;
                waitid(Id::Pid(Pid::from_raw(pid)), flags)
            }
            (true, whom) => unreachable!("no program looks at {whom:?}"),
        };
        self.it = answer.ok().filter(|status| !keeps && is_stop(*status)).and_then(|status| status.pid());
        self.words(whom, answer)
    }

    fn words(&self, whom: Whom, answer: Result<WaitStatus, Errno>) -> String {
        let of_one = matches!(whom, Whom::Tracee(_));
        match answer {
            Ok(WaitStatus::StillAlive) if of_one => "refused NotWaitable".into(),
            Ok(WaitStatus::StillAlive) => "nothing".into(),
            Err(Errno::ECHILD) if !of_one => "no child".into(),
            Err(errno) => panic!("refused: {errno}"),
            Ok(status) => {
                let pid = status.pid().expect("it is of a tracee").as_raw();
                let stops = self.stops.iter().find(|row| row.0 == pid).expect("the tracee has a row").1;
                let what = if is_stop(status) { "stop" } else { "ended" };
                let whom = if of_one { String::new() } else { format!("{pid} ") };
                format!("{whom}{what} {stops} 0x{:06x}", raw(status))
            }
        }
    }
}

/// What is told of a call that is not answered.
fn waits(command: Command) -> &'static str {
    match command {
        Command::Wait { whom: Whom::Tracee(_), .. } => "waits NotWaitable",
        _ => "waits",
    }
}

fn is_stop(status: WaitStatus) -> bool {
    !matches!(status, WaitStatus::Exited(..) | WaitStatus::Signaled(..) | WaitStatus::StillAlive)
}

/// The raw wait status, as the macros of wait(2) take it apart.
fn raw(status: WaitStatus) -> i32 {
    match status {
        WaitStatus::Exited(_, code) => code << 8,
        WaitStatus::PtraceSyscall(_) => 0x857f,
        WaitStatus::PtraceEvent(_, signal, event) => event << 16 | (signal as i32) << 8 | 0x7f,
        other => unreachable!("no program has {other:?}"),
    }
}

fn outcome(program: &Program, told: &[Vec<String>], end: &End) -> String {
    let mut text = String::new();
    for (place, thread) in program.threads.iter().enumerate() {
        text += &format!("thread {}\n", thread.name);
        match thread.actor {
            Actor::Tracer(_) => told[place].iter().for_each(|line| text += &format!("{line}\n")),
            // Nothing keeps the tracees of these programs from making all their calls.
            Actor::Tracee(_) => thread.lines.iter().for_each(|line| text += &done(line)),
        }
    }
    text += "tracees\n";
    for row in &program.rows {
        let phase = end.phase(row.tid).expect("each tracee has a phase");
        text += &format!("{} {}\n", row.tid, phase_words(program, row.tid, phase));
    }
    text
}

fn done(line: &Line) -> String {
    match line.command {
        Command::Publish(_) => format!("{}: published 1\n", line.text),
        _ => format!("{}: exited\n", line.text),
    }
}

fn phase_words(program: &Program, tid: u32, phase: Phase) -> String {
    let stops = program.stops_of(tid);
    let last = *program.commands_of(tid).last().expect("a tracee does something");
    match (phase, last) {
        (Phase::Reaped, Command::Exit(_)) => "reaped".into(),
        (Phase::Dead, Command::Exit(code)) => format!("dead {stops} 0x{:06x}", i32::from(code) << 8),
        (Phase::Claimed { tracer }, _) => format!("claimed {stops} {tracer}"),
        (Phase::Stopped, Command::Publish(Stop::Start)) => format!("stopped {stops} 0x80057f"),
        (phase, _) => unreachable!("{tid} is {phase:?}, and has done all"),
    }
}
