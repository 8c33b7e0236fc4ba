//! Calls and their answers in words: those of `tracer explore` where it has them.

use super::actors::{Actor, Kind};
use super::calls::{Op, Reply};
use super::objects::ObjectNumber;
use super::preferences::Preferred;
use super::state::{State, Step};
use crate::context::{Notify, Noun, Patience, Published, Request, Wakeup};
use crate::errno::Errno;
use crate::library::{RestartNumbers, StopNumbers, Waited, kind, phase, restart, wait};
use crate::sys::ptrace;

impl State {
    /// The steps of a schedule, one a line: who, the call, and its answer.
    pub(super) fn words(&self) -> Vec<String> {
        let width = (0..self.actors.len()).map(|actor| self.name_of(actor).len()).max().unwrap_or(0);
        let line = |step: &Step| {
            let actor = usize::from(step.actor);
            let name = self.name_of(actor);
            let (call, reply) = (self.call_words(actor, step.op), reply_words(step.op, step.reply));
            let (meaning, deviation) = (self.meaning_words(step.reply), self.deviation_words(step));
            format!("{name:width$} {call}: {reply}{meaning}{deviation}")
        };
        self.trace.iter().map(line).collect()
    }

    /// What a wait status says of the stop or death that a wait was answered.
    fn meaning_words(&self, reply: Reply) -> String {
        let Reply::Waited(Ok(Some(waited))) = reply else { return String::new() };
        if waited.death == 1 {
            return format!(" ({})", death_words(waited.status));
        }
        let stop = |step: &Step| match (step.op, step.reply) {
            (Op::Publish(row, stop), Reply::Published(Ok(number), published)) => {
                let is_it = (row as u32, number) == (waited.row, waited.number);
                is_it.then_some(if published == Published::Wanted { stop } else { StopNumbers::default() })
            }
            (Op::Exit(row, _), Reply::Published(Ok(number), _)) => {
                ((row as u32, number) == (waited.row, waited.number)).then(StopNumbers::default)
            }
            _ => None,
        };
        self.trace.iter().rev().find_map(stop).map_or(String::new(), |stop| format!(" ({})", stop_words(stop)))
    }

    /// Who comes first where nothing else is decided, in whose place a step was taken.
    fn deviation_words(&self, step: &Step) -> String {
        match step.preferred {
            Some(preferred) if preferred.actor != preferred.to_actor => {
                format!(" <- before {}", self.name_of(usize::from(preferred.to_actor)))
            }
            Some(Preferred { rows: Some((_, to)), .. }) => format!(" <- before {}", self.tracees.rows[to as usize].tid),
            _ => String::new(),
        }
    }

    /// Each thread that waits, and for what; then the tracees that something was to happen to.
    pub(super) fn deadlock_words(&self) -> String {
        let mut text = "deadlock: no thread can go on".to_string();
        for (number, actor) in self.actors.iter().enumerate() {
            if let (Some(op), false) = (actor.op, matches!(actor.op, Some(Op::TakeUp(_)))) {
                let name = self.name_of(number);
                text += &format!("\n  {name} waits: {}{}", self.call_words(number, op), self.why_words(op));
            }
        }
        for row in 0..self.tracees.rows.len() {
            if let Some(words) = self.tracee_words(row) {
                text += &format!("\n  tracee {} {words}", self.tracees.rows[row].tid);
            }
        }
        text
    }

    pub(super) fn loop_words(&self) -> String {
        let most = self.builder.max_steps;
        let last = self.trace.last().map(|step| self.name_of(usize::from(step.actor)));
        format!(
            "more than {most} steps, the last of them by `{}`: is there a loop that never waits? One that polls has to \
             call pukzarn::thread::yield_now or sleep",
            last.as_deref().unwrap_or("nobody")
        )
    }

    pub(super) fn stuck_words(&self) -> String {
        let name = self.now.running.map_or("a thread".into(), |actor| self.name_of(actor));
        let mut text = format!(
            "`{name}` makes no call: it waits for a lock of std that another thread holds over a call, or computes for \
             very long. Locks of pukzarn::sync may be held over calls"
        );
        for (number, actor) in self.actors.iter().enumerate() {
            if let (Some(op), Kind::Tracer(_) | Kind::Tracee) = (actor.op, &actor.kind) {
                text += &format!("\n  {} is about to: {}", self.name_of(number), self.call_words(number, op));
            }
        }
        text
    }

    /// Who keeps a call from being made, where that is known.
    fn why_words(&self, op: Op) -> String {
        let object = match op {
            Op::Acquire(object, Noun::Mutex | Noun::Reader | Noun::Writer | Noun::Once, _) => object,
            Op::EndWait { mutex, .. } => mutex,
            _ => return String::new(),
        };
        let holder = self.objects.holder(object).map(|holder| format!(", which {} holds", self.name_of(holder)));
        holder.unwrap_or_default()
    }

    fn tracee_words(&self, row: usize) -> Option<String> {
        let state = self.tracees.state(row);
        match state.phase {
            phase::RUNNING => Some("runs".into()),
            phase::STOPPED => Some(format!("stopped {} {:#08x}: nobody waits for it", state.number, state.status)),
            phase::CLAIMED => {
                let is_holder =
                    |actor: &&Actor| matches!(actor.kind, Kind::Tracer(Some(tracer)) if tracer == state.tracer);
                let holder = self.actors.iter().find(is_holder).map_or("nobody", |actor| actor.name.as_str());
                Some(format!("claimed {} by {holder}: nobody restarts it", state.number))
            }
            phase::DEAD => Some(format!("dead {:#08x}: nobody waits for it", state.status)),
            _ => None,
        }
    }

    fn call_words(&self, actor: usize, op: Op) -> String {
        let tid = |row: usize| self.tracees.rows[row].tid;
        let tracer = match self.actors[actor].kind {
            Kind::Tracer(Some(tracer)) => tracer.to_string(),
            _ => "-".into(),
        };
        match op {
            Op::Start => "begin".into(),
            Op::TakeUp(row) => format!("take up {}", tid(row)),
            Op::Publish(row, stop) => format!("publish {} {}", tid(row), stop_words(stop)),
            Op::Exit(row, status) => format!("exit {} {}", tid(row), death_words(status)),
            Op::ExitGroup(row, status) => format!("exit group {} {}", tid(row), death_words(status)),
            Op::Wait(request) => format!("{} {tracer}", request_words(request)),
            Op::Restart(row, how) => format!("resume {} {tracer} {}", tid(row), restart_words(how)),
            Op::Ptrace(row, request) => format!("{} {} {tracer}", ptrace_word(request), tid(row)),
            Op::Seize(row, options) => format!("seize {} {options:#x}", tid(row)),
            Op::Interrupt(row) => format!("interrupt {}", tid(row)),
            Op::Kill(row) => format!("kill {}", tid(row)),
            Op::Join(thread) => format!("join {}", self.name_of(thread)),
            Op::IsFinished(thread) => format!("is finished {}", self.name_of(thread)),
            Op::Pause => "pause".into(),
            _ => object_words(op),
        }
    }
}

fn object_words(op: Op) -> String {
    let verb = |noun: Noun| match noun {
        Noun::Mutex => "lock mutex",
        Noun::Reader => "read lock",
        Noun::Writer => "write lock",
        Noun::Channel => "receive channel",
        Noun::Atomic => "atomic",
        Noun::Once => "once",
    };
    match op {
        Op::Acquire(object, noun, _) => format!("{} {object}", verb(noun)),
        Op::TryAcquire(object, noun, _) => format!("try {} {object}", verb(noun)),
        Op::Access(object, Noun::Channel) => format!("send channel {object}"),
        Op::Access(object, noun) => format!("{} {object}", verb(noun)),
        Op::BeginWait { condvar, .. } => format!("wait condvar {condvar}"),
        Op::EndWait { condvar, mutex, patience } => woken_words(condvar, mutex, patience),
        Op::Notify(condvar, Notify::One) => format!("notify one condvar {condvar}"),
        Op::Notify(condvar, Notify::All) => format!("notify all condvar {condvar}"),
        _ => unreachable!("a call of no object"),
    }
}

fn woken_words(condvar: ObjectNumber, mutex: ObjectNumber, patience: Patience) -> String {
    let limit = if patience == Patience::Limited { " or a time-out" } else { "" };
    format!("wait condvar {condvar} for a notification{limit}, and mutex {mutex}")
}

fn request_words(request: Request) -> String {
    let word = match (request.options & wait::WNOWAIT != 0, request.blocks) {
        (false, true) => "wait",
        (false, false) => "claim",
        (true, true) => "look",
        (true, false) => "peek",
    };
    match request.idtype {
        wait::P_ALL => format!("{word} any"),
        wait::P_PGID => format!("{word} group {}", request.id),
        _ => format!("{word} {}", request.id),
    }
}

/// The name of a request without what all of them begin with.
fn ptrace_word(request: ptrace::Request) -> String {
    format!("{request:?}").trim_start_matches("PTRACE_").to_lowercase()
}

fn restart_words(how: RestartNumbers) -> String {
    let kind = if how.kind == restart::SYSCALL { "syscall" } else { "cont" };
    format!("{kind} {}", how.signal)
}

/// The words of a stop.
fn stop_words(stop: StopNumbers) -> String {
    let value = stop.value;
    match stop.kind {
        kind::START => "start".into(),
        kind::ENTER => "enter".into(),
        kind::EXIT => "exit".into(),
        kind::SECCOMP => format!("seccomp {value}"),
        kind::FORK => format!("fork {value}"),
        kind::CLONE => format!("clone {value}"),
        kind::EXEC => format!("exec {value}"),
        kind::SIGNAL => format!("signal {value}"),
        _ => format!("ending {}", death_words(value)),
    }
}

/// The words of a raw wait status of a death.
fn death_words(status: u32) -> String {
    match (status & 0x7f, status & 0x80) {
        (0, _) => format!("exited {}", status >> 8),
        (signal, 0) => format!("killed {signal}"),
        (signal, _) => format!("killed {signal} core"),
    }
}

fn waited_words(waited: Waited) -> String {
    let what = if waited.death == 1 { "ended" } else { "stop" };
    format!("{} {what} {} {:#08x}", waited.tid, waited.number, waited.status)
}

fn reply_words(op: Op, reply: Reply) -> String {
    match reply {
        Reply::Published(Ok(number), Published::Wanted) => format!("published {number}"),
        Reply::Published(Ok(number), Published::Interrupted) => format!("interrupted, published {number} start"),
        Reply::Published(Err(errno), _) => format!("refused {errno:?}"),
        Reply::TakenUp(..) => "taken up".into(),
        Reply::Ended => "exited".into(),
        Reply::Waited(Ok(None)) => "nothing".into(),
        Reply::Waited(Ok(Some(waited))) => waited_words(waited),
        Reply::Waited(Err(Errno::ECHILD)) => "no child".into(),
        Reply::Waited(Err(Errno::EINTR)) => "interrupted".into(),
        Reply::Waited(Err(errno)) => format!("refused {errno:?}"),
        Reply::Answered(Ok(())) if matches!(op, Op::Restart(..)) => "resumed".into(),
        Reply::Answered(Ok(())) => "done".into(),
        Reply::Answered(Err(errno)) => format!("refused {errno:?}"),
        Reply::Is(true) => "yes".into(),
        Reply::Is(false) => "no".into(),
        Reply::Woken(Wakeup::Notified) => "notified".into(),
        Reply::Woken(Wakeup::TimedOut) => "timed out".into(),
        Reply::Done => "done".into(),
    }
}

#[cfg(test)]
mod tests {
    use super::{death_words, ptrace_word, request_words, stop_words, waited_words};
    use crate::context::Request;
    use crate::library::{StopNumbers, Waited};
    use crate::sys::ptrace;

    #[test]
    fn the_words_are_those_of_explore() {
        let stops = [(0, 0, "start"), (4, 101, "fork 101"), (7, 10, "signal 10"), (8, 0x300, "ending exited 3")];
        for (kind, value, words) in stops {
            assert_eq!(stop_words(StopNumbers { kind, value }), words);
        }
        let deaths = [(0x300, "exited 3"), (9, "killed 9"), (0x8b, "killed 11 core")];
        for (status, words) in deaths {
            assert_eq!(death_words(status), words);
        }
        let waited = Waited { row: 0, tid: 100, number: 1, status: 0x57f, death: 0 };
        assert_eq!(waited_words(waited), "100 stop 1 0x00057f");
        assert_eq!(ptrace_word(ptrace::Request::PTRACE_GETEVENTMSG), "geteventmsg");
        let requests =
            [(0, 0, 6, true, "wait any"), (1, 7, 6, false, "claim 7"), (2, 7, 0x100_0006, true, "look group 7")];
        for (idtype, id, options, blocks, words) in requests {
            assert_eq!(request_words(Request { idtype, id, options, blocks }), words);
        }
    }
}
