//! The litmus files of the programs, as far as they need it.

use nix::{Row, Stop};

#[derive(Clone, Copy, Debug)]
pub enum Whom {
    Any,
    Tracee(i32),
    Group(i32),
}

#[derive(Clone, Copy, Debug)]
pub enum Command {
    Publish(Stop),
    Exit(u8),
    Wait { whom: Whom, blocks: bool, keeps: bool },
    ResumeIt,
}

#[derive(Clone, Debug)]
pub struct Line {
    pub text: String,
    pub command: Command,
}

/// A thread is of one tracee, or of one tracer.
#[derive(Clone, Copy, Debug, PartialEq, Eq)]
pub enum Actor {
    Tracee(u32),
    Tracer(usize),
}

#[derive(Clone, Debug)]
pub struct Thread {
    pub name: String,
    pub actor: Actor,
    pub lines: Vec<Line>,
    /// How often the lines are run, unless there is no child any more.
    pub rounds: u32,
}

pub struct Program {
    pub rows: Vec<Row>,
    pub threads: Vec<Thread>,
}

impl Program {
    pub fn read(text: &str) -> Program {
        let mut program = Program { rows: Vec::new(), threads: Vec::new() };
        for line in text.lines().filter(|line| !line.starts_with('#')) {
            program.read_line(line);
        }
        program
    }

    fn read_line(&mut self, line: &str) {
        let words: Vec<&str> = line.split(' ').collect();
        match words[..] {
            ["row", tid, tgid, pgid, parent] => {
                let [tid, tgid, pgid, parent] = [tid, tgid, pgid, parent].map(number);
                self.rows.push(Row { tid, tgid, pgid, parent: Some(parent).filter(|parent| *parent > 0) });
            }
            ["thread", ..] => {
                let name = words.get(1).map_or_else(|| (self.threads.len() + 1).to_string(), |name| name.to_string());
                self.threads.push(Thread { name, actor: Actor::Tracee(0), lines: Vec::new(), rounds: 1 });
            }
            ["repeat", times] => self.thread().rounds = number(times),
            ["end"] => {}
            _ => {
                let (actor, command) = command(&words).unwrap_or_else(|| panic!("unknown: {line}"));
                let thread = self.thread();
                assert!(thread.lines.is_empty() || thread.actor == actor, "{line}: a thread of two actors");
                thread.actor = actor;
                thread.lines.push(Line { text: line.to_string(), command });
            }
        }
    }

    fn thread(&mut self) -> &mut Thread {
        self.threads.last_mut().expect("a thread began")
    }

    /// What a tracee does. The programs let each make one stop at most, so the number of a stop is 1.
    pub fn commands_of(&self, tid: u32) -> Vec<Command> {
        let of_tracee = self.threads.iter().filter(|thread| thread.actor == Actor::Tracee(tid));
        of_tracee.flat_map(|thread| &thread.lines).map(|line| line.command).collect()
    }

    pub fn stops_of(&self, tid: u32) -> usize {
        let stops = self.commands_of(tid).iter().filter(|command| matches!(command, Command::Publish(_))).count();
        assert!(stops <= 1, "{tid} makes several stops");
        stops
    }
}

fn number(word: &str) -> u32 {
    word.parse().unwrap_or_else(|_| panic!("no number: {word}"))
}

fn command(words: &[&str]) -> Option<(Actor, Command)> {
    let tracer = |word: &str| Actor::Tracer(number(word) as usize);
    Some(match *words {
        ["publish", tid, ref stop @ ..] => (Actor::Tracee(number(tid)), Command::Publish(stop_of(stop)?)),
        ["exit", tid, "exited", code] => (Actor::Tracee(number(tid)), Command::Exit(number(code) as u8)),
        ["resume", "it", by, "cont", "0"] => (tracer(by), Command::ResumeIt),
        [word, "any", by] => (tracer(by), wait(word, Whom::Any)?),
        [word, "group", group, by] => (tracer(by), wait(word, Whom::Group(number(group) as i32))?),
        [word, tid, by] => (tracer(by), wait(word, Whom::Tracee(number(tid) as i32))?),
        _ => return None,
    })
}

fn stop_of(words: &[&str]) -> Option<Stop> {
    Some(match *words {
        ["start"] => Stop::Start,
        ["enter"] => Stop::Enter,
        ["fork", child] => Stop::Fork(number(child)),
        ["clone", child] => Stop::Clone(number(child)),
        _ => return None,
    })
}

fn wait(word: &str, whom: Whom) -> Option<Command> {
    let (blocks, keeps) = match word {
        "wait" => (true, false),
        "claim" => (false, false),
        "look" => (true, true),
        "peek" => (false, true),
        _ => return None,
    };
    Some(Command::Wait { whom, blocks, keeps })
}
