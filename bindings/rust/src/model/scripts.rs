//! Scripted tracees: who has the baton makes their calls.

use super::actors::Kind;
use super::calls::{Op, Reply};
use super::state::State;
use crate::context::Published;
use crate::library::{Machine, Next, RestartNumbers, StopNumbers};
use crate::sim::{group_stop_refused, is_group_stop, machine_options, options_refused};

/// A tracee that follows a script.
pub(super) struct Script {
    machine: Machine,
    /// The options that the machine has; None before its first stop.
    options: Option<u32>,
    /// The stop that it is still to make, where an interrupt came before it.
    held: Option<Op>,
    /// The stop that it has made last, or is about to make.
    last: StopNumbers,
}

impl Script {
    pub(super) fn new(machine: Machine) -> Script {
        Script { machine, options: None, held: None, last: StopNumbers::default() }
    }

    /// Hands the machine its options, where they are others than before.
    pub(super) fn set_options(&mut self, options: u32) -> Result<(), String> {
        if self.options != Some(options) {
            self.machine.options(machine_options(options)).map_err(|errno| options_refused(options, errno))?;
            self.options = Some(options);
        }
        Ok(())
    }
}

/// The death of a tracee whose script stores to what is not mapped.
const SIGSEGV: u32 = 11;

impl State {
    /// What a scripted tracee does after a call.
    pub(super) fn script_goes_on(&mut self, row: usize) {
        match self.actors[row].reply {
            Reply::TakenUp(how, _) => match self.next_of_script(row, how) {
                Ok(op) => self.announce(row, op),
                Err(cause) => self.fail(cause),
            },
            Reply::Published(Ok(_), published) => {
                if published == Published::Interrupted {
                    let wanted = self.trace.last().map(|step| step.op);
                    self.script(row).held = wanted;
                }
                self.announce(row, Op::TakeUp(row));
            }
            Reply::Published(Err(errno), _) => {
                self.fail(format!("tracee {}: its stop is refused: {errno}", self.tracees.rows[row].tid));
            }
            _ => self.end_actor(row),
        }
    }

    /// Runs a script up to its next call.
    fn next_of_script(&mut self, row: usize, how: RestartNumbers) -> Result<Op, String> {
        let (options, first_stop) = (self.tracees.options(row), self.tracees.first_stop());
        let tid = self.tracees.rows[row].tid;
        let script = self.script(row);
        script.set_options(options)?;
        if is_group_stop(script.last, how) {
            return Err(group_stop_refused(tid));
        }
        if let Some(held) = script.held.take() {
            return Ok(held);
        }
        let Kind::Script(script) = &mut self.actors[row].kind else { unreachable!("a script's actor") };
        Ok(match script.machine.next(how, self.tracees.record(row)) {
            Ok(Next::Stop(stop)) => {
                script.last = first_stop.made_of(stop);
                Op::Publish(row, script.last)
            }
            Ok(Next::Death(status)) => Op::Exit(row, status),
            Err(_) => Op::Exit(row, SIGSEGV),
        })
    }

    /// The script of a row: the actors of tracees come first, in the order of the rows.
    pub(super) fn script(&mut self, row: usize) -> &mut Script {
        match &mut self.actors[row].kind {
            Kind::Script(script) => script,
            _ => unreachable!("a script's actor"),
        }
    }
}
