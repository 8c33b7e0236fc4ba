//! The tracer on simulated tracees, under every interleaving.

use super::*;
use nix::{Builder, Death, Row, Sim, Stop, model};
use std::sync::{Arc, Mutex};

/// A process that writes and forks, and the child, which asks for its own number twice.
const FORK: &str = "\
tracee 100 100 77 0
page 0x10000
data 0x10000 68690a
call write 1 0x10000 3 = 3
fork 101
exit 3
end
tracee 101 101 77 100
call getpid = 101
call getpid = 101
exit 0
end
";

/// Runs the tracer over what a Sim has, to its end, and answers what it counted.
fn counted(sim: &Sim) -> Counts {
    let counts = Arc::new(Mutex::new(Counts::default()));
    let to = counts.clone();
    sim.tracer("main", move || {
        let counted = count().expect("each call is answered");
        *to.lock().unwrap() = counted;
    });
    sim.run().assert_all_reaped();
    let counted = counts.lock().unwrap();
    counted.clone()
}

#[test]
fn calls_of_a_process_and_its_child_are_counted() {
    Builder::new().exhaustive().check(|sim| {
        sim.case(FORK).unwrap();
        let counts = counted(sim);
        assert_eq!(
            counts.calls,
            BTreeMap::from([(1, 1), (39, 2), (57, 1), (60, 2)])
        );
        assert_eq!(counts.parents, BTreeMap::from([(101, 100)]));
        assert_eq!(counts.ended, 2);
    });
}

#[test]
fn a_signal_is_handed_on() {
    model(|sim| {
        sim.tracee(Row::root(100), |tracee| {
            tracee.stop(Stop::Start)?;
            let restart = tracee.stop(Stop::Signal(Signal::SIGUSR1))?;
            assert_eq!(restart.signal(), Some(Signal::SIGUSR1));
            tracee.exit(Death::Signaled(Signal::SIGUSR1, false));
            Ok(())
        });
        assert_eq!(counted(sim).ended, 1);
    });
}

#[test]
fn a_tracee_that_is_killed_at_any_moment_is_reaped() {
    model(|sim| {
        sim.kills();
        sim.tracee(Row::root(100), |tracee| {
            tracee.stop(Stop::Start)?;
            tracee.call(39, [0; 6], 100)?;
            tracee.exit_call(0)
        });
        sim.tracer("time limit", || {
            // ESRCH: it has ended by itself.
            let _ = nix::sys::signal::kill(Pid::from_raw(100), Signal::SIGKILL);
        });
        assert_eq!(counted(sim).ended, 1);
    });
}

#[test]
fn a_wait_that_a_signal_interrupts_is_made_again() {
    model(|sim| {
        sim.eintrs(2);
        sim.tracee(Row::root(100), |tracee| tracee.exit_call(0));
        assert_eq!(counted(sim).ended, 1);
    });
}

#[test]
fn each_call_is_printed_with_its_name_or_number() {
    let counts = Counts {
        calls: BTreeMap::from([(1, 3), (332, 1)]),
        ended: 2,
        ..Counts::default()
    };
    assert_eq!(
        counts.to_string(),
        "       3  write\n       1  call 332\n       2  tracees ended"
    );
}
