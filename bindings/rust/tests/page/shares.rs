//! How many schedules a tracer of one thread has over tracees that closures play, where threads may share memory of any
//! kind, and where they share only what is of `pukzarn::sync`.

use crate::{MODEL_PAGE, calls};
use nix::unistd::Pid;
use pukzarn::{Builder, Report, Row, Shares, Stop};

fn searched(shares: Shares) -> Report {
    Builder { shares, ..Builder::new() }.exhaustive().check(|sim| {
        sim.tracee(Row::root(100), |tracee| {
            tracee.stop(Stop::Start)?;
            tracee.stop(Stop::Fork(101))?;
            tracee.exit_call(0)
        });
        sim.tracee(Row::child(101, 100), |tracee| {
            tracee.stop(Stop::Start)?;
            tracee.exit_call(0)
        });
        sim.tracer("main", || assert_eq!(calls::count(Pid::from_raw(100)), 2));
        sim.run().assert_all_reaped();
    })
}

#[test]
fn the_page_has_both_numbers() {
    let (sync, memory) = (searched(Shares::Sync), searched(Shares::Memory));
    crate::page_has(MODEL_PAGE, &format!("{} schedules in place of {}", sync.schedules, memory.schedules));
}
