//! How many schedules the loop of the page has that says what counts, and how many without that line.

use crate::{MODEL_PAGE, calls};
use nix::unistd::Pid;
use pukzarn::{Builder, Report};
use std::sync::{Arc, Mutex};

/// The same loop, to which `forget` does nothing.
mod remembers {
    mod pukzarn {
        pub fn forget(_: &impl std::hash::Hash) {}
    }
    include!("calls.rs");
}

const CASE: &str = "\
tracee 100 100 100 0
call getpid = 100
fork 101
call getpid = 100
exit 0
end
tracee 101 101 100 100
call getpid = 101
exit 0
end
";

fn searched(count: fn(Pid) -> u64) -> Report {
    Builder::new().check(|sim| {
        sim.case(CASE).unwrap();
        let counted = Arc::new(Mutex::new(0));
        let to = counted.clone();
        sim.tracer("main", move || *to.lock().unwrap() = count(Pid::from_raw(100)));
        sim.run().assert_all_reaped();
        assert_eq!(*counted.lock().unwrap(), 6);
    })
}

#[test]
fn the_page_has_the_loop_and_both_numbers() {
    let (with, without) = (searched(calls::count), searched(remembers::count));
    let source = include_str!("calls.rs");
    let (_, shown) = source.split_once("\n/// ").expect("a function after what it uses");
    crate::page_has(MODEL_PAGE, &format!("/// {shown}"));
    crate::page_has(MODEL_PAGE, &format!("{} schedules, and {} without it", with.schedules, without.schedules));
}
