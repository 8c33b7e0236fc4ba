//! The tests of README.md and docs/RUST.md, as they stand there.

use crate::tracer::trace;
use nix::unistd::Pid;

#[should_panic(expected = "a stop of 101, which nobody has announced")]
#[test]
fn a_fork_is_traced() {
    pukzarn::model(|sim| {
        sim.case("tracee 100 100 100 0\nfork 101\nexit 0\nend\ntracee 101 101 100 100\nexit 0\nend\n").unwrap();
        sim.tracer("main", || trace(Pid::from_raw(100)));
        sim.run().assert_all_reaped();
    });
}

#[test]
fn an_early_child_is_kept() {
    let report = pukzarn::Builder::new().exhaustive().check(|sim| {
        sim.case("tracee 100 100 100 0\nfork 101\nexit 0\nend\ntracee 101 101 100 100\nexit 0\nend\n").unwrap();
        sim.tracer("main", || crate::mended::trace(Pid::from_raw(100)));
        sim.run().assert_all_reaped();
    });
    crate::page_has(crate::PAGE, &format!("pukzarn: {}: {} schedules", report.coverage, report.schedules));
}
