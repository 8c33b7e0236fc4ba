//! What docs/TUTORIAL.md shows is what is printed: the schedule in which the first loop fails, and how many schedules the
//! mended one has.

extern crate pukzarn as nix;

#[path = "../../../../examples/rust/tutorial/src/broken.rs"]
mod broken;
#[path = "../../../../examples/rust/tutorial/src/mended.rs"]
mod mended;
#[path = "../../../../examples/rust/tutorial/src/tests.rs"]
mod tests;

use std::process::Command;

const PAGE: &str = "docs/TUTORIAL.md";

/// What a model prints in one of the tests of this program, from its first line on.
fn printed(test: &str) -> String {
    let mut command = Command::new(std::env::current_exe().expect("this program has a name"));
    command.args([test, "--exact", "--nocapture"]).env("RUST_BACKTRACE", "0");
    for variable in ["PUKZARN_SCHEDULE", "PUKZARN_SCHEDULES", "PUKZARN_DEVIATIONS"] {
        command.env_remove(variable);
    }
    let printed = String::from_utf8(command.output().expect("this program runs again").stderr).expect("text");
    let report = printed.lines().skip_while(|line| !line.starts_with("pukzarn: "));
    let report: Vec<&str> = report.take_while(|line| !line.starts_with("note: ")).collect();
    assert!(!report.is_empty(), "it prints a report:\n{printed}");
    report.join("\n")
}

#[track_caller]
fn page_has(text: &str) {
    let path = format!("{}/../../{PAGE}", env!("CARGO_MANIFEST_DIR"));
    let page = std::fs::read_to_string(&path).unwrap_or_else(|error| panic!("{path}: {error}"));
    assert!(page.contains(text), "{PAGE} has not:\n{text}");
}

#[test]
fn the_page_has_the_schedule_that_fails() {
    page_has(&printed("tests::nobody_is_left"));
}

#[test]
fn the_page_has_how_many_schedules_the_mended_loop_has() {
    let report = printed("tests::nobody_is_left_by_the_mended_loop");
    // After the schedules and steps comes the time that they took.
    let (counted, _) = report.rsplit_once(", ").expect("the time is last");
    page_has(counted);
}
