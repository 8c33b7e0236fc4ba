//! What docs/RUST.md shows is what is printed: the first tracer of the page, its test, and the fault that it finds;
//! then the tracer without the fault. README.md shows the same report. docs/RUST_MODEL.md has numbers of schedules.

extern crate pukzarn as nix;

mod calls;
mod forgets;
mod mended;
mod shares;
mod stub;
mod tests;
mod tracer;

use std::process::Command;

const PAGE: &str = "docs/RUST.md";
const MODEL_PAGE: &str = "docs/RUST_MODEL.md";

fn page(name: &str) -> String {
    let path = format!("{}/../../{name}", env!("CARGO_MANIFEST_DIR"));
    std::fs::read_to_string(&path).unwrap_or_else(|error| panic!("{path}: {error}"))
}

#[track_caller]
fn page_has(name: &str, text: &str) {
    assert!(page(name).contains(text), "{name} has not:\n{text}");
}

#[test]
fn the_page_has_the_tracer_and_what_is_printed() {
    let source = include_str!("tracer.rs");
    let (_, tracer) = source.split_once("\n\n").expect("a line says what it is");
    page_has(PAGE, tracer);

    let mut command = Command::new(std::env::current_exe().expect("this program has a name"));
    command.args(["tests::a_fork_is_traced", "--exact", "--nocapture"]).env("RUST_BACKTRACE", "0");
    for variable in ["PUKZARN_SCHEDULE", "PUKZARN_SCHEDULES", "PUKZARN_DEVIATIONS"] {
        command.env_remove(variable);
    }
    let printed = String::from_utf8(command.output().expect("this program runs again").stderr).expect("text");
    let report = printed.lines().skip_while(|line| !line.starts_with("pukzarn: "));
    let report: Vec<&str> = report.take_while(|line| !line.starts_with("note: ")).collect();
    assert!(report.len() > 3, "it prints a report:\n{printed}");
    let report = report.join("\n");
    page_has(PAGE, &report);
    let readme = page("README.md");
    assert!(readme.contains(&report) || !readme.contains("PUKZARN_SCHEDULE"), "README.md has another report");
}
