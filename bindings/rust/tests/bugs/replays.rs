//! Each failing schedule fails again, in one run, at the same place: the tests of this program that find a fault are
//! run as children of their own, without a schedule, and then with the one that was printed.

use std::process::{Command, Stdio};

const FIND_A_FAULT: [&str; 9] = [
    "early_child::a_child_stops_before_the_event_of_its_parent",
    "end_of_poll::nothing_is_taken_for_the_end",
    "interrupted::an_interrupted_wait_is_taken_for_the_end",
    "killed::a_tracee_is_killed_between_a_wait_and_its_restart",
    "looked_at::the_stop_that_was_seen_is_served_and_not_the_one_that_was_claimed",
    "lost_wake_up::a_wake_up_is_lost",
    "two_locks::look_and_change_are_under_two_locks",
    "two_reapers::two_threads_reap_one_death",
    "wrong_thread::a_thread_that_does_not_trace_restarts",
];

/// What a failing model prints.
#[derive(Debug, PartialEq, Eq)]
struct Printed {
    /// The cause, and the steps of the schedule.
    lines: Vec<String>,
    /// The number of the schedule, in the order of the search.
    number: u64,
    schedule: String,
}

fn run(test: &str, schedule: Option<&str>) -> Printed {
    let mut command = Command::new(std::env::current_exe().expect("this program has a name"));
    command.args([test, "--exact", "--nocapture"]).stdin(Stdio::null());
    for variable in ["PUKZARN_SCHEDULE", "PUKZARN_SCHEDULES", "PUKZARN_DEVIATIONS"] {
        command.env_remove(variable);
    }
    command.envs(schedule.map(|schedule| ("PUKZARN_SCHEDULE", schedule)));
    let output = command.output().expect("this program runs again");
    let printed = String::from_utf8_lossy(&output.stderr).into_owned();
    assert!(output.status.success(), "{test} has to find its fault:\n{printed}");
    read(&printed).unwrap_or_else(|| panic!("{test} printed no schedule:\n{printed}"))
}

fn read(printed: &str) -> Option<Printed> {
    let mut lines = printed.lines().skip_while(|line| !line.starts_with("pukzarn: "));
    let report: Vec<String> =
        lines.by_ref().take_while(|line| !line.starts_with("schedule ")).map(String::from).collect();
    let last = printed.lines().find(|line| line.starts_with("schedule "))?;
    let number = last.split(' ').nth(1)?.parse().ok()?;
    let again = lines.next()?.trim().strip_prefix("PUKZARN_SCHEDULE='")?;
    let (schedule, _) = again.split_once('\'')?;
    Some(Printed { lines: report, number, schedule: schedule.to_string() })
}

#[test]
fn each_failing_schedule_fails_again_in_one_run_at_the_same_place() {
    for test in FIND_A_FAULT {
        let found = run(test, None);
        assert!(found.schedule.starts_with(&format!("{test}#1:")), "{}", found.schedule);
        let again = run(test, Some(&found.schedule));
        assert_eq!(again, Printed { number: 1, ..found }, "{test}");
    }
}

#[test]
fn a_schedule_of_another_test_is_ignored() {
    let test = FIND_A_FAULT[0];
    let found = run(test, None);
    let of_another = found.schedule.replace(test, "another::test");
    assert_eq!(run(test, Some(&of_another)), found);
}

#[test]
fn two_runs_print_the_same() {
    for test in FIND_A_FAULT {
        assert_eq!(run(test, None), run(test, None), "{test}");
    }
}
