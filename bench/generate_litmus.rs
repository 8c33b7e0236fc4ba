//! Writes a litmus file of two threads with 990 different commands each, none of which changes anything: the
//! claims are refused, and so are the resumes. So each pair of places in the two threads is a place of the search, all
//! at one board.

/// How many tracees there are, and how many commands a thread has.
const ROWS: u32 = 70;
const COMMANDS: u32 = 990;

fn main() {
    let mut text = String::from("# Two threads of 990 different commands each, which change nothing.\n");
    for tid in 100..100 + ROWS {
        text.push_str(&format!("row {tid} {tid} 77 0\n"));
    }
    for tracer in 0..2 {
        text.push_str("thread\n");
        for number in 0..COMMANDS {
            let (tid, round) = (100 + number % ROWS, number / ROWS);
            let line = match round {
                0 => format!("state {tid}\n"),
                1 => format!("claim {tid} {tracer}\n"),
                _ => format!("resume {tid} {tracer} cont {}\n", round - 2),
            };
            text.push_str(&line);
        }
    }
    print!("{text}");
}
