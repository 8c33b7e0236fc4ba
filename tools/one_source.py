#!/usr/bin/env python3
"""Compares what is written in several places with the place that decides.

    one_source.py              compares all; names each difference, and fails where there is one
    one_source.py --self-test  changes one place after the other, and sees that each change is named

| What | Decides | Compared |
|---|---|---|
| a user's loop and first test | tracer.rs and tests.rs of bindings/rust/tests/page | README.md, its blocks of Rust |
| the library example | crates/system_tests/src/readme.rt | docs/RATTLE.md, its first block of Rust |
| the same on two threads | crates/call_tests/src/waits/two_tracers.rt | docs/RATTLE.md, its second one |
| the loops of the tutorial, and its tests | examples/rust/tutorial/src | docs/TUTORIAL.md, its blocks of Rust |
| the loop of a small tracer | crates/call_tests/src/waits/small_tracer.rt | docs/calls.md, its first block of Rust |
| a debugger that changes a call | crates/call_tests/src/waits/small_debugger.rt | docs/calls.md, its second one |
| a small tracer in C | tests/c/small_tracer.c | docs/C.md, its block of C |
| a tracer in C and its test | tests/c_model/early_child.c | docs/C_MODEL.md, its block of C |
| how tests compare | crates/system_tests/src/compare.rt | the compare.rt of the other crates |
| rows of tests | crates/test_support/src/rows.rt | the tests/rows.rt of stop_board, up to what it uses and to visibility |
| the version | crates/tracer_cli/src/arguments.rt | man/tracer.1, README.md |
| the system calls, with their arguments | crates/trace_options/src/syscall.rt | docs/formats/tables.md, man/tracer.1 |
| the options of ptrace(2) | crates/trace_options/specs/Options.antt | options.rt, docs/formats/tables.md |
| wait flags, events | wait_flags.rt and event.rt of trace_options | docs/formats/tables.md |
| the messages of a run | crates/tracer_cli/specs/Failure.antt | failure.rt, run_error.rt, FORMATS.md, man/tracer.1 |
| the causes of a refusal | crates/trace_script/src/cause.rt | FORMATS.md, case-files.md, man/tracer.1 |
| the kinds of stops | crates/trace_record/src/stop.rt | the files of STOP_CODE and STOP_TEXT |
| the limits | limits.rt of stop_history and trace_script, pages.rt | README.md, docs/, man/tracer.1, bench/ |
| those of litmus files, the budgets | draft.rt, grammar.rt of litmus_files; arguments.rt | the same, the help |
| the bits of a word | layout.rt and Layout.antt of stop_history | its word.rt, docs/formats/layouts.md |
| the word of an example | docs/formats/layouts.md | docs/crates/stop_history.md |
"""

import pathlib
import re
import sys

ROOT = pathlib.Path(__file__).resolve().parent.parent
README, CALLS, RATTLE, TUTORIAL = "README.md", "docs/calls.md", "docs/RATTLE.md", "docs/TUTORIAL.md"
TABLES, FORMATS, PAGE = "docs/formats/tables.md", "docs/FORMATS.md", "man/tracer.1"
EXAMPLE, LOOP = "crates/system_tests/src/readme.rt", "crates/call_tests/src/waits/small_tracer.rt"
FIRST_LOOP, FIRST_TEST = "bindings/rust/tests/page/tracer.rs", "bindings/rust/tests/page/tests.rs"
STOPS = "crates/trace_record/src/stop.rt"
# Where each kind of stop stands in code, any of the files of each; and where its word stands.
STOP_CODE = {
    "the machine": ["crates/trace_script/src/step/step_acts.rt", "crates/trace_script/src/machine/calls.rt"],
    "the tests of statuses": ["crates/trace_record/src/tests.rt"],
    "the tests of notes": ["crates/record_printer/src/text_tests/stops.rt", "crates/record_printer/src/text_tests/rows.rt"],
    "the tests of restarts": ["crates/system_tests/src/workers/config.rt"],
}
STOP_TEXT = {
    "docs/FORMATS.md": r"`WORD[ `]",
    "man/tracer.1": r"\bWORD\b",
    "tests/cases/replay_files.cases": r"publish \S+ WORD\b",
}
THREADS = "crates/call_tests/src/waits/two_tracers.rt"
CHANGE = "crates/call_tests/src/waits/small_debugger.rt"
LESSONS = [f"examples/rust/tutorial/src/{name}.rs" for name in ("broken", "tests", "mended", "tests")]
RUST_BLOCKS = ((README, [FIRST_LOOP, FIRST_TEST]), (RATTLE, [EXAMPLE, THREADS]), (CALLS, [LOOP, CHANGE]),
               (TUTORIAL, LESSONS))
COMPARE = "crates/system_tests/src/compare.rt"
COPIES = sorted(str(it.relative_to(ROOT)) for it in ROOT.glob("crates/*/src/**/compare.rt"))
ROWS, BOARD_ROWS = "crates/test_support/src/rows.rt", "crates/stop_board/src/tests/rows.rt"
C_PAGE, MODEL_PAGE = "docs/C.md", "docs/C_MODEL.md"
C_BLOCKS = ((C_PAGE, "tests/c/small_tracer.c"), (MODEL_PAGE, "tests/c_model/early_child.c"))
ARGUMENTS, SYSCALLS = "crates/tracer_cli/src/arguments.rt", "crates/trace_options/src/syscall.rt"
OPTIONS, OPTION_BITS = "crates/trace_options/specs/Options.antt", "crates/trace_options/src/options.rt"
MESSAGES, FAILURE = "crates/tracer_cli/specs/Failure.antt", "crates/tracer_cli/src/failure.rt"
RUN_ERROR = "crates/tracer_workers/src/run_error.rt"
LIMITS = ("crates/stop_history/src/limits.rt", "crates/trace_script/src/limits.rt", "crates/trace_pages/src/pages.rt",
          "crates/litmus_files/src/draft.rt", "crates/litmus_files/src/grammar.rt", ARGUMENTS)
WAIT_FLAGS, EVENTS = "crates/trace_options/src/wait_flags.rt", "crates/trace_options/src/event.rt"
WORD, CAUSES = "crates/stop_history/src/word.rt", "crates/trace_script/src/cause.rt"
CASE_FILES, LAYOUTS = "docs/formats/case-files.md", "docs/formats/layouts.md"
LITMUS_FILES = "docs/formats/litmus-files.md"
WORDS = "docs/crates/stop_history.md"
WIDTHS, TRACER_WIDTH = "crates/stop_history/src/word/layout.rt", "crates/stop_history/specs/Layout.antt"
PLAIN, PLAIN_CASE, PLAIN_LITMUS = "bench/plain.rs", "bench/plain_case.rs", "bench/plain_litmus.rs"
PLAIN_EXPLORE = "bench/plain_explore.rs"
LITMUS, PROGRAM = "docs/crates/litmus_files.md", "docs/crates/tracer_cli.md"

# What is said of the limits, and where: a name stands for its number, with :, as 16,777,215, with :_ as 16_777_215.
SAID = [
    (README, "{MOST_ROWS} rows, {TRACERS} tracers, stop numbers to {LAST_NUMBER:,}, ids to {LAST_ID:,},"),
    (README, "{MOST_BYTES:,} bytes, {MOST_STEPS:,} steps and {MOST_PAGES} pages"),
    (FORMATS, "First come rows, at most {MOST_ROWS},"),
    (FORMATS, "more than {MOST_ROWS} rows, at the {ROWS_AND_ONE}th"),
    (FORMATS, "| `Full` | stop {LAST_NUMBER:,} has been made |"),
    (FORMATS, "| TID, TGID, PGID, the tid of a fork, a clone or an exec | 1 to {LAST_ID:,} |"),
    (FORMATS, "| PARENT | 0 to {LAST_ID:,} |"),
    (CALLS, "No pid is above {LAST_ID:,}, so neither"),
    (CASE_FILES, "A file is a list of blocks, at most {MOST_ROWS}."),
    (CASE_FILES, "at most {MOST_STEPS:,} steps"),
    (LAYOUTS, "0 before any, at most {LAST_NUMBER:,} |"),
    (LITMUS_FILES, "N is 0 to {LAST_NUMBER:,},"),
    (PAGE, "A file has at most {MOST_BYTES:,} bytes, and {MOST_ROWS} tracees."),
    (PLAIN, "const MOST_BYTES: usize = {MOST_BYTES:_};"),
    (PLAIN, "const MOST_ROWS: usize = {MOST_ROWS};"),
    (PLAIN, "const LAST_NUMBER: u32 = {LAST_NUMBER:_};"),
    (PLAIN, "const LAST_ID: u32 = {LAST_ID:_};"),
    (PLAIN, "const LAST_TRACER: u32 = {LAST_TRACER};"),
    (PLAIN_CASE, "const MOST_BYTES: usize = {MOST_BYTES:_};"),
    (PLAIN_CASE, "const MOST_ROWS: usize = {MOST_ROWS};"),
    (PLAIN_CASE, "const MOST_STEPS: usize = {MOST_STEPS:_};"),
    (PLAIN_CASE, "const MOST_PAGES: usize = {MOST_PAGES};"),
    (PLAIN_CASE, "const PAGE_SIZE: usize = {PAGE_SIZE};"),
    (PLAIN_CASE, "const LAST_ID: u32 = {LAST_ID:_};"),
    (PLAIN_LITMUS, "const MOST_BYTES: usize = {MOST_BYTES:_};"),
    (PLAIN_LITMUS, "const MOST_ROWS: usize = {MOST_ROWS};"),
    (PLAIN_LITMUS, "const LAST_NUMBER: u32 = {LAST_NUMBER:_};"),
    (PLAIN_LITMUS, "const LAST_ID: u32 = {LAST_ID:_};"),
    (PLAIN_LITMUS, "const LAST_TRACER: u32 = {LAST_TRACER};"),
    (README, "A litmus file has at most {MOST_THREADS} threads and {MOST_COMMANDS:,} commands."),
    (LITMUS_FILES, "N times, 1 to {MOST_REPEATS};"),
    (LITMUS_FILES, "a letter, and at most {NAME_LESS_ONE} letters, digits,"),
    (LITMUS_FILES, "repeats written out, are at most {MOST_COMMANDS:,}."),
    (LITMUS_FILES, "the {THREADS_AND_ONE}th thread, at its line; the {COMMANDS_AND_ONE:,}th command,"),
    (PAGE, "A litmus file has at most {MOST_THREADS} threads, and {MOST_COMMANDS:,} commands in all."),
    (PAGE, "are done N times, 1 to {MOST_REPEATS}."),
    (LITMUS, "at most {MOST_THREADS} threads and {MOST_COMMANDS:,} commands, a thread's name {LONGEST_NAME} bytes,"),
    (LITMUS, "a repeat is done at most {MOST_REPEATS} times."),
    (PLAIN_LITMUS, "const MOST_THREADS: usize = {MOST_THREADS};"),
    (PLAIN_LITMUS, "const MOST_COMMANDS: usize = {MOST_COMMANDS};"),
    (PLAIN_LITMUS, "const LONGEST_NAME: usize = {LONGEST_NAME};"),
    (ARGUMENTS, "How many places are searched at most, 1 to {MOST_PLACES}\""),
    (ARGUMENTS, "Print the order of outcome K, 1 to {MOST_PLACES}, as"),
    (FORMATS, "| `--budget N` | 1 to {MOST_PLACES} | {BUDGET} |"),
    (FORMATS, "| `--replay K` | 1 to {MOST_PLACES} |"),
    (PAGE, "places, 1 to {MOST_PLACES}; with more nothing"),
    (PAGE, "The default is {BUDGET}."),
    (PAGE, "1 to {MOST_PLACES}, as a replay file,"),
    (PROGRAM, "`explore` has a budget of {BUDGET:,} places,"),
    (README, "at most {BUDGET:,}, with `--budget` up to {MOST_PLACES:,};"),
    (PROGRAM, "of `--budget` and `--replay` {MOST_PLACES:,}."),
    (PLAIN_EXPLORE, "const MOST_PLACES: usize = {BUDGET:_};"),
]


def lines_of(text):
    """The lines of a code, without empty ones."""
    return [line.rstrip() for line in text.splitlines() if line.strip()]


def blocks_of(language, text):
    """The blocks of a language in a page."""
    return [lines_of(block) for block in re.findall(rf"^```{language}\n(.*?)^```", text, re.M | re.S)]


def is_within(part, whole):
    """Whether lines are in other lines, one after the other with none between."""
    return any(whole[at : at + len(part)] == part for at in range(len(whole) - len(part) + 1))


def code_faults(read):
    for page, sources in RUST_BLOCKS:
        blocks = blocks_of("rust", read(page))
        if len(blocks) != len(sources):
            yield f"{page}: it has {len(blocks)} blocks of Rust, and {len(sources)} are known"
        for number, (block, source) in enumerate(zip(blocks, sources), 1):
            if not is_within(block, lines_of(read(source))):
                yield f"{page}: its block of Rust number {number} is not in {source}"
    for page, source in C_BLOCKS:
        if blocks_of("c", read(page)) != [lines_of(read(source))]:
            yield f"{page}: its block of C is not {source}"


def items_of(code):
    """The lines of a file of Rust, without those that say what it uses and who may use it."""
    return [line.replace("pub(crate) ", "pub ") for line in lines_of(code) if not line.startswith("use ")]


def copy_faults(read):
    for copy in COPIES:
        if read(copy) != read(COMPARE):
            yield f"{copy}: it is not {COMPARE}"
    if items_of(read(BOARD_ROWS)) != items_of(read(ROWS)):
        yield f"{BOARD_ROWS}: its items are not those of {ROWS}"


def version_faults(read):
    version = re.search(r'\.version\("(.*?)"\)', read(ARGUMENTS))[1]
    folder = f"pukzarn-{version}-x86_64-linux"
    for page, text in [(PAGE, f'"tracer {version}"'), (README, f"tar xzf {folder}.tar.gz\ncd {folder}\n")]:
        if text not in read(page):
            yield f"{page}: the version is not {version}, as {ARGUMENTS} has it"


def arguments_in(row):
    """The kinds of the arguments in a row of the page of tables."""
    return [] if row == "none" else re.findall(r"`(\w+)`", row)


def syscall_faults(read):
    table = re.findall(r'^    \((\d+), b"(\w+)", &\[(.*?)\]\),$', read(SYSCALLS), re.M)
    wanted = [(number, name, re.findall(r"\w+", kinds)) for number, name, kinds in table]
    part = read(TABLES).split("\n## System calls\n")[1].split("\n## ")[0]
    rows = re.findall(r"^\| (\d+) \| (\w+) \| (.*?) \|$", part, re.M)
    if [(number, name, arguments_in(row)) for number, name, row in rows] != wanted:
        yield f"{TABLES}: the system calls are not those of {SYSCALLS}"
    names = re.search(r"^The names are\n((?:\.BR .*\n)+)", read(PAGE), re.M)[1]
    if re.findall(r"^\.BR (\w+)", names, re.M) != [name for _, name, _ in wanted]:
        yield f"{PAGE}: the names of system calls are not those of {SYSCALLS}"


def option_faults(read):
    wanted = re.findall(r'codes "(\w+)", (0x\w+)\)', read(OPTIONS))
    constants = re.findall(r"pub const (\w+): Options = Options\((0x\w+)\);", read(OPTION_BITS))
    if constants != wanted:
        yield f"{OPTION_BITS}: the options are not those of {OPTIONS}"
    part = read(TABLES).split("\n## Options, wait flags, events\n")[1].split("\n## ")[0]
    if re.findall(r"^\| (TRACE\w+) \| `(0x\w+)` \|", part, re.M) != wanted:
        yield f"{TABLES}: the options are not those of {OPTIONS}"


def flag_faults(read):
    flags = re.findall(r"pub const (\w+): WaitFlags = WaitFlags\((\w+)\);", read(WAIT_FLAGS))
    events = re.findall(r"^            Event::(\w+) => (\d+),$", read(EVENTS), re.M)
    part = read(TABLES).split("\n## Options, wait flags, events\n")[1].split("\n## ")[0]
    rows = [line.strip("| ").split(" | ") for line in part.splitlines() if line.startswith("| TRACE")]
    said = [(name, int(row[3].strip("`"), 0)) for row in rows if len(row) == 6 for name in row[2].split(", ")]
    if sorted(said) != sorted((name, int(bit.replace("_", ""), 0)) for name, bit in flags):
        yield f"{TABLES}: the wait flags are not those of {WAIT_FLAGS}"
    if [(row[-2], row[-1]) for row in rows] != events:
        yield f"{TABLES}: the events are not those of {EVENTS}"


def cause_faults(read):
    wanted = re.findall(r"^    (\w+),$", read(CAUSES).split("pub enum Cause {")[1].split("\n}")[0], re.M)
    wanted.remove("NoMemory")
    page = read(PAGE).split("\n.I CAUSE\none of\n")[1].split("\nStatus 1.")[0]
    if re.findall(r"^\.BR (\w+)", page, re.M) != wanted:
        yield f"{PAGE}: the causes are not those of {CAUSES}"
    said = read(FORMATS) + read(CASE_FILES)
    for cause in wanted:
        if f"`{cause}`" not in said:
            yield f"{CASE_FILES}: neither it nor {FORMATS} has the cause {cause} of {CAUSES}"


def stop_faults(read):
    """Each kind of stop is made by some script, is in tests of what it means, and its word is in pages and cases."""
    kinds = re.findall(r"^    (\w+)(?:\(\w+\))?,$", read(STOPS).split("pub enum Stop {")[1].split("\n}")[0], re.M)
    for kind in kinds:
        for what, files in STOP_CODE.items():
            if not any(re.search(rf"\bStop::{kind}\b", read(file)) for file in files):
                yield f"{files[0]}: {what} has no Stop::{kind} of {STOPS}"
        for file, pattern in STOP_TEXT.items():
            if not re.search(pattern.replace("WORD", kind.lower()), read(file)):
                yield f"{file}: does not have the stop {kind.lower()} of {STOPS}"


def message_faults(read):
    messages = re.findall(r'codes "(tracer: [^"]*?)\\n"', read(MESSAGES))
    failure, formats, page = read(FAILURE), read(FORMATS), read(PAGE)
    for message in messages:
        if f'"{message}\\n"' not in failure:
            yield f"{FAILURE}: does not have the message {message!r} of {MESSAGES}"
        if f"`{message}`" not in formats:
            yield f"{FORMATS}: does not have the message {message!r} of {MESSAGES}"
        if f'"{message.replace("-", chr(92) + "-")}"' not in page:
            yield f"{PAGE}: does not have the message {message!r} of {MESSAGES}"
    for message in re.findall(r'#\[error\("(.*?)"\)\]', read(RUN_ERROR)):
        if message not in messages:
            yield f"{RUN_ERROR}: {message!r} is no message of {MESSAGES}"


def limit_faults(read):
    constant = r"^(?:pub(?:\(crate\))? )?const (\w+): u\w+ = ([\d_]+);"
    found = [it for path in LIMITS for it in re.findall(constant, read(path), re.M)]
    limits = {name: int(number) for name, number in found}
    limits |= {"ROWS_AND_ONE": limits["MOST_ROWS"] + 1, "LAST_TRACER": limits["TRACERS"] - 1}
    limits |= {"THREADS_AND_ONE": limits["MOST_THREADS"] + 1, "COMMANDS_AND_ONE": limits["MOST_COMMANDS"] + 1}
    limits |= {"NAME_LESS_ONE": limits["LONGEST_NAME"] - 1}
    budget = read(ARGUMENTS).split('Arg::new(alloc, "budget")')[1]
    limits |= {"BUDGET": int(re.search(r'default_value\("(\d+)"\)', budget)[1])}
    for page, text in SAID:
        wanted = text.format(**limits)
        if wanted not in read(page):
            yield f"{page}: does not say {wanted!r}, as {', '.join(LIMITS)} have it"


def places_of(widths):
    """Which bits fields of these widths have, and which are left of 64, as a table of bits says it."""
    ends = [sum(widths[:n]) for n in range(len(widths) + 1)] + [64]
    return [f"{low}" if low + 1 == high else f"{low} to {high - 1}" for low, high in zip(ends, ends[1:])]


def bit_faults(read):
    widths = re.findall(r"^pub\(crate\) const \w+_BITS: u32 = (\d+);$", read(WIDTHS), re.M)
    tracer = re.search(r"^tracer_bits = (\d+)$", read(TRACER_WIDTH), re.M)[1]
    wanted = places_of([*map(int, widths), int(tracer)])
    layout = read(LAYOUTS).split("\n## The word of a stop cell\n")[1].split("\n## ")[0]
    for page, text in [(WORD, read(WORD)), (LAYOUTS, layout)]:
        if re.findall(r"^(?:/// )?\| (\d+(?: to \d+)?) \|", text, re.M) != wanted:
            yield f"{page}: the bits of a word are not those of {WIDTHS} and {TRACER_WIDTH}"
    for bits in re.findall(r"`(0x[0-9a-f]{16})`", read(WORDS)):
        if bits not in layout:
            yield f"{WORDS}: {bits} is no word of {LAYOUTS}"


PARTS = [
    code_faults,
    copy_faults,
    version_faults,
    syscall_faults,
    option_faults,
    flag_faults,
    cause_faults,
    stop_faults,
    message_faults,
    limit_faults,
    bit_faults,
]

# What the self-test changes: in this file this text, which is there once, to that one.
CHANGES = [
    (README, "assert!(known.contains(&pid)", "assert!(!known.contains(&pid)"),
    (README, "sim.run().assert_all_reaped();", "sim.run();"),
    (RATTLE, "world.step(1, Action::Claim(0))", "world.step(0, Action::Claim(0))"),
    (RATTLE, "end(rt, calls, &[100])", "end(rt, calls, &[101])"),
    (TUTORIAL, "while running > 0 {", "while running > 1 {"),
    (TUTORIAL, "Err(Errno::ECHILD) => return Ok(failed),", "Err(Errno::EINTR) => return Ok(failed),"),
    (CALLS, "```rust\n/// Serves a stop", "```\n/// Serves a stop"),
    (CALLS, "calls.syscall(pid, signal)", "calls.cont(pid, signal)"),
    (CALLS, "regs.rdx = len", "regs.rsi = len"),
    (C_PAGE, "while ((pid = pukzarn_tracer_waitpid", "if ((pid = pukzarn_tracer_waitpid"),
    (MODEL_PAGE, "return pid;", "return 0;"),
    (COPIES[0], "assert_eq!(rt; found, wanted);", "assert_eq!(rt; wanted, wanted);"),
    (COPIES[-1], "assert!(rt; is_so, ", "assert!(rt; true, "),
    (BOARD_ROWS, "row(tid, tid, 77, 0)", "row(tid, tid, 78, 0)"),
    (PAGE, '"tracer 0', '"tracer 9'),
    (README, "tar xzf pukzarn-0", "tar xzf pukzarn-9"),
    (TABLES, "| 80 | chdir |", "| 81 | chdir |"),
    (TABLES, "| 83 | mkdir | `CString`, `Mode` |", "| 83 | mkdir | `CString` |"),
    (PAGE, ".BR rename ,\n", ""),
    (OPTION_BITS, "Options(0x40)", "Options(0x41)"),
    (TABLES, "| TRACEEXIT | `0x40`", "| TRACEEXIT | `0x41`"),
    (FAILURE, "tracer: lost stop", "tracer: lost a stop"),
    (FORMATS, "`tracer: cannot start threads`", "`tracer: cannot start a thread`"),
    (TABLES, "| WNOWAIT | `0x01000000` |", "| WNOWAIT | `0x02000000` |"),
    (TABLES, "| Seccomp | 7 |", "| Seccomp | 8 |"),
    (PAGE, ".BR SharedExec ,\n", ""),
    (CASE_FILES, "`SharedExec`", "`ExecShared`"),
    (PAGE, '"tracer: cannot write"', '"tracer: cannot print"'),
    (RUN_ERROR, "tracer: no memory", "tracer: out of memory"),
    (README, "256 rows, 16 tracers", "256 rows, 64 tracers"),
    (README, "65,536 steps", "65,535 steps"),
    (CALLS, "is above 4,194,303, so", "is above 4,194,304, so"),
    (FORMATS, "more than 256 rows, at the 257th", "more than 256 rows, at the 65th"),
    (CASE_FILES, "blocks, at most 256.", "blocks, at most 64."),
    (LITMUS_FILES, "N is 0 to 16,777,215,", "N is 1 to 16,777,215,"),
    (PAGE, "and 256 tracees.", "and 64 tracees."),
    (PLAIN, "LAST_TRACER: u32 = 15;", "LAST_TRACER: u32 = 16;"),
    (PLAIN_CASE, "MOST_ROWS: usize = 256;", "MOST_ROWS: usize = 64;"),
    (FORMATS, "`seccomp D`", "`secomp D`"),
    ("crates/trace_script/src/step/step_acts.rt", "Stop::Seccomp", "Stop::Enter"),
    (README, "at most 64 threads and 4,096 commands.", "at most 64 threads and 4,095 commands."),
    (LITMUS_FILES, "N times, 1 to 64;", "N times, 0 to 64;"),
    (LITMUS_FILES, "at most 31 letters, digits", "at most 32 letters, digits"),
    (LITMUS_FILES, "are at most 4,096.", "are at most 4,097."),
    (LITMUS_FILES, "the 65th thread", "the 64th thread"),
    (PAGE, "A litmus file has at most 64 threads", "A litmus file has at most 16 threads"),
    (PAGE, "N times, 1 to 64.", "N times, 1 to 65."),
    (LITMUS, "name 32 bytes", "name 31 bytes"),
    (LITMUS, "at most 64 times.", "at most 63 times."),
    (PLAIN_LITMUS, "MOST_COMMANDS: usize = 4096;", "MOST_COMMANDS: usize = 4095;"),
    (ARGUMENTS, "places are searched at most, 1 to 100000000", "places are searched at most, 1 to 1000000000"),
    (FORMATS, "| 1 to 100000000 | 1000000 |", "| 1 to 100000000 | 100000 |"),
    (PAGE, "The default is 1000000.", "The default is 100000."),
    (PAGE, "1 to 100000000, as a replay file", "0 to 100000000, as a replay file"),
    (PROGRAM, "a budget of 1,000,000 places", "a budget of 1,000,001 places"),
    (README, "with `--budget` up to 100,000,000;", "with `--budget` up to 10,000,000;"),
    (PLAIN_EXPLORE, "MOST_PLACES: usize = 1_000_000;", "MOST_PLACES: usize = 1_000_001;"),
    (WORD, "| 3 to 10 | births", "| 3 to 8 | births"),
    (LAYOUTS, "| 59 to 62 | tracer", "| 57 to 60 | tracer"),
    (WORDS, "0x0004002800000803", "0x0001000a00000203"),
]


def faults(read):
    return [fault for part in PARTS for fault in part(read)]


def self_test(read):
    """The changes that are not named, each in the file that has it."""
    for path, old, new in CHANGES:
        changed = lambda other: read(other).replace(old, new) if other == path else read(other)
        if read(path).count(old) != 1:
            yield f"{path}: {old!r} is there {read(path).count(old)} times"
        elif not any(fault.startswith(path) for fault in faults(changed)):
            yield f"{path}: {new!r} in place of {old!r} is not named"


def main():
    read = lambda path: (ROOT / path).read_text()
    found = [*self_test(read)] if sys.argv[1:] == ["--self-test"] else faults(read)
    for fault in found:
        print(f"one_source: {fault}", file=sys.stderr)
    sys.exit(bool(found))


if __name__ == "__main__":
    main()
