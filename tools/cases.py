#!/usr/bin/env python3
"""Feeds words and bytes to the program, and compares what it prints and its exit status with what is wanted.

    cases.py check          all of tests/cases/*.cases and every file of examples/: one build, then a run of each
    cases.py check --program FILE    the same with a program that is built already, in place of that build
    cases.py demo NAME..    runs files of examples/, as run/fork.case, and shows each with its answer
    cases.py try FILE [-- WORD ..] runs any file as the program's standard input, and ends with its status; without
                                   words by the file's ending: .case runs, .litmus explores, others replay
    cases.py --self-test    shows that a wrong text, message or status is found; it builds nothing

The program is built once, without proofs, by `rt try --cases` (the environment variable RT names another `rt`). It
calls the program `program`, so a usage begins with `Usage: program`. A program that is built already is called so too.

An example NAME has NAME.args, its words after the name of its folder, one a line; NAME.stdout, NAME.stderr and
NAME.status are what it prints and its exit status. One that is not there stands for nothing, and for 0. Of an example
of examples/explore outcomes.py says what else is run. Of random litmus files litmus.py says what is printed.

A file of cases has lines of these kinds. Spaces before them do not matter.

    # ..              a comment; empty lines are ignored too
    case TITLE        begins a case, whose title is a sentence
    text NAME         a text that later places {NAME} of the file stand for
    words WORD ..     the words after the program's name
    input             the lines of text after it are standard input
    stdout, stderr    the lines of text after it are all that is printed there; without them nothing may be
    stdout has TEXT   the text is printed there, whatever else is; may come several times (so does stderr has)
    status N          the exit status; 0 where there is no such line
    cut A B           a run for each length from A to B, on so many bytes from the beginning of the input
    rows              begins a table; each `-` line after it is a row of its columns, with | between them

A line of text is `| TEXT`, which ends with a line feed, or `+ TEXT`, which does not. A number before it says how
often it stands there. A case with a table has a run for each row: {1} stands for its first column, {2} for the second
and so on. A second table's columns are numbered on, and each of its rows goes with each row of the first.

Other places are {nl}, a line feed; {xHH}, the byte with this hexadecimal number; {n} and {n*K}, in a text that is
repeated, its number from 1 on, and K times that. Words are taken apart after the places have been filled in; "" is
the empty word, {x20} a space in a word, and {} the name of a file that has the bytes of standard input.
"""

import argparse
import concurrent.futures
import itertools
import os
import pathlib
import re
import shlex
import shutil
import subprocess
import sys
import tempfile
import time

import litmus
import outcomes

TOP = pathlib.Path(__file__).resolve().parent.parent
TEXT = re.compile(r"(?:(\d+) )?([|+])(?: (.*))?")
PLACE = re.compile(r"\{([a-z0-9_]+)\}")
BYTE = re.compile(r"\{x([0-9a-f]{2})\}")
COUNT = re.compile(r"\{n(?:\*(\d+))?\}")
ENDED = re.compile(rb"case=(\S+) run=(\S+)(?: status=(\d+))? .*proved=no\n")
BESIDE = (".args", ".stdout", ".stderr", ".status")
SHOWN = 2000
# The command that a file is tried with, by its ending.
COMMANDS = {".case": "run", ".litmus": "explore"}
# How many random litmus files are run.
RANDOM_FILES = 200
# The most that a run of a built program may take.
SECONDS = 120


class Run:
    """One run of the program: where it is written down, what it is given, and what is wanted of it."""

    def __init__(self, where, words, given):
        self.where, self.words, self.given = where, words, given
        self.wanted = {"stdout": b"", "stderr": b""}
        self.has = {"stdout": [], "stderr": []}
        self.status = 0


class Case:
    """A case as it is written: its texts are lists of (count, text, whether a line feed ends it)."""

    def __init__(self, where, title):
        self.where, self.title, self.words, self.status = where, title, "", "0"
        self.texts = {"input": [], "stdout": [], "stderr": []}
        self.has = {"stdout": [], "stderr": []}
        self.cut, self.tables = None, []


def bytes_of(text):
    """A text's bytes, where {xHH} stands for one."""
    parts = BYTE.split(text)
    return b"".join(bytes.fromhex(it) if i % 2 else it.encode() for i, it in enumerate(parts))


def filled(text, places):
    """A text with its places filled in; what fills one may have places itself."""
    def fill(found):
        name = found[1]
        if name == "n" or BYTE.fullmatch(found[0]):
            return found[0]
        if name not in places:
            raise ValueError(f"{found[0]} stands for nothing")
        return filled(places[name], places)

    return PLACE.sub(fill, text)


def written(lines, places):
    """The bytes of lines of text."""
    whole = []
    for count, text, end in lines:
        line = filled(text, places) + end
        if COUNT.search(line):
            numbered = (COUNT.sub(lambda it: str(n * int(it[1] or 1)), line) for n in range(1, count + 1))
            whole += map(bytes_of, numbered)
        else:
            whole.append(bytes_of(line) * count)
    return b"".join(whole)


def words_of(text, places):
    """The words of a line, each as bytes."""
    words = filled(text, places).split()
    return [b"" if it == '""' else bytes_of(it) for it in words]


class Reader:
    """Reads the lines of a file of cases."""

    def __init__(self, name):
        self.name, self.cases, self.named = name, [], {"nl": "\n"}
        self.case, self.lines, self.texts = None, None, {}

    def read(self, text):
        for number, line in enumerate(text.split("\n"), 1):
            line = line.lstrip(" ")
            try:
                if line and not line.startswith("#"):
                    self.line(f"{self.name}:{number}", line)
            except (ValueError, TypeError, AttributeError, LookupError) as error:
                sys.exit(f"cases: FAILED: {self.name}:{number}: cannot read this line: {line!r} ({error})")
        self.named |= {name: "".join((t + end) * count for count, t, end in it) for name, it in self.texts.items()}
        return self.cases

    def line(self, where, line):
        word, _, rest = line.partition(" ")
        found = TEXT.fullmatch(line)
        if found:
            self.lines.append((int(found[1] or 1), found[3] or "", "\n" if found[2] == "|" else ""))
        elif word == "text":
            self.lines = self.texts[rest] = []
        elif word == "case":
            self.case, self.lines = Case(where, rest), None
            self.cases.append(self.case)
        elif word == "-":
            self.case.tables[-1].append((where, [it.strip() for it in rest.split("|")]))
        elif word == "rows" and not rest:
            self.case.tables.append([])
        elif rest.startswith("has "):
            self.case.has[word].append(rest[4:])
        elif word in self.case.texts and not rest:
            self.lines = self.case.texts[word]
        else:
            self.setting(word, rest)

    def setting(self, word, rest):
        if word not in ("words", "status", "cut"):
            raise ValueError("no such word")
        setattr(self.case, word, rest)


def runs_of(case, named):
    """The runs of a case: one for each choice of a row of each table, and for each length of its input."""
    if not all(case.tables):
        raise ValueError("a table has no rows")
    for chosen in itertools.product(*case.tables):
        columns = list(itertools.chain(*(row for _, row in chosen)))
        places = named | {str(i): it for i, it in enumerate(columns, 1)}
        where = f"{chosen[0][0] if chosen else case.where}, {case.title}" + f" [{' | '.join(columns)}]" * bool(columns)
        given = written(case.texts["input"], places)
        lengths = [None]
        if case.cut:
            first, last = map(int, filled(case.cut, places).split())
            lengths = range(first, last + 1)
        for length in lengths:
            run = Run(where + f", {length} bytes" * bool(case.cut), words_of(case.words, places), given[:length])
            run.status = int(filled(case.status, places))
            for stream in run.wanted:
                run.has[stream] = [bytes_of(filled(it, places)) for it in case.has[stream]]
                run.wanted[stream] = None if run.has[stream] else written(case.texts[stream], places)
            yield run


def runs_of_file(path):
    """The runs of a file of cases."""
    reader = Reader(path.relative_to(TOP).as_posix())
    found = []
    for case in reader.read(path.read_text()):
        try:
            found += runs_of(case, reader.named)
        except ValueError as error:
            sys.exit(f"cases: FAILED: {case.where}, {case.title}: {error}")
    return found or sys.exit(f"cases: FAILED: {reader.name} has no cases")


def example(path):
    """The run of a file of examples/."""
    def beside(end):
        it = path.with_name(path.name + end)
        return it.read_bytes() if it.exists() else b""

    words = [path.parent.name.encode(), *beside(".args").splitlines()]
    run = Run(path.relative_to(TOP).as_posix(), words, path.read_bytes())
    run.wanted = {"stdout": beside(".stdout"), "stderr": beside(".stderr")}
    run.status = int(beside(".status") or 0)
    return run


def followed(run):
    """What else is run of an example of examples/explore."""
    options = [word.decode() for word in run.words[1:]]
    for found in outcomes.follow(options, run.given, run.wanted["stdout"]):
        yield wanted_run(f"{run.where}, tracer {' '.join(found[0])}", *found)


def wanted_run(where, words, given, stdout, stderr, status):
    run = Run(where, [word.encode() for word in words], given)
    run.wanted, run.status = {"stdout": stdout, "stderr": stderr}, status
    return run


def random_runs():
    """The runs of random litmus files, and of two that are not, with what litmus.py makes of them."""
    yield wanted_run("the litmus file of a long text", *litmus.long_run())
    yield wanted_run("the litmus file of many ends", *litmus.many_ends())
    for number, found in enumerate(litmus.random_runs(RANDOM_FILES), 1):
        yield wanted_run(f"random litmus file {number}:\n{found[1].decode()}", *found)


def report_of(runs):
    """What rt prints on its two streams of these runs, which it makes under the names of `name_of`."""
    with tempfile.TemporaryDirectory(prefix="cases-") as folder:
        for number, run in enumerate(runs):
            file = pathlib.Path(folder, name_of(number))
            file.write_bytes(run.given)
            file.with_name(file.name + ".args").write_bytes(b"".join(word + b"\n" for word in run.words))
        command = [*shlex.split(os.environ.get("RT", "rt")), "try", "--cases", folder]
        return subprocess.run(command, cwd=TOP / "crates/tracer", stdin=subprocess.DEVNULL, capture_output=True)


def name_of(number):
    return f"tried_{number:05}"


def found_in(stdout, stderr, count):
    """For each run its standard output, its standard error and its status, or None where it did not end."""
    ends, at = {}, 0
    for line in ENDED.finditer(stderr):
        if line.start() == at or stderr[line.start() - 1:line.start()] == b"\n":
            status = int(line[3]) if line[2] == b"ended" else None
            ends[line[1].decode()] = (stderr[at:line.start()], status)
            at = line.end()
    blocks = re.split(rb"^== (tried_\d{5})\n", stdout, flags=re.M)
    printed = dict(zip((it.decode() for it in blocks[1::2]), blocks[2::2]))
    names = [name_of(number) for number in range(count)]
    return [(printed.get(it, b""), *ends[it]) if it in ends else (b"", b"", None) for it in names]


def run_of(program, run):
    """What a built program prints on its two streams in this run, and its status, or None where it did not end."""
    with tempfile.TemporaryDirectory(prefix="cases-") as folder:
        pathlib.Path(folder, "input").write_bytes(run.given)
        words = [b"input" if it == b"{}" else it for it in run.words]
        try:
            how = {"cwd": folder, "env": {}, "input": run.given, "capture_output": True, "timeout": SECONDS}
            ran = subprocess.run([program, *words], **how)
        except subprocess.TimeoutExpired as late:
            return late.stdout or b"", late.stderr or b"", None
        return ran.stdout, ran.stderr, ran.returncode if ran.returncode >= 0 else None


def found_by(program, runs):
    """For each run what the built program answers, under the name that rt gives one."""
    with tempfile.TemporaryDirectory(prefix="cases-") as folder:
        named = shutil.copy2(program, pathlib.Path(folder, "program"))
        with concurrent.futures.ThreadPoolExecutor(len(os.sched_getaffinity(0))) as pool:
            return list(pool.map(lambda run: run_of(named, run), runs))


def shown(text):
    """A text for a report, of which a long one is cut."""
    text = text.decode(errors="backslashreplace")
    more = f".. ({len(text)} characters)\n" if len(text) > SHOWN else ""
    return "".join(f"      {it}\n" for it in (text[:SHOWN] + more).split("\n")[:-1 if text.endswith("\n") else None])


def differences(run, found):
    """What differs in a run from what is wanted, a text for each."""
    stdout, stderr, status = found
    if status is None:
        yield f"    it did not end\n{shown(stderr)}"
        return
    for stream, text in (("stdout", stdout), ("stderr", stderr)):
        for part in run.has[stream]:
            if part not in text:
                yield f"    {stream}, wanted somewhere:\n{shown(part)}    found:\n{shown(text)}"
        if run.wanted[stream] not in (None, text):
            yield f"    {stream}, wanted:\n{shown(run.wanted[stream])}    found:\n{shown(text)}"
    if status != run.status:
        yield f"    status, wanted {run.status}, found {status}\n"


def compare(runs, answers):
    """Names each run that differs, and says how many passed; the exit status."""
    failed = 0
    for run, found in zip(runs, answers):
        faults = list(differences(run, found))
        if faults:
            failed += 1
            print(f"  FAILED {run.where}\n" + "".join(faults), end="")
    print(f"{len(runs) - failed} passed, {failed} failed")
    return 1 if failed or not runs else 0


def all_runs():
    """The runs of all examples and of all files of cases; it says how many each folder and file has."""
    runs = []
    for folder in ("replay", "run", "explore"):
        paths = sorted(it for it in (TOP / "examples" / folder).iterdir() if it.suffix not in BESIDE)
        found = [*map(example, paths)]
        runs += found
        print(f"  {len(paths):4} files of examples/{folder}")
        if folder == "explore":
            more = [it for run in found for it in followed(run)]
            runs += more
            print(f"  {len(more):4} more runs of these, with options and as replays")
    more = [*random_runs()]
    runs += more
    print(f"  {len(more):4} litmus files, random ones, one of a long text and one of many ends")
    paths = sorted((TOP / "tests/cases").glob("*.cases"))
    for path in paths:
        found = runs_of_file(path)
        runs += found
        print(f"  {len(found):4} runs of tests/cases/{path.name}", flush=True)
    return runs if paths else sys.exit("cases: FAILED: there are no files tests/cases/*.cases")


def check(program):
    began, runs = time.monotonic(), all_runs()
    if program:
        answers, what = found_by(program, runs), "these runs"
    else:
        report = report_of(runs)
        if b"case=" not in report.stderr:
            print(f"{report.stderr.decode(errors='replace')}cases: FAILED: nothing was run")
            return 1
        answers, what = found_in(report.stdout, report.stderr, len(runs)), "one build and these runs"
    print(f"  {time.monotonic() - began:.0f} seconds for {what}")
    return compare(runs, answers)


def demo(names):
    runs = [example(TOP / "examples" / name) for name in names]
    report = report_of(runs)
    for name, run, found in zip(names, runs, found_in(report.stdout, report.stderr, len(runs))):
        words = " ".join(it.decode() for it in run.words)
        print(f"\ntracer {words} < examples/{name}, which is")
        print("".join(f"    {line}\n" for line in run.given.decode().splitlines()) + "answers")
        print((found[0] + found[1]).decode(), end="")
        if found[2] is None:
            print("cases: FAILED: it did not end\n" + report.stderr.decode(errors="replace"))
            return 1
        print(f"status {found[2]}")
    return 0


def try_file(name, *words):
    """Prints on both streams what the program answers a file, and answers its status."""
    path = pathlib.Path(name)
    words = words or [COMMANDS.get(path.suffix, "replay")]
    try:
        run = Run(name, [word.encode() for word in words], path.read_bytes())
    except OSError as error:
        print(f"cases: {name}: {error.strerror}", file=sys.stderr)
        return 2
    report = report_of([run])
    stdout, stderr, status = found_in(report.stdout, report.stderr, 1)[0]
    sys.stdout.buffer.write(stdout)
    sys.stdout.flush()
    sys.stderr.buffer.write(stderr)
    if status is None:
        print("cases: FAILED: it did not end\n" + report.stderr.decode(errors="replace"), file=sys.stderr)
        return 1
    return status


SELF_TEST = """
text row
    | row 1 1 1 0
case The first column
  words {1} {2}
  input
    + {row}{x41}
    2 | {n*3}
  stdout
    | out
  stderr has err
  status 3
  rows
    - replay | {x20}4
  rows
    - right
    - stdout
    - stderr
    - status
    - fault
    - absent
"""


def self_test():
    """Compares a report that was written by hand, with one right run and a fault of each kind; and an outcome, too."""
    reader = Reader("self-test")
    runs = [run for case in reader.read(SELF_TEST) for run in runs_of(case, reader.named)]
    answers = [("out", "an err", 3), ("ou", "an err", 3), ("out", "none", 3), ("out", "an err", 2)]
    stdout = "".join(f"== {name_of(i)}\n{it[0]}\n" for i, it in enumerate(answers)).encode()
    ends = (f"{it[1]}\ncase={name_of(i)} run=ended status={it[2]} proved=no\n" for i, it in enumerate(answers))
    stderr = ("".join(ends) + f"case={name_of(4)} run=fault proved=no\n").encode()
    found = [list(differences(*it)) for it in zip(runs, found_in(stdout, stderr, len(runs)))]
    first = [it[0].split()[0] if it else "" for it in found]
    wanted = ["", "stdout,", "stderr,", "status,", "it", "it"]
    inputs = {run.given for run in runs} == {b"row 1 1 1 0\nA3\n6\n"} and runs[0].words == [b"replay", b" 4"]
    right = first == wanted and [len(it) for it in found] == [0, 1, 1, 1, 1, 1] and inputs and outcomes.is_right()
    print("cases: the self-test " + ("passed" if right else f"FAILED: {first}, {runs[0].given}, {runs[0].words}"))
    return 0 if right else 1


def main():
    shape = {"description": __doc__, "formatter_class": argparse.RawDescriptionHelpFormatter}
    usage = "cases.py check [--program FILE] | demo NAME.. | try FILE [-- WORD ..] | --self-test"
    parser = argparse.ArgumentParser(**shape, usage=usage)
    parser.add_argument("--self-test", action="store_true", help="compare a report that was written by hand")
    parser.add_argument("--program", type=pathlib.Path, help="a program that is built already")
    parser.add_argument("what", nargs="?", choices=["check", "demo", "try"])
    parser.add_argument("names", nargs="*", help="files of examples/; a file, and the program's words")
    asked = parser.parse_args()
    if asked.self_test:
        return self_test()
    if asked.what == "demo" and asked.names:
        return demo(asked.names)
    if asked.what == "try" and asked.names:
        return try_file(*asked.names)
    return check(asked.program) if asked.what == "check" else parser.error("say what to do")


if __name__ == "__main__":
    sys.exit(main())
