#!/usr/bin/env python3
"""Times programs of the repository beside plain ones of the same job, in turn in one run.

    bench.py [NAME ..]    builds what these benches need and runs them; without a name, those of `make bench`
    bench.py --list       prints each bench, and what it does
    bench.py --self-test  looks at the table, and at what is read, divided and limited; it needs no program

A bench is a row of benches.py: which programs are run beside each other, on what, how often, and what is limited. A
program is `tracer`, which is built already, or a file of bench/: NAME.rs is compiled by rustc, NAME.c with the library
for C, and NAME.rattle is proved. The first program of a part is what is measured, and the others are beside it.

What is above a limit, or cannot be measured, is in a line with FAILED, and the status is 1; it is 2 where a command is
not there. RT, RUSTC, CC, CARGO and LIBRARY in the environment name other ones.
"""

import argparse
import dataclasses
import hashlib
import os
import pathlib
import re
import shlex
import shutil
import signal
import statistics
import subprocess
import sys
import tempfile

TOP = pathlib.Path(__file__).resolve().parent.parent
sys.path.insert(0, str(TOP / "tools"))
import wrong_bodies  # noqa: E402
from benches import BENCHES, Part, Shape, chain, family, images, rows, writes  # noqa: E402

OUT = TOP / "bench/out"
COMMANDS = {"RT": "rt", "RUSTC": "rustc", "CC": "cc", "CARGO": "cargo"}
RT, RUSTC, CC, CARGO = (shlex.split(os.environ.get(name) or usual) for name, usual in COMMANDS.items())
LIBRARY = os.environ.get("LIBRARY") or "lib/libpukzarn.a"


class Failed(Exception):
    """Why a bench has no result."""


# Two benches without parts: which outcomes real threads had, and what a schedule of a model takes.


def seen_in(text):
    """What the tests of rounds say of them, and how many tests say it."""
    lines = [line[4:] for line in text.splitlines() if re.match(r"    (?:.*rounds|outcome)", line)]
    return lines, sum(bool(re.match(r"rounds of [23] threads: ", line)) for line in lines)


def see_rounds():
    """Runs two tests, each of which begins no round after 40 seconds."""
    need(RT)
    words = [*RT, "try", "--test", "--seconds", "300", "--", "explored::rounds"]
    how = {"stdin": subprocess.DEVNULL, "stdout": subprocess.PIPE, "stderr": subprocess.STDOUT}
    done = subprocess.run(words, cwd=TOP / "crates/outcome_tests", text=True, errors="replace", **how)
    if done.returncode:
        raise Failed(f"a test of the rounds did not pass:\n{done.stdout}")
    lines, tests = seen_in(done.stdout)
    print("\n".join(lines))
    if tests != 2:
        raise Failed("two tests were to say what was seen")
    if any(line.startswith("fewer than") for line in lines):
        print("bench-rounds: this machine was too busy for 100,000 rounds of each")


def time_schedules():
    """The program says itself what it took, and what it may take."""
    need(CARGO, ["taskset"])
    call([*CARGO, "build", "--quiet", "--release", "--manifest-path", "bench/schedules/Cargo.toml"])
    target = os.environ.get("CARGO_TARGET_DIR") or "bench/schedules/target"
    call(["taskset", "-c", "0", f"{target}/release/schedules"])


BY_ITSELF = {"rounds": see_rounds, "rust": time_schedules}


# How programs are built.


def need(*commands):
    for words in commands:
        if not shutil.which(words[0]):
            print(f"bench: there is no command {words[0]}, which it needs", file=sys.stderr)
            sys.exit(2)


def call(words, folder=TOP, **how):
    done = subprocess.run(words, cwd=folder, stdin=subprocess.DEVNULL, **how)
    if done.returncode:
        raise Failed(f"{shlex.join(map(str, words))} ended with status {done.returncode}")


def compile_rust(name, _):
    call([*RUSTC, "-O", "--edition", "2024", "-o", OUT / name, f"bench/{name}.rs"])


def compile_c(name, _):
    options = ["-O2", "-std=c99", "-D_POSIX_C_SOURCE=200809L", "-Iinclude"]
    call([*CC, *options, "-o", OUT / name, f"bench/{name}.c", LIBRARY])


def prove(name, bench):
    """Proves a program as a crate of a copy of the repository, so that an interruption leaves the repository as it was.

    The libraries below are proved in the repository, where they are kept for later, and the copy has second names of
    their files. It is not below the repository, since `rt ci` refuses sources there that are of no crate.
    """
    known = wrong_bodies.crates_of(TOP)
    uses = [known[use] for use in bench.uses.split() if use in known]
    for crate in uses:
        call([*RT, "lib"], crate.folder, stdout=sys.stderr)
    below = {it.name: it for crate in uses for it in [*crate.below, crate]}
    crate = wrong_bodies.Crate(name, TOP, f"{name}: {bench.uses}", [*below.values()])
    with tempfile.TemporaryDirectory(prefix="bench-", ignore_cleanup_errors=True) as room:
        folder = wrong_bodies.copied(crate, room)
        for file in ("src/main.rt", "specs/Lib.antt", "proofs/Lib.antt"):
            (folder / file).parent.mkdir(parents=True)
            (folder / file).touch()
        shutil.copyfile(TOP / f"bench/{name}.rattle", folder / "src/main.rt")
        call([*RT, "run", "--", *bench.first.split()], folder, stdout=subprocess.DEVNULL)
        shutil.copy2(folder / "out" / name, OUT)


BUILDERS = {".rs": (compile_rust, RUSTC), ".c": (compile_c, CC), ".rattle": (prove, RT)}


def commands_of(bench):
    """The commands of a bench, with those that write texts."""
    texts = [shape.text for part in bench.parts for shape in part.shapes if isinstance(shape.text, str)]
    return texts + [command for part in bench.parts for command in part.programs.values()]


def sources_of(bench):
    """The source of each program of a bench, or None where there is none."""
    names = dict.fromkeys(command.split()[0] for command in commands_of(bench))
    files = {name: [TOP / f"bench/{name}{ending}" for ending in BUILDERS] for name in names if name != "tracer"}
    return {name: next(filter(pathlib.Path.is_file, each), None) for name, each in files.items()}


def build(bench):
    sources = sources_of(bench)
    need(*(BUILDERS[source.suffix][1] for source in sources.values()))
    OUT.mkdir(parents=True, exist_ok=True)
    # Proofs come last, since they take longest.
    for name, source in sorted(sources.items(), key=lambda it: it[1].suffix == ".rattle"):
        BUILDERS[source.suffix][0](name, bench)


# How programs are run.

# A child begins with the memory of the process that starts it, which counts as its own. This one has 20 MiB, so another
# Python starts the child, which loads next to nothing and has 8.
STARTER = """
import os, sys, time
path, output, *words = sys.argv[1:]
made = os.O_WRONLY | os.O_CREAT | os.O_TRUNC
ends = [(os.POSIX_SPAWN_OPEN, 0, path, os.O_RDONLY, 0), (os.POSIX_SPAWN_OPEN, 1, output, made, 0o644)]
start = time.perf_counter()
child = os.posix_spawn(words[0], words, {}, file_actions=ends)
_, status, usage = os.wait4(child, 0)
print(time.perf_counter() - start, os.waitstatus_to_exitcode(status), usage.ru_maxrss)
"""
# What programs print that time themselves.
PRINTED = re.compile(r"(\d+) (?:rounds|pieces), (\d+(?:\.\d)?) (ns a round|us)(?:, (\d+) bytes)?, sum (\d+)\n")


def timed(words, path, output=os.devnull):
    """One run's seconds, and its peak memory in bytes. The program has no environment."""
    starter = [sys.executable, "-I", "-S", "-c", STARTER, path, output]
    done = subprocess.run([*starter, *words], stdout=subprocess.PIPE, text=True, check=True)
    seconds, status, peak = done.stdout.split()
    if status != "0":
        raise Failed(f"{shlex.join(words)} ended with status {status}")
    return float(seconds), int(peak) * 1024


def answer(words, path):
    """What a program answers to a text. Its output may be long, so a digest of it is kept."""
    with open(path, "rb") as file, tempfile.TemporaryFile() as errors:
        with subprocess.Popen(words, stdin=file, stdout=subprocess.PIPE, stderr=errors) as child:
            output = hashlib.file_digest(child.stdout, "sha256").hexdigest()
        errors.seek(0)
        return {"status": child.returncode, "output": output, "error text": errors.read()}


def printed_by(text, shape):
    """The seconds that a program prints, the bytes that it made, and its sum; None if it had to print another line."""
    found = PRINTED.fullmatch(text)
    if not found or found[1] not in shape.words.split() or shape.total not in (None, int(found[5])):
        return None
    return float(found[2]) * (1e-6 if found[3] == "us" else 1e-9), int(found[4] or 0), int(found[5])


@dataclasses.dataclass
class Series:
    """The runs of a program on a shape: their seconds, the most memory, and the bytes of its input and its output."""

    read: int = 0
    times: list = dataclasses.field(default_factory=list)
    peak: int = 0
    made: int = 0

    def add(self, seconds, peak, made=0):
        self.times.append(seconds)
        self.peak, self.made = max(self.peak, peak), made

    def best(self):
        return min(self.times)

    def middle(self):
        return statistics.median(self.times)


class Runner:
    """Runs the parts of a bench, with this program as `tracer`."""

    def __init__(self, bench, tracer):
        self.bench, self.tracer, self.paths = bench, tracer, {}

    def words(self, command, shape):
        name, *others = command.split()
        words = [str(self.tracer if name == "tracer" else OUT / name)]
        for word in others:
            words += shape.words.split() if word == "{}" else [word]
        return words

    def path(self, shape):
        """Where a shape's text is, which is written when it is first asked for."""
        text = shape.text
        if text is None or isinstance(text, pathlib.Path):
            return TOP / text if text else pathlib.Path(os.devnull)
        if text not in self.paths:
            path = self.paths[text] = OUT / f"{self.bench.name}_{len(self.paths)}.txt"
            if callable(text):
                path.write_text(text())
            else:
                with path.open("wb") as file:
                    call(self.words(text, shape), stdout=file)
        return self.paths[text]

    def compare(self, part, shape):
        """Sees that all programs answer a text alike, and the same cut short."""
        texts = [self.path(shape)]
        if part.cut:
            texts.append(OUT / "short.txt")
            shutil.copyfile(*texts)
            os.truncate(texts[1], texts[1].stat().st_size - part.cut)
        for text in texts:
            first, *others = [answer(self.words(it, shape), text) for it in part.programs.values()]
            for what in first:
                if any(other[what] != first[what] for other in others):
                    raise Failed(f"{shape.name}: the programs differ in their {what} for {text}")

    def run(self, command, part, shape, series):
        """Runs a program once more; what it made and its sum, if it prints that."""
        words, output = self.words(command, shape), OUT / "printed.txt" if part.prints else os.devnull
        seconds, peak = timed(words, self.path(shape), output)
        if not part.prints:
            return series.add(seconds / part.per, peak)
        text = output.read_text(errors="replace")
        found = printed_by(text, shape)
        if not found:
            raise Failed(f"{shlex.join(words)} had to print another line than {text!r}")
        series.add(found[0] / part.per, peak, found[1])
        return found[1:]

    def measure(self, part, runs):
        """The series of each program on each shape, by their names, all in turn."""
        if not part.prints and len(part.programs) > 1:
            for shape in part.shapes:
                self.compare(part, shape)
        sizes = {shape.name: self.path(shape).stat().st_size for shape in part.shapes}
        found = {(program, shape): Series(size) for shape, size in sizes.items() for program in part.programs}
        for _ in range(runs):
            for shape in part.shapes:
                made = {self.run(it, part, shape, found[name, shape.name]) for name, it in part.programs.items()}
                if len(made) != 1:
                    raise Failed(f"{shape.name}: the programs print different things: {made}")
        return found


# What is said of the runs, and limited.

# From this many bytes on an input is large: then its size is printed, and the memory as times the input.
LARGE = 1 << 20
# The kinds of figures of a program by itself, and those of the first program beside another one.
OWN = {"input": "times the input", "output": "times the output", "growth": "times as long as"}
BESIDE = {"time": "times the time", "memory": "times the memory", "more": "ns more by the middle"}


@dataclasses.dataclass(frozen=True)
class Figure:
    """A number that compares a program with another one, with a text, or with its own run on the first shape."""

    shape: str
    of: str
    to: str
    kind: str
    value: float

    def has(self, words):
        return {*words.split(", ")} <= {*f"{self.shape}, {self.to}, {self.kind}".split(", ")}

    def most(self, limits):
        return min((most for words, most in limits.items() if self.has(words)), default=float("inf"))

    def text(self, limits):
        unit = BESIDE.get(self.kind) or OWN[self.kind] + f" {self.to}" * (self.kind == "growth")
        most = self.most(limits)
        return f"{number(self.value)} {unit}" + (f" (at most {most:g})" if most < float("inf") else "")

    def fault(self, limits):
        most = self.most(limits)
        where = ", ".join(it for it in (self.shape, self.to, self.kind) if it)
        return f"{where}: {number(self.value)} is above {most:g}" if self.value > most else ""


def figures_of(part, found):
    first = part.shapes[0].name
    for (program, shape), series in found.items():
        if series.read >= LARGE:
            yield Figure(shape, program, "", "input", series.peak / series.read)
        if series.made:
            yield Figure(shape, program, "", "output", series.peak / series.made)
        if shape != first:
            yield Figure(shape, program, first, "growth", series.best() / found[program, first].best())
        if program != part.subject:
            own = found[part.subject, shape]
            yield Figure(shape, part.subject, program, "time", own.best() / series.best())
            yield Figure(shape, part.subject, program, "memory", own.peak / series.peak)
            yield Figure(shape, part.subject, program, "more", (own.middle() - series.middle()) * 1e9)


def limited(part, found):
    """The figures that limits are for."""
    return [figure for figure in figures_of(part, found) if figure.of == part.subject]


def number(value):
    """A number with three digits or more."""
    size = abs(value)
    return f"{value:.{3 if size < 1 else 2 if size < 10 else 1 if size < 100 else 0}f}"


def duration(seconds):
    unit, size = next((it for it in [("s", 1), ("ms", 1e-3), ("us", 1e-6)] if seconds >= it[1]), ("ns", 1e-9))
    return f"{number(seconds / size)} {unit}"


def result(part, found, limits):
    """The lines of a part: of each program on each shape the times, the memory, and what they compare with."""
    width = max(map(len, part.programs))
    figures = [it for it in figures_of(part, found) if it.kind in part.says]
    for (program, shape), series in found.items():
        if program == part.subject:
            yield shape + (f", {series.read / 1e6:.1f} MB:" if series.read >= LARGE else ":")
        said = [f"{series.peak / 2**20:.1f} MiB"] if {"memory", "input", "output"} & {*part.says} else []
        mine = [it for it in figures if it.shape == shape and (it.to if it.kind in BESIDE else it.of) == program]
        said += [it.text(limits if program == part.subject else {}) for it in mine if it.kind in OWN]
        beside = ", ".join(it.text(limits) for it in mine if it.kind in BESIDE)
        said += [f"{part.subject}: {beside}"] if beside else []
        times = f"{duration(series.best()):>7} ({duration(series.middle())})"
        yield f"  {program:{width}}  {times:19}  {'; '.join(said)}".rstrip()


def run_parts(bench, asked):
    """Prints the results of a bench; answers what is above its limit."""
    tracer = asked.program.resolve()
    if any(command.split()[0] == "tracer" for command in commands_of(bench)) and not tracer.is_file():
        raise Failed(f"there is no program {asked.program}: `make` builds bin/tracer")
    build(bench)
    runner, figures, faults = Runner(bench, tracer), [], []
    for part in bench.parts:
        runs, limits = asked.runs or part.runs, part.limits | asked.limits
        found = runner.measure(part, runs)
        print(f"{part.each}, best (and middle) of {runs}:", *result(part, found, limits), sep="\n", flush=True)
        figures += limited(part, found)
        faults += [figure.fault(limits) for figure in limited(part, found)]
    faults += [f"no figure has the words {it!r}" for it in asked.limits if not any(that.has(it) for that in figures)]
    return [it for it in faults if it]


def is_well(bench, asked):
    print(f"bench-{bench.name}: {bench.about}", flush=True)
    try:
        faults = run_parts(bench, asked) if bench.parts else BY_ITSELF[bench.name]()
    except Failed as why:
        faults = [why]
    for fault in faults or []:
        print(f"bench-{bench.name}: FAILED: {fault}", file=sys.stderr, flush=True)
    return not faults


# The self-test.


def table_faults():
    """What is wrong in the table, by what it says and by the sources of bench/."""
    if len({bench.name for bench in BENCHES}) < len(BENCHES):
        yield "two benches have one name"
    if {bench.name for bench in BENCHES if not bench.parts} != {*BY_ITSELF}:
        yield "the benches without parts are not those that run by themselves"
    for bench in BENCHES:
        sources = sources_of(bench)
        yield from (f"{bench.name}: {name} has no source" for name, source in sources.items() if not source)
        if bool(bench.uses) != any(source.suffix == ".rattle" for source in sources.values() if source):
            yield f"{bench.name}: libraries are for a program in Rattle"
        for part in bench.parts:
            pairs = [(program, shape.name) for shape in part.shapes for program in part.programs]
            found = {pair: Series(LARGE, [1], 1, 1) for pair in pairs}
            own = limited(part, found)
            if len(found) < len(pairs):
                yield f"{bench.name}: two shapes have one name"
            for words in part.limits:
                if not any(it.has(words) and it.kind in part.says for it in own):
                    yield f"{bench.name}: no figure that is printed has the words {words!r}"


# A case of two rows of which one forks the other, one of a string on two pages, without their bytes, and what the tests
# of rounds print.
FORKED = "tracee 100 100 77 0\nsignal 10\nfork 101\nexit 0\nend\ntracee 101 101 77 100\nexit 0\nend\n"
WRITTEN = """\
tracee 100 100 77 0
page 0x10000
data 0x10000
page 0x11000
data 0x11000
call write 1 0x10000 4097 = 4097
exit 0
end
"""
SEEN = "    rounds of 2 threads: 9, in\n    outcome 1, seen 9: a\n    rounds of 3 threads: 8, in\nrun=ended\n"
# The words and the sum of a shape, what a program prints, and what is read of it.
LINES = [
    ("own 20", None, "20 rounds, 2.0 ns a round, sum 7\n", (2e-9, 0, 7)),
    ("order 20", None, "20 pieces, 3 us, 44 bytes, sum 7\n", (3e-6, 44, 7)),
    ("own 20", 7, "20 rounds, 2.0 ns a round, sum 7\n", (2e-9, 0, 7)),
    ("own 30", None, "20 rounds, 2.0 ns a round, sum 7\n", None),
    ("own 20", 8, "20 rounds, 2.0 ns a round, sum 7\n", None),
    ("own 20", None, "the rows have no stop\n", None),
]
# Programs a and b on shapes x and y, some limits, and what is printed.
SMALL = Part({"a": "", "b": ""}, (Shape("x"), Shape("y")), 3, says=("time", "input", "growth"))
MEASURED = {
    ("a", "x"): Series(LARGE, [0.2, 0.4, 0.3], 3 * LARGE),
    ("b", "x"): Series(LARGE, [0.1, 0.1, 0.1], 2 * LARGE),
    ("a", "y"): Series(0, [0.5, 0.5, 0.6], LARGE),
    ("b", "y"): Series(0, [2.5, 2.5, 2.5], 4 * LARGE),
}
LIMITS = {"input": 2.5, "x, time": 2, "time": 5, "y, b, time": 0.1, "growth": 3, "memory": 1.4}
SAID = """\
x, 1.0 MB:
  a   200 ms (300 ms)     3.0 MiB; 3.00 times the input (at most 2.5)
  b   100 ms (100 ms)     2.0 MiB; 2.00 times the input; a: 2.00 times the time (at most 2)
y:
  a   500 ms (500 ms)     1.0 MiB; 2.50 times as long as x (at most 3)
  b   2.50 s (2.50 s)     4.0 MiB; 25.0 times as long as x; a: 0.200 times the time (at most 0.1)
"""
FAULTS = [
    "x, input: 3.00 is above 2.5",
    "x, b, memory: 1.50 is above 1.4",
    "y, b, time: 0.200 is above 0.1",
]

# What two programs in Python do, and what is said of that.
DONE = [
    ("print(1)", "print(1)", "2 and 2 runs"),
    ("print(1)", "print(2)", "differ in their output"),
    ("print(1)", "exit(3)", "differ in their status"),
    ("exit('a')", "exit('b')", "differ in their error text"),
    ("exit(3)", "exit(3)", "ended with status 3"),
]


def done_by(*codes):
    part = Part({name: f"tracer -c {code}" for name, code in zip("ab", codes)}, (Shape("x"),), 2)
    try:
        found = Runner(BENCHES[0], sys.executable).measure(part, part.runs)
        return " and ".join(str(len(series.times)) for series in found.values()) + " runs"
    except Failed as why:
        return str(why)


def self_test():
    """Each thing that is not as it was worked out by hand."""
    yield from table_faults()
    of_lines = [(printed_by(line, Shape("", words, total=total)), wanted) for words, total, line, wanted in LINES]
    faults = [it.fault(LIMITS) for it in limited(SMALL, MEASURED)]
    words = Runner(BENCHES[0], "bin/tracer").words("tracer run -w {} -f", Shape("", "4 5"))
    for found, wanted in [
        *of_lines,
        (rows(2, 2, "b\n", "a\n"), "tracee 100 100 77 0\na\nb\nb\nend\ntracee 101 101 77 0\na\nb\nb\nend\n"),
        (family(chain(2), 1, 1), FORKED),
        (images(1, 2), "tracee 100 100 77 0\nexec 0x10000\npage 0x10000\npage 0x11000\nexit 0\nend\n"),
        (re.sub(r" \d{9,}\n", "\n", writes(1, 4097)), WRITTEN),
        (seen_in(SEEN), (SEEN.replace("    ", "").splitlines()[:3], 2)),
        (words, ["bin/tracer", "run", "-w", "4", "5", "-f"]),
        ([number(it) for it in (0.1139, 1.174, 15.24, 5955)], ["0.114", "1.17", "15.2", "5955"]),
        ([duration(it) for it in (48e-9, 3.1e-6, 0.107, 4.4)], ["48.0 ns", "3.10 us", "107 ms", "4.40 s"]),
        ("\n".join(result(SMALL, MEASURED, LIMITS)) + "\n", SAID),
        ([it for it in faults if it], FAULTS),
        *((said in done_by(*codes), True) for *codes, said in DONE),
    ]:
        if found != wanted:
            yield f"{found!r} in place of {wanted!r}"


def limit(text):
    words, _, most = text.rpartition("=")
    return words, float(most)


def arguments():
    known = {bench.name: bench for bench in BENCHES}
    shape = {"description": __doc__, "formatter_class": argparse.RawDescriptionHelpFormatter}
    parser = argparse.ArgumentParser(**shape)
    parser.add_argument("names", metavar="NAME", nargs="*", help="the benches to run")
    parser.add_argument("--list", action="store_true", help="print each bench, and what it does")
    parser.add_argument("--self-test", action="store_true", help="test the driver")
    parser.add_argument("--program", type=pathlib.Path, default=TOP / "bin/tracer", help="the program, as it is built")
    parser.add_argument("--runs", type=int, help="how often each program is run, in place of what the table says")
    parser.add_argument("--limit", dest="limits", metavar="WORDS=NUMBER", type=limit, action="append", default=[],
                        help="fail where a figure with these words is above this number, as time=1.5")
    asked = parser.parse_args()
    unknown = [name for name in asked.names if name not in known]
    if unknown:
        parser.error(f"there is no bench {unknown[0]}: the table has {', '.join(known)}")
    asked.limits = dict(asked.limits)
    asked.benches = [known[name] for name in asked.names] or [bench for bench in BENCHES if bench.is_usual]
    return asked


def main():
    for each in (signal.SIGTERM, signal.SIGHUP):
        # An exception ends what is running, and removes the copy of the repository.
        signal.signal(each, lambda which, _: sys.exit(128 + which))
    asked = arguments()
    if asked.list:
        print("\n".join(f"{bench.name:8} {bench.about}" for bench in BENCHES))
    elif asked.self_test:
        faults = [*self_test()]
        for fault in faults:
            print(f"bench: {fault}", file=sys.stderr)
        return bool(faults)
    else:
        return not all([is_well(bench, asked) for bench in asked.benches])


if __name__ == "__main__":
    try:
        sys.exit(main())
    except KeyboardInterrupt:
        sys.exit(130)
