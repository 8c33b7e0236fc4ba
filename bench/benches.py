"""The benches that bench.py runs, as the table BENCHES; before it, what its rows are made of, and texts of cases."""

import dataclasses
import functools
import pathlib


@dataclasses.dataclass(frozen=True)
class Shape:
    """What programs are run on: `words` takes the place of {} in their commands, and `text` is their input: the path of
    a file, the command of a program of bench/ that prints it (a str), or a function that returns it."""

    name: str
    words: str = ""
    text: object = None
    # The sum that they have to print. Without one, all have to print the same.
    total: int | None = None


@dataclasses.dataclass(frozen=True)
class Part:
    """Programs (their commands, by the names that they have in the result) that are run in turn on each shape."""

    programs: dict
    shapes: tuple
    runs: int
    # Whether they time themselves, and print it (PRINTED). Else the clock counts, and they have to answer each text
    # alike; with `cut` also the text without that many bytes at its end.
    prints: bool = False
    cut: int = 0
    # What a time is given for, and how many of these a run has.
    each: str = "a run"
    per: int = 1
    # The kinds of figures that are printed (OWN, BESIDE), and the most that those of the first program may be. A limit
    # is for all figures of a kind, or for those that have all its words, as "own rows, exchange, time".
    says: tuple = ("time",)
    limits: dict = dataclasses.field(default_factory=dict)

    @property
    def subject(self):
        return next(iter(self.programs))


@dataclasses.dataclass(frozen=True)
class Bench:
    name: str
    about: str
    # Without any, bench.py has a function of its own for it (BY_ITSELF).
    parts: tuple = ()
    # Of its program in Rattle: the libraries, as crates.txt would have them, and the words of its first run.
    uses: str = ""
    first: str = ""
    # Whether `make bench` runs it.
    is_usual: bool = True


# Texts of cases.


def rows(count, calls, call="call getpid = 1\n", first=""):
    """Root tracees, each of which makes the same call again and again."""
    return "".join(f"tracee {tid} {tid} 77 0\n{first}{call * calls}end\n" for tid in range(100, 100 + count))


def family(children, loud, signals):
    """A root, and the rows that it and they fork in the end, each a process of its own. `children` has the children of
    each row, by their places. The first rows, as many as are loud, have signals before that."""
    parents = {child: 100 + parent for parent, own in enumerate(children) for child in own}
    text = ""
    for place, own in enumerate(children):
        text += f"tracee {100 + place} {100 + place} 77 {parents.get(place, 0)}\n"
        text += "signal 10\n" * (signals if place < loud else 0)
        text += "".join(f"fork {100 + child}\n" for child in own) + "exit 0\nend\n"
    return text


def chain(count):
    """The children of rows of which each forks the next."""
    return [[place + 1] for place in range(count - 1)] + [[]]


def images(count, pages):
    """A row that executes one image after the other."""
    image = "exec 0x10000\n" + "".join(f"page {0x10000 + 4096 * page:#x}\n" for page in range(pages))
    return f"tracee 100 100 77 0\n{image * count}exit 0\nend\n"


def writes(count, size):
    """A row that writes a string of this size again and again."""
    pages = range(0x10000, 0x10000 + size, 4096)
    memory = "".join(f"page {page:#x}\ndata {page:#x} {'61' * 4096}\n" for page in pages)
    return f"tracee 100 100 77 0\n{memory}" + f"call write 1 0x10000 {size} = {size}\n" * count + "exit 0\nend\n"


def triangle(last):
    """The sum of the numbers of all stops, the last of which has this number."""
    return last * (last + 1) // 2


# The table. A run takes a tenth of a second or more.

OF_FILES = {"says": ("time", "memory", "input")}
CUT = OF_FILES | {"cut": 4}
EVERY_LINE = Shape("every kind of line", text="generate_case")
FOLDS = {"folder": "time_fold {}", "plain": "plain_fold {}"}

# The call writes a string of three bytes. A row has two stops for each call, and one at its start.
WRITES = {"call": "call write 1 0x10000 3 = 3\n", "first": "page 0x10000\ndata 0x10000 68690a\n"}
MOST_STEPS = 65536
ROWS_64 = functools.partial(rows, 64, 1000, **WRITES)
BY_WORKERS = {"tracer": "tracer run -w {}", "plain_threads": "plain_threads {}"}
# The children of a row, and of its descendants.
PARENT = [[*range(1, 64)], *[[]] * 63]
CHILDREN = {"alone": [[]], "as the parent of 63": PARENT, "as the first of a chain of 64": chain(64)}

BY_FOUR = {"tracer": "tracer run -f -w 4", "plain_run": "plain_run"}
WITH_THREADS = BY_FOUR | {"plain_threads": "plain_threads 4"}
SHOWN = {"tracer": "tracer run -f -w 4 -s 65536", "plain_run": "plain_run 65536"}

BENCHES = [
    Bench("replay", "timing tracer replay and a plain Rust program in turn on one replay of 16 MB (some seconds)", (
        Part({"tracer": "tracer replay", "plain": "plain"}, (Shape("one replay", text="generate"),), 10, **CUT),
    )),
    Bench("case", "timing the reader of cases and a plain Rust program in turn on one case of 16 MB (a minute)", (
        Part({"read_case": "read_case", "plain": "plain_case"}, (EVERY_LINE,), 10, limits={"input": 4}, **CUT),
    ), uses="trace_script stop_board"),
    Bench("cells", "timing rounds over the stop cells, a plain compare-exchange and a lock in turn (some minutes)", (
        Part({"cells": "time_cells {}", "exchange": "plain_cells exchange {}", "lock": "plain_cells lock {}"}, (
            Shape("own rows", "own 300000", total=4 * triangle(300000)),
            Shape("one row", "shared 60000", total=triangle(60000)),
        ), 9, prints=True, each="a round on 4 threads"),
    ), uses="stop_table stop_history trace_record trace_pages", first="own 1000"),
    Bench("pages", "timing a memory of 256 pages and a plain Rust program in turn (a minute)", (
        Part({"memory": "time_pages {}", "plain": "plain_pages {}"}, (
            Shape("map", "map 256000"), Shape("byte", "byte 10000000"), Shape("store", "store 5000000"),
        ), 9, prints=True, each="a round at 256 pages"),
    ), uses="trace_pages", first="map 256"),
    Bench("fold", "timing a folder and a plain Rust program in turn (a minute)", (
        Part(FOLDS, (
            Shape("in order", "order 1000000"), Shape("in windows of 64", "window 1000000"),
        ), 9, prints=True, each="1,000,000 pieces"),
        # Each piece is made when it is added, so that little but the text takes memory.
        Part(FOLDS, (
            Shape("streamed", "stream 8000000"),
        ), 1, prints=True, each="8,000,000 pieces", says=("time", "output"), limits={"output": 2}),
    ), uses="record_printer stop_history trace_options trace_record anyhow", first="order 1000"),
    Bench("run", "timing a run on one thread and a plain Rust program in turn on one case of 16 MB (some minutes)", (
        Part({"run_case": "run_case", "plain": "plain_run"}, (EVERY_LINE,), 10, **CUT),
    ), uses="tracer_workers trace_script trace_options"),
    Bench("threads", "timing tracer run and a plain Rust program with the same threads in turn (a minute)", (
        Part(BY_WORKERS, (
            Shape("one row of 65,536 calls, 1 worker", "1", functools.partial(rows, 1, MOST_STEPS, **WRITES)),
        ), 7, each="a stop", per=2 * MOST_STEPS + 1),
        Part(BY_WORKERS, tuple(
            Shape(f"64 rows of 1000 calls, {count} worker{'s' * (count > 1)}", str(count), ROWS_64)
            for count in (1, 2, 4, 8, 16)
        ), 7),
        Part(BY_WORKERS, (
            Shape("64 rows of 1000 calls", "4", ROWS_64),
            Shape("256 rows of 250 calls", "4", functools.partial(rows, 256, 250, **WRITES)),
        ), 7, each="a run by 4 workers", says=("time", "growth"), limits={"growth": 1.3}),
        Part({"tracer": "tracer run -f -w 4"}, tuple(
            Shape(f"one row with 60,000 signals {place}", text=functools.partial(family, children, 1, 60000))
            for place, children in CHILDREN.items()
        ), 7, each="a run by 4 workers", says=("growth",)),
    )),
    Bench("large", "timing tracer run and plain Rust programs in turn on six large cases (two minutes)", (
        Part(BY_FOUR, (EVERY_LINE,), 5, **OF_FILES),
        Part(WITH_THREADS, (
            Shape("every kind of line", text="generate_case 1000000"),
            Shape("64 rows of 820 calls", text=functools.partial(rows, 64, 820)),
        ), 5, **OF_FILES),
        Part(BY_FOUR, (
            Shape("a chain of 64 rows, 719,400 signals", text=functools.partial(family, chain(64), 11, 65400)),
            Shape("4974 images of 256 pages", text=functools.partial(images, 4974, 256)),
        ), 5, **OF_FILES),
        Part(SHOWN, (
            Shape("20,000 writes, 65,536 bytes shown", text=functools.partial(writes, 20000, 200000)),
        ), 5, **OF_FILES),
    )),
    Bench("explore", "timing tracer explore and a plain Rust program in turn on two litmus files (a minute)", (
        Part({"tracer": "tracer explore", "plain": "plain_explore"}, (
            Shape("37,440 outcomes", text=pathlib.Path("bench/explore.litmus")),
            Shape("one outcome of two threads of 990 different commands each", text="generate_litmus"),
        ), 9, **CUT),
    )),
    # Many short runs, since the host's other guests slow a processor down for seconds at a time.
    # The calls inside Rattle get their numbers as words, since the compiler does not know those of a program in C: a
    # syscall-enter-stop, P_ALL, WSTOPPED, the pid, PTRACE_CONT.
    Bench("c", "timing rounds through the handles of C and inside Rattle in turn (a minute)", (
        Part({"through handles of C": "rounds_in_c {}", "inside Rattle": "rounds_inside {} 1 0 2 100 0"}, (
            Shape("one thread", "20000", total=triangle(20000)),
        ), 301, prints=True, each="a round", says=("time", "more"), limits={"more": 25}),
    ), uses="c_interface", first="1000 1 0 2 100 0"),
    Bench("rounds", "running 100,000 rounds of two threads, and as many of three (two to four minutes)"),
    Bench("rust", "timing schedules of a model and the hand-overs of a plain baton in turn (a minute)",
          is_usual=False),
]
