#!/usr/bin/env python3
"""Proves a program or a static library and what it stands on, and says how far it is.

    build.py NAME         a crate of crates.txt, as tracer or pukzarn
    build.py --self-test  goes through a plan for made-up crates; it needs no kit

`rt run` and `rt lib` prove one library after the other, and of two that share a library the second waits. So this
calls the kit's compiler as rt does, for libraries that do not stand on each other side by side. It puts each library
where rt looks for it, with rt's own mark, which says of what it was made: so rt takes it as its own. What has a mark
that is right is not proved again. A crate of which an earlier `rt check` kept work is proved over that work. Any other
is proved from nothing, as the gate does it: such a library holds statements without their proofs, and fits only those
builds of the libraries below it that it was proved over. `out/rlib/over` says which, so that it is made again where
one of them was. At last `rt run` or `rt lib` does the rest.

build_plan.py says which crate is next. tools/build.times has how long each took in a whole run, and
bench/out/build.times how long it took here, from nothing: its name, the seconds of a processor, and those of the
clock. RT names another rt, and RT_JOBS how many crates are proved side by side, in place of what
tools/checks_at_once.py says.
"""

import contextlib
import functools
import io
import os
import pathlib
import signal
import subprocess
import sys
import time

import build_plan

TOP = pathlib.Path(__file__).resolve().parent.parent
TIMES = [TOP / "tools/build.times", TOP / "bench/out/build.times"]
RT = os.environ.get("RT") or "rt"
# How many lines of what a check said are shown where it failed.
SHOWN = 60


class Run:
    """The proofs that are under way. `start` begins one and answers its process; `finish` is told when it went well."""

    def __init__(self, plan, start, finish):
        self.plan, self.start, self.finish = plan, start, finish
        self.processes, self.times, self.status = {}, {}, 0

    def begin(self):
        for name in self.plan.next():
            process = self.start(name, *self.plan.share(name))
            self.processes[process.pid] = name, process
            self.plan.begin(name, time.monotonic())

    def end(self):
        """Waits until a proof has ended, and answers the name of the crate if it failed."""
        number, status, used = os.wait4(-1, 0)
        if number not in self.processes:
            return None
        name, process = self.processes.pop(number)
        process.returncode = os.waitstatus_to_exitcode(status)
        self.plan.end(name, time.monotonic())
        if process.returncode:
            self.status = process.returncode
            return name
        self.finish(name)
        self.times[name] = used.ru_utime + used.ru_stime, self.plan.done[name]
        left = f"; {minutes(self.plan.left(time.monotonic()))} left" if self.plan.waiting or self.processes else ""
        say(f"{name} is proved, {self.plan.done[name]:.0f} s{left}")
        return None

    def failed(self):
        """Proves all, or answers the first crate that is not proved. What is under way then ends with this program."""
        self.begin()
        while self.processes:
            name = self.end()
            if name:
                return name
            self.begin()
        return None


def say(text):
    print(f"make: {text}", flush=True)


def minutes(seconds):
    return f"about {seconds / 60:.0f} minutes" if seconds >= 90 else "about a minute"


# The kit, and what it makes.


@functools.cache
def kit():
    """The kit's own module about crates, which says what rt would do."""
    sys.dont_write_bytecode = True
    sys.path.insert(0, str(pathlib.Path(subprocess.check_output([RT, "doc"], text=True).strip()).parent / "bin"))
    import rtlib

    # It asks for a crate's mark once for each way that leads to the crate.
    rtlib.Crate.stamp = functools.cache(rtlib.Crate.stamp)
    return rtlib


def read_crate(name):
    """A crate as it is in the checkout now."""
    folder = str(TOP / "crates" / name)
    return kit().Crate(folder, kit().root_above(folder), {})


def said_by(crate):
    """The file of what the compiler said."""
    return pathlib.Path(crate.folder) / "out/build.txt"


def mark_of(crate):
    """The file by which rt knows of what a library was made."""
    return pathlib.Path(crate.rlib).parent / "stamp"


def over_of(crate):
    """The file that says which builds of other libraries a library of statements fits, where it is one."""
    return mark_of(crate).with_name("over")


def builds_below(crate):
    """The builds of the libraries below a crate: the sums of the files that have the sums of all others."""
    return "".join(f"{it.name} {kit().sum_of(f'{it.rlib}/format')}\n" for it in crate.below())


class Checkout:
    """A crate of the checkout with those below it, which no rt works on meanwhile."""

    def __init__(self, name):
        self.top = read_crate(name)
        self.crates = {it.name: it for it in [*self.top.below(), self.top]}
        for it in self.crates.values():
            kit().stop_on_links(it.folder)
        self.held = kit().lock([*self.crates.values()])
        self.anew = {it.name for it in self.crates.values() if not it.has_kept()}

    def due(self):
        """The crates that are to be proved, each with those that it uses."""
        found = {}
        for crate in self.crates.values():
            has_changed = any(it.name in found for it in crate.below()) or not self.fits(crate)
            if crate is self.top or not crate.is_built() or has_changed:
                found[crate.name] = [it.name for it in crate.deps]
        return found

    def fits(self, crate):
        """Whether the libraries below are those that it was proved over, where it is a library of statements."""
        return not over_of(crate).is_file() or over_of(crate).read_text() == builds_below(crate)

    def command(self, crate, jobs):
        """What proves a library and builds it, over the work that an earlier check kept or from nothing."""
        kept = ["--statements"] if crate.name in self.anew else [*kit().KEPT]
        return [kit().RATTLE, "build", *crate.words(["--jobs", str(jobs)]), *kept, "-o", crate.rlib]

    def last_command(self):
        """What proves and builds the crate itself, once the libraries are there."""
        for it in self.held:
            os.close(it)
        return [RT, *(["run", "--", "--help"] if self.top.is_program else ["lib"])]

    def start(self, name, jobs, nicer):
        crate = self.crates[name]
        said_by(crate).parent.mkdir(exist_ok=True)
        if crate is not self.top:
            mark_of(crate).parent.mkdir(exist_ok=True)
            for file in (mark_of(crate), over_of(crate)):
                file.unlink(missing_ok=True)
        words = self.last_command() if crate is self.top else self.command(crate, jobs)
        words = ["nice", "-n", str(nicer), *kit().guarded(), *words]
        with open(said_by(crate), "wb") as said:
            how = {"stdin": subprocess.DEVNULL, "stdout": said, "stderr": subprocess.STDOUT}
            return subprocess.Popen(words, cwd=crate.folder, **how)

    def finish(self, name):
        """Marks a library, if no file of it was changed since it was looked at."""
        crate = self.crates[name]
        now = {it.name: it for it in read_crate(self.top.name).below()}.get(name)
        if now and now.stamp() == crate.stamp():
            if name in self.anew:
                over_of(crate).write_text(builds_below(crate))
            mark_of(crate).write_text(crate.stamp())

    def show(self, name, status):
        """Shows the end of what was said of a crate. A status below 0 is that of a signal."""
        said = said_by(self.crates[name])
        print(*said.read_text(errors="replace").splitlines()[-SHOWN:], sep="\n")
        say(f"FAILED: {name} is not proved or not built (status {status}); all that was said of it is in {said}")


def read_times():
    """How long each crate took: here, or else in the run of which the repository knows."""
    rows = [row.split() for file in TIMES if file.is_file() for row in file.read_text().splitlines()]
    return {row[0]: (float(row[1]), float(row[2])) for row in rows if len(row) == 3 and float(row[2]) > 0}


def write_times(times):
    """Writes how long crates took here beside what is known of the others."""
    TIMES[-1].parent.mkdir(parents=True, exist_ok=True)
    rows = [f"{name} {worked:.0f} {took:.0f}\n" for name, (worked, took) in sorted((read_times() | times).items())]
    TIMES[-1].write_text("".join(rows))


def lanes_here():
    """How many crates are proved side by side."""
    asked = [sys.executable, TOP / "tools/checks_at_once.py"]
    return int(os.environ.get("RT_JOBS") or subprocess.check_output(asked))


def main(name):
    # What this has started ends with it, by the kit's guard.
    signal.signal(signal.SIGINT, signal.SIG_DFL)
    checkout = Checkout(name)
    plan = build_plan.Plan(checkout.due(), read_times(), lanes_here())
    count = len(plan.waiting)
    if count > 1:
        say(f"{count} crates are to be proved, {plan.lanes} side by side: {minutes(plan.left(0))}, by earlier runs")
    run = Run(plan, checkout.start, checkout.finish)
    failed = run.failed()
    write_times({name: took for name, took in run.times.items() if name in checkout.anew})
    if failed:
        checkout.show(failed, run.status)
    return 1 if failed else 0


def self_test():
    """What the plan does with made-up crates, and that nothing is begun above one that is not proved."""
    build_plan.self_test()
    uses = {"low": [], "side": ["low"], "mid": ["low"], "high": ["mid"]}
    told, ends = [], {name: "false" if name == "mid" else "true" for name in uses}
    with contextlib.redirect_stdout(io.StringIO()):
        run = Run(build_plan.Plan(uses, {}, 2), lambda name, *_: subprocess.Popen([ends[name]]), told.append)
        failed = run.failed()
    assert failed == "mid" and run.status == 1 and "low" in told and "high" not in told, (failed, told)
    print("build: the self-test passed")
    return 0


if __name__ == "__main__":
    if len(sys.argv) != 2:
        sys.exit(__doc__)
    sys.exit(self_test() if sys.argv[1] == "--self-test" else main(sys.argv[1]))
