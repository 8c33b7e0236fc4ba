#!/usr/bin/env python3
"""Tries the wrong bodies of crates/NAME/wrong-bodies/, many in one check: the prover must refuse each.

A function's proof rests on its own body and on the contracts of what it calls, never on their bodies. So wrong bodies
of different functions are tried in one check of a copy of the crate, over the work that the check of the crate as it is
kept. An edit counts as refused there only where the report names a goal of its own function that fails. Any other edit
is tried alone, and counts as `rt must-fail` would count it. The last line is `N passed, M failed`, and the status is 1
where an edit failed or a crate is not proved as it is.

tools/wrong_bodies.tried has a line for each crate whose edits were all refused: a digest of the crate's sources,
definitions, proofs and edits, and of what it can see of the crates below. Comments and tests decide nothing, and are
left out; whether each edit still applies is seen to in every run.
"""

import argparse
import concurrent.futures
import dataclasses
import hashlib
import os
import pathlib
import shutil
import subprocess
import sys
import tempfile
import threading
import time

import body_edits
import body_report
import rattle_source
from body_report import Verdict

TOP = pathlib.Path(__file__).resolve().parent.parent
TRIED = "tools/wrong_bodies.tried"
RT = os.environ.get("RT", "rt")
PARTS = ("src", "specs", "proofs")
# What a check of a crate keeps for the next one, and the library that the crates above it stand on.
KEPT, LIBRARY = "out/incremental", "out/rlib"
printing = threading.Lock()


def say(text):
    with printing:
        print(f"wrong-bodies: {text}", flush=True)


@dataclasses.dataclass
class Crate:
    """A crate of the repository, with its line of crates.txt and the crates that it stands on, lowest first."""

    name: str
    root: pathlib.Path
    line: str
    below: list

    def __post_init__(self):
        self.folder = self.root / "crates" / self.name
        self.edits, self.bad = body_edits.read(self.folder)
        self.texts = body_edits.sources(self.folder)

    def files_of(self, *parts):
        """The files of these folders, but for those of tests."""
        tests = rattle_source.test_modules(self.texts)
        for part in parts:
            for file in sorted(it for it in (self.folder / part).rglob("*") if it.is_file()):
                inside = str(file.relative_to(self.folder / part)).removesuffix(".rt")
                if part not in ("src", "proofs") or not any(f"{inside}/".startswith(f"{it}/") for it in tests):
                    yield file

    def digest(self):
        """A digest of what decides whether the crate's wrong bodies are refused."""
        sum_of = hashlib.sha256()

        def add(file, text):
            sum_of.update(f"{file.relative_to(self.root)}\n{len(text)}\n".encode() + text.encode())

        def deciding(file):
            return rattle_source.deciding(file.read_text(encoding="utf-8"), file.name)

        for file in self.files_of(*PARTS, "wrong-bodies"):
            add(file, deciding(file))
        for crate in sorted(self.below, key=lambda it: it.name):
            for file in crate.files_of("src"):
                add(file, rattle_source.contracts(deciding(file)))
            for file in crate.files_of("specs"):
                add(file, deciding(file))
        return sum_of.hexdigest()[:32]

    def all_apply(self):
        """Whether each edit finds the text that it replaces."""
        try:
            for edit in self.edits:
                body_edits.applied(edit, self.texts)
        except body_edits.BadEdit:
            return False
        return True


def crates_of(root):
    """The crates that crates.txt names, by their names."""
    rows = [row.partition("#")[0].strip() for row in (root / "crates.txt").read_text().split("\n")]
    rows = {row.split()[0].rstrip(":"): row for row in rows if row}
    uses = {name: [it for it in row.partition(":")[2].split() if it in rows] for name, row in rows.items()}

    def below(name):
        found = []
        for it in uses[name]:
            found += [other for other in [*below(it), it] if other not in found]
        return found

    crates = {}
    for name in sorted(rows, key=lambda it: len(below(it))):
        crates[name] = Crate(name, root, rows[name], [crates[it] for it in below(name)])
    return crates


def link(source, to):
    """A second name for a file, or a copy of it on another disk. What rt keeps and builds it writes as new files, as far
    as was seen, and of the crates below it only reads: so no check changes what another one reads (for what is kept, a test).
    What a large crate keeps takes a gigabyte and more, and each check would copy it."""
    try:
        os.link(source, to)
    except OSError:
        shutil.copy2(source, to)


def copied(crate, room, *kept):
    """A copy of the crate in the folder, with what it stands on and these folders of what its last check kept."""
    room = pathlib.Path(room)
    (room / "crates.txt").write_text("".join(f"{it.line}\n" for it in [*crate.below, crate]))
    if (crate.root / "HANDLES").is_file():
        shutil.copy2(crate.root / "HANDLES", room)
    for it in crate.below:
        for part in (*PARTS, LIBRARY):
            if (it.folder / part).is_dir():
                shutil.copytree(it.folder / part, room / "crates" / it.name / part, copy_function=link)
    folder = room / "crates" / crate.name
    for part in (*PARTS, *kept):
        if (crate.folder / part).is_dir():
            shutil.copytree(crate.folder / part, folder / part, copy_function=shutil.copy2 if part in PARTS else link)
    return folder


def ran_in(folder, words):
    """What a command answers that is run in this folder: its status, and what it wrote on both streams."""
    how = {"stdin": subprocess.DEVNULL, "stdout": subprocess.PIPE, "stderr": subprocess.STDOUT, "errors": "replace"}
    return subprocess.run(words, cwd=folder, **how)


def checked(crate, texts):
    """The status and the report of a check of a copy of the crate with these texts."""
    with tempfile.TemporaryDirectory(prefix="wrong-bodies-") as room:
        folder = copied(crate, room, KEPT)
        for file, text in texts.items():
            if text != crate.texts[file]:
                (folder / file).write_text(text, encoding="utf-8")
        ran = ran_in(folder, [RT, "check", "--jobs", "1"])
        if os.environ.get("WRONG_BODIES_REPORTS"):
            name = f"{crate.name}_{time.monotonic_ns()}.txt"
            pathlib.Path(os.environ["WRONG_BODIES_REPORTS"], name).write_text(ran.stdout)
        return ran.returncode, ran.stdout


def try_alone(crate, edit):
    """The verdict on one edit, and why."""
    try:
        texts = body_edits.applied(edit, crate.texts)
    except body_edits.BadEdit as why:
        return Verdict.BAD, str(why)
    return body_report.alone(*checked(crate, texts), {file for file, _, _ in edit.pairs})


def try_group(crate, group):
    """The verdicts on edits of one check, and why; and those that it tells nothing of, in groups to be tried again."""
    texts = body_edits.all_applied(group, crate.texts)
    functions = {it: body_edits.functions_of(it, crate.texts) for it in group}
    _, report = checked(crate, texts)
    if not body_report.is_of_the_prover(report):
        blamed = body_report.blamed(report, texts)
        others = [it for it in group if not functions[it] & blamed]
        if len(others) in (0, len(group)):
            return {}, [[it] for it in group]
        return {}, [*([it] for it in group if it not in others), others]
    found = {it: body_report.why_refused(functions[it], report, texts) for it in group}
    again = [[it] for it, why in found.items() if not why]
    return {it: (Verdict.REFUSED, why) for it, why in found.items() if why}, again


def try_some(crate, group):
    """The verdicts on a group of edits, by edit, and the groups to be tried again."""
    began = time.monotonic()
    if len(group) == 1:
        told, again = {group[0]: try_alone(crate, group[0])}, []
    else:
        told, again = try_group(crate, group)
    well = [edit for edit, (verdict, _) in told.items() if verdict is Verdict.REFUSED]
    lines = [f"{crate.name}: {len(well)} of {len(group)} refused in a check of {time.monotonic() - began:.0f} s"]
    lines += [f"{edit}: {told[edit][0].value}: {told[edit][1]}".removesuffix(": ") for edit in told if edit not in well]
    lines += [f"{it[0]} told nothing, and is tried alone" for it in again if len(it) == 1]
    say("\n".join(lines).replace("\n", "\nwrong-bodies: "))
    return told, again


def groups_of(crate):
    """The crate's edits in groups, and the verdicts on those that cannot be applied."""
    good, bad = [], {}
    for edit in crate.edits:
        try:
            body_edits.applied(edit, crate.texts)
            good.append(edit)
        except body_edits.BadEdit as why:
            bad[edit] = (Verdict.BAD, str(why))
            say(f"{edit}: BAD EDIT: {why}")
    return body_edits.grouped(good, crate.texts), bad


@dataclasses.dataclass(frozen=True, eq=False)
class Task:
    """What one check is to try: a group of a crate's edits, or, where there is none, the crate as it is."""

    crate: Crate
    group: tuple = ()

    def size(self):
        return sum(map(len, self.crate.texts.values())) * (2 + len(self.group))


def has_library(crate, folder):
    """Whether the crate has the library that was built in the folder: those above it, as make builds them, may fit that
    build of it alone (build.py)."""
    here, there = (it / LIBRARY / "stamp" for it in (crate.folder, folder))
    return here.is_file() and there.is_file() and here.read_text() == there.read_text()


def is_proved(crate, has_edits, jobs):
    """Whether the crate is proved as it is: the crates above it stand on the library that this builds, and its wrong
    bodies are tried over what this keeps. A library that is there serves where no edits are tried. All this is done in
    a copy, since the kit lets no two commands work above one library at once."""
    began = time.monotonic()
    with tempfile.TemporaryDirectory(prefix="wrong-bodies-") as room:
        folder = copied(crate, room, KEPT if has_edits else LIBRARY)
        ran = ran_in(folder, [RT, "lib", "--jobs", str(jobs)])
        if ran.returncode:
            say(f"{crate.name}: NOT PROVED as it is:\n{ran.stdout[-3000:]}")
            return False
        for part in (KEPT, LIBRARY):
            if (folder / part).is_dir() and not (part == LIBRARY and has_library(crate, folder)):
                shutil.rmtree(crate.folder / part, ignore_errors=True)
                shutil.move(folder / part, crate.folder / part)
    say(f"{crate.name}: proved as it is in {time.monotonic() - began:.0f} s")
    return True


class Plan:
    """The checks of a run, and what they told: each crate as it is, after those it stands on, and then its edits."""

    def __init__(self, crates):
        self.told, self.proved = {}, set()
        self.digests = {it.name: it.digest() for it in crates}
        self.crates = list({it.name: it for crate in crates for it in [*crate.below, crate]}.values())
        self.left, self.running = [Task(it) for it in self.crates], {}
        for crate in crates:
            groups, bad = groups_of(crate)
            self.told.update(bad)
            self.left += [Task(crate, tuple(it)) for it in groups]
            say(f"{crate.name}: {len(crate.edits)} wrong bodies in {len(groups)} check{'s' * (len(groups) != 1)}")

    def rank(self, task):
        """Crates before edits, first those with most text of other crates above them; of edits, most text first."""
        above = [it for it in self.crates if task.crate in it.below]
        return not task.group, sum(Task(it).size() for it in above), task.size()

    def is_ready(self, task):
        return {it.name for it in ([task.crate] if task.group else task.crate.below)} <= self.proved

    def start(self, pool, lanes):
        """Hands in the tasks that can be done now, as many as there are lanes."""
        for task in sorted(filter(self.is_ready, self.left), key=self.rank, reverse=True)[: lanes - len(self.running)]:
            self.left.remove(task)
            if task.group:
                self.running[pool.submit(try_some, task.crate, task.group)] = task
            else:
                # The longest chain is one of proofs, so they get two processors where there are more.
                jobs = 2 if lanes > 2 else 1
                self.running[pool.submit(is_proved, task.crate, task.crate.name in self.digests, jobs)] = task

    def end(self, done):
        """Takes down what a task told, and what is to be tried again."""
        task = self.running.pop(done)
        if not task.group:
            if done.result():
                self.proved.add(task.crate.name)
            return
        found, again = done.result()
        self.told.update(found)
        self.left += [Task(task.crate, tuple(it)) for it in again]
        if not any(it.crate is task.crate for it in [*self.left, *self.running.values()]):
            keep_digest(task.crate, self.told, self.digests[task.crate.name])

    def run(self, lanes):
        with concurrent.futures.ThreadPoolExecutor(lanes) as pool:
            self.start(pool, lanes)
            while self.running:
                for done in concurrent.futures.wait(self.running, return_when=concurrent.futures.FIRST_COMPLETED)[0]:
                    self.end(done)
                self.start(pool, lanes)


def tried_before(root):
    """The digests that were written when all edits of a crate were refused."""
    file = root / TRIED
    return dict(row.split() for row in file.read_text().split("\n") if row) if file.is_file() else {}


def keep_digest(crate, told, digest):
    """Writes the digest of a crate whose edits were all refused on what is still there; else takes its line away."""
    kept = tried_before(crate.root)
    well = not crate.bad and all(told[it][0] is Verdict.REFUSED for it in crate.edits)
    kept.pop(crate.name, None)
    if well and crate.digest() == digest:
        kept[crate.name] = digest
    file = crate.root / TRIED
    file.parent.mkdir(exist_ok=True)
    file.write_text("".join(f"{name} {digest}\n" for name, digest in sorted(kept.items())))


def words_of(arguments):
    said = argparse.ArgumentParser(description=__doc__, formatter_class=argparse.RawDescriptionHelpFormatter)
    said.add_argument("crates", metavar="CRATE", nargs="*", help="only these crates' edits")
    said.add_argument("--changed", action="store_true", help="only crates that have changed since all were refused")
    said.add_argument("--list", action="store_true", help="print the groups, and try nothing")
    said.add_argument("--jobs", type=int, default=len(os.sched_getaffinity(0)), help="how many checks run side by side")
    said.add_argument("--root", type=pathlib.Path, default=TOP, help=argparse.SUPPRESS)
    return said.parse_args(arguments)


def list_groups(crates):
    for crate in crates:
        for at, group in enumerate(groups_of(crate)[0], 1):
            print(f"{crate.name} {at}: {' '.join(it.name.removesuffix('.edit') for it in group)}")


def chosen(words):
    """The crates whose edits are to be tried."""
    known = crates_of(words.root)
    unknown = [it for it in words.crates if it not in known]
    if unknown:
        sys.exit(f"wrong-bodies: crates.txt names no crate {unknown[0]}")
    crates = [it for it in known.values() if (it.edits or it.bad) and (not words.crates or it.name in words.crates)]
    if not words.changed:
        return crates
    kept = tried_before(words.root)
    changed = [it for it in crates if kept.get(it.name) != it.digest() or not it.all_apply()]
    same = sum(len(it.edits) for it in crates if it not in changed)
    say(f"{same} wrong bodies were refused before on what is here, and are not tried again ({TRIED})")
    return changed


def main(arguments):
    words = words_of(arguments)
    crates = chosen(words)
    if words.list:
        list_groups(crates)
        return 0
    plan = Plan(crates)
    plan.run(words.jobs)
    for crate in crates:
        for name, why in crate.bad.items():
            say(f"{crate.name}/{name}: BAD EDIT: {why}")
    failed = {str(it) for it, (verdict, _) in plan.told.items() if verdict is not Verdict.REFUSED}
    failed |= {f"{crate.name}/{name}" for crate in crates for name in crate.bad}
    if failed:
        say(f"FAILED: {' '.join(sorted(failed))}")
    untried = {crate.name: sum(it not in plan.told for it in crate.edits) for crate in crates}
    for name, count in untried.items():
        if count:
            say(f"{name}: {count} wrong bodies NOT TRIED, since it, or what it stands on, is not proved as it is")
    refused = sum(verdict is Verdict.REFUSED for verdict, _ in plan.told.values())
    failures = len(failed) + sum(untried.values())
    print(f"{refused} passed, {failures} failed")
    return 1 if failures else 0


if __name__ == "__main__":
    sys.exit(main(sys.argv[1:]))
