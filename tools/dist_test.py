#!/usr/bin/env python3
"""Packs what dist.py packs twice, unpacks it elsewhere, and uses it as its user does.

    dist_test.py                what is tried where the program and the libraries are built
    dist_test.py --root FOLDER  what is unpacked is tried by chroot in this tree of a system, which needs root

The files that are packed are named as for dist.py. A tree of a system is made, say, by `debootstrap --variant=minbase
--include=gcc,libc6-dev,pkg-config bullseye FOLDER`: Debian 11, which has the GNU C library 2.31. There the program has
to be linked statically. What Rust needs is tried where there is a cargo.

Each part prints a line. The status is 1 where one fails.
"""

import argparse
import contextlib
import os
import pathlib
import re
import shlex
import shutil
import subprocess
import sys
import tempfile

import dist

# The most that one command may take.
SECONDS = 600
# What of the environment would lead away from what was unpacked.
ASTRAY = re.compile("PUKZARN|PKG_CONFIG|MAKE|CARGO_TARGET|LIBRARY|MODEL_LIBRARY|PROGRAM")
# What a page may link to and is not packed: the sources, and what is for those who change them.
ELSEWHERE = re.compile(r"(crates|tools|bench|tests/cases)(/|$)|(CONTRIBUTING\.md|Makefile|tests/README\.md)$")
FLAGS = "$(PKG_CONFIG_PATH=lib/pkgconfig pkg-config --cflags --libs NAME)"
# Each program with the name that pkg-config has for its library, and with what the pages have it linked with by hand.
PROGRAMS_IN_C = [
    ("c/small_tracer", "pukzarn", "-Iinclude lib/libpukzarn.a"),
    ("c_model/early_child", "pukzarn_model", "-Iinclude lib/libpukzarn_model.a @lib/pukzarn_model.wraps"),
]


class Failed(Exception):
    """Which part failed, and why."""


class Place:
    """Where the tarball is unpacked: a folder, and the tree of a system that its commands are run in, if it is not
    this one."""

    def __init__(self, folder, root):
        self.folder, self.root = folder, root

    def run(self, command, given=b"", cwd=""):
        """Runs a command of the shell in the folder, or in one below it."""
        where, words = self.folder / cwd, ["sh", "-c", command]
        if self.root:
            inside = f"/{where.relative_to(self.root)}"
            words = ["chroot", self.root, "env", "-i", "HOME=/tmp", "PATH=/usr/local/bin:/usr/bin:/bin", "sh", "-c"]
            words, where = [*words, f"cd {shlex.quote(inside)} && {command}"], None
        kept = {name: value for name, value in os.environ.items() if not ASTRAY.match(name)}
        return subprocess.run(words, cwd=where, env=kept, input=given, capture_output=True, timeout=SECONDS)

    def answer(self, command, **how):
        """What a command prints that has to end with status 0."""
        done = self.run(command, **how)
        if done.returncode:
            raise Failed(f"`{command}` ends with {done.returncode}:\n{(done.stdout + done.stderr).decode()[-2000:]}")
        return done.stdout.decode()


def equal(found, wanted, what):
    if found != wanted:
        raise Failed(f"{what}: {found!r} in place of {wanted!r}")


# The parts.


def sums(place):
    place.answer("sha256sum --quiet -c SHA256SUMS")
    named = {line.split("  ", 1)[1] for line in (place.folder / "SHA256SUMS").read_text().splitlines()}
    found = {str(it.relative_to(place.folder)) for it in place.folder.rglob("*") if it.is_file()}
    equal(sorted(found - named), ["SHA256SUMS"], "files that SHA256SUMS does not name")
    return f"the sums of {len(named)} files"


def program(place):
    equal(place.answer("bin/tracer --version"), f"tracer {dist.version()}\n", "the version")
    is_static = b"/ld-linux" not in (place.folder / "bin/tracer").read_bytes()[:4096]
    if place.root and not is_static:
        raise Failed("bin/tracer needs a loader, and so the C library of this system or a later one")
    if is_static and not place.root:
        command = f"{shlex.join([*dist.CC, *dist.LINK])} -o ../again relink/tracer.o && cmp ../again bin/tracer"
        place.answer(command)
    return f"the program, {'static' if is_static else 'as the kit links it'}"


def examples(place):
    names = [it for it in (place.folder / "examples").glob("[er]*/*") if it.is_file() and it.parent.name != "rust"]
    names = sorted(it for it in names if it.suffix not in (".args", ".stdout", ".stderr", ".status"))
    for file in names:
        beside = {it: file.with_name(f"{file.name}.{it}") for it in ("args", "stdout", "stderr", "status")}
        args, stdout, stderr, status = (it.read_text() if it.is_file() else "" for it in beside.values())
        words = ["bin/tracer", file.parent.name, *args.splitlines()]
        done = place.run(shlex.join(words), given=file.read_bytes())
        found = (done.stdout.decode(), done.stderr.decode(), done.returncode)
        equal(found, (stdout, stderr, int(status or 0)), f"{file.parent.name}/{file.name}")
    return f"{len(names)} examples"


def texts(page):
    return re.findall(r"^```text\n(.*?)^```", page.read_text(), re.M | re.S)


def in_c(place):
    has_pkg_config = place.run("command -v pkg-config").returncode == 0
    for source, name, by_hand in PROGRAMS_IN_C:
        ways = [by_hand, FLAGS.replace("NAME", name)] if has_pkg_config else [by_hand]
        for flags in ways:
            place.answer(f"cc -Wall -Werror -o ../{pathlib.Path(source).name} tests/{source}.c {flags}")
    equal([place.answer("../small_tracer")], texts(place.folder / "docs/C.md"), "small_tracer.c")
    printed = re.split(r"(?m)^pukzarn: mended", place.answer("cd .. && ./early_child 2>&1"))[0]
    equal([printed], texts(place.folder / "docs/C_MODEL.md"), "early_child.c")
    return "two programs in C"


def in_rust(place):
    if place.run("command -v cargo").returncode:
        return "nothing in Rust, since there is no cargo"
    place.answer("CARGO_TARGET_DIR=../../../../rust cargo test --quiet --offline", cwd="examples/rust/counter")
    return "the tests of the example in Rust"


def pages(place):
    count = 0
    for page in sorted(place.folder.rglob("*.md")):
        if page.is_relative_to(place.folder / "docs/crates"):
            continue
        for target in re.findall(r"\]\(([^)#:]+)(?:#[^)]*)?\)", page.read_text()):
            path = os.path.relpath(page.parent / target, place.folder)
            count += 1
            if not (place.folder / path).exists() and not ELSEWHERE.match(path):
                raise Failed(f"{page.relative_to(place.folder)} links to {path}, which is not there")
    return f"{count} links of the pages"


PARTS = (sums, program, examples, in_c, in_rust, pages)


@contextlib.contextmanager
def unpacked(room, root):
    """The tarball, packed twice, and unpacked in a new folder of the tree."""
    one, other = (dist.pack(room / name, must_be_static=bool(root)) for name in ("one", "other"))
    equal(other.read_bytes() == one.read_bytes(), True, "a second tarball has the same bytes")
    print(f"dist-test: {one.name}, the same twice, {one.stat().st_size:,} bytes", flush=True)
    with tempfile.TemporaryDirectory(prefix="pukzarn-", dir=root / "tmp" if root else room) as folder:
        os.chmod(folder, 0o755)
        above = Place(pathlib.Path(folder), root)
        above.answer("tar xzf -", given=one.read_bytes())
        yield Place(above.folder / dist.name_of_folder(), root)


def main(arguments):
    said = argparse.ArgumentParser(description=__doc__, formatter_class=argparse.RawDescriptionHelpFormatter)
    said.add_argument("--root", type=pathlib.Path, help="the tree of a system")
    root = said.parse_args(arguments).root
    room = pathlib.Path(tempfile.mkdtemp(prefix="dist-test-"))
    try:
        with unpacked(room, root and root.resolve()) as place:
            for part in PARTS:
                print(f"dist-test: {part(place)}: passed", flush=True)
    except (Failed, dist.Refused, subprocess.TimeoutExpired) as why:
        sys.exit(f"dist-test: FAILED: {why}")
    finally:
        shutil.rmtree(room, ignore_errors=True)


if __name__ == "__main__":
    main(sys.argv[1:])
