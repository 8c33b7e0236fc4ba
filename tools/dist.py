#!/usr/bin/env python3
"""Packs what a user needs: FOLDER/pukzarn-VERSION-x86_64-linux.tar.gz, the same bytes for the same commit and machine.

    dist.py FOLDER        packs the program and the libraries that make has built
    dist.py --self-test   packs a small tree twice, and sees that other bytes, names and commits are told apart

PROGRAM, OBJECT, LIBRARY and MODEL_LIBRARY in the environment name other files than those that make builds. The kit
links the program against the newest GNU C library. So the object file of which PROGRAM is linked is linked once more,
by CC, statically: such a program needs a kernel and no library. Where OBJECT is not that file, as after a gate that
took the program from an earlier run, PROGRAM is packed as it is, and PROVENANCE says so; --static refuses that.

A checkout with changes that are not committed is refused, unless ALLOW_DIRTY=1; PROVENANCE then says so.
"""

import gzip
import hashlib
import io
import os
import pathlib
import re
import shlex
import subprocess
import sys
import tarfile
import tempfile

TOP = pathlib.Path(__file__).resolve().parent.parent
USUAL = {
    "PROGRAM": "bin/tracer",
    "OBJECT": "crates/tracer/out/tracer.o",
    "LIBRARY": "lib/libpukzarn.a",
    "MODEL_LIBRARY": "lib/libpukzarn_model.a",
}
RT, CC = (shlex.split(os.environ.get(name) or usual) for name, usual in {"RT": "rt", "CC": "cc"}.items())
# What is packed under its own name: pages, headers, what cargo builds, and the programs in C that pages link to.
AS_IT_IS = ("README.md", "CHANGELOG.md", "LICENSE", "docs", "examples", "include", "bindings")
C_PROGRAMS = ("tests/c", "tests/c_model")
# What is packed under another one, too.
RENAMED = {"docs/INSTALL.md": "INSTALL", "man/tracer.1": "share/man/man1/tracer.1"}
# Whoever has a program with the GNU C library inside must be able to link it with another one: so its object is packed.
RELINKED = "relink/tracer.o"
LINK = ("-static-pie", "-s", "-Wl,--gc-sections", "-Wl,-z,relro,-z,now")
LICENCE_OF_LIBC = pathlib.Path("/usr/share/common-licenses/LGPL-2.1")


class Refused(Exception):
    """Why nothing is packed."""


def answer(*words, cwd=TOP):
    """What a command prints, without the last line feed."""
    done = subprocess.run(words, cwd=cwd, capture_output=True, text=True)
    if done.returncode:
        raise Refused(f"{shlex.join(map(str, words))} failed: {done.stderr.strip()[-400:]}")
    return done.stdout.rstrip("\n")


def given(name):
    """The file that the environment names, or the usual one."""
    return TOP / (os.environ.get(name) or USUAL[name])


def needed(name):
    """The bytes of a file that make builds."""
    if not given(name).is_file():
        raise Refused(f"{given(name)} is not there: run make, make library and make c-model first, or make dist")
    return given(name).read_bytes()


# What is packed: paths below the folder of the tarball, and their bytes.


def version():
    text = (TOP / "crates/tracer_cli/src/arguments.rt").read_text()
    return re.search(r'\.version\("(.*)"\)', text)[1]


def tracked(*parts):
    """The files of these parts that git knows, as they are in the checkout."""
    listed = answer("git", "ls-files", "-z", "--", *parts).split("\0")
    return {path: (TOP / path).read_bytes() for path in listed if path}


def moved(text, path, name):
    """A page as it is under another name: its links lead where they led."""

    def link(found):
        target = os.path.normpath(os.path.join(os.path.dirname(path), found[1]))
        return f"]({os.path.relpath(target, os.path.dirname(name) or '.')})"

    return re.sub(r"\]\(([^)#:]+)\)", link, text)


def pkg_config(template, wraps=""):
    """A file for pkg-config that finds the library wherever the tarball is unpacked."""
    text = (TOP / template).read_text()
    for place, value in {"@PREFIX@": "${pcfiledir}/../..", "@VERSION@": version(), "@WRAPS@": wraps}.items():
        text = text.replace(place, value)
    return text.encode()


def linked(objects, room):
    """The object file of the program with what it needs of the kit, and the program that CC links of it."""
    relinked, program = room / "tracer.o", room / "tracer"
    answer("ld", "-r", "-o", relinked, *objects)
    answer(*CC, *LINK, "-o", program, relinked)
    return relinked.read_bytes(), program.read_bytes()


def is_made_of(program, objects, kit, room):
    """Whether the kit makes this program of these object files, as `rt run` links them."""
    if not objects[0].is_file():
        return False
    words = ["--target", "x86_64-unknown-linux-gnu", "--toolchain", kit / "toolchain", "-o", room / "of_kit"]
    answer(kit / "bin/rattle-link", *words, *objects)
    return (room / "of_kit").read_bytes() == program


def program_files(must_be_static):
    """The program and, where it is linked once more, the object file that it is linked of; and how it was linked."""
    program = needed("PROGRAM")
    kit = pathlib.Path(answer(*RT, "doc")).parent
    objects = [given("OBJECT"), kit / "c/libos_c.a", kit / "c/liblibc_c.a"]
    with tempfile.TemporaryDirectory() as room:
        if not is_made_of(program, objects, kit, pathlib.Path(room)):
            if must_be_static:
                raise Refused(f"{given('PROGRAM')} is not linked of {given('OBJECT')}: run make")
            return {"bin/tracer": program}, "as the kit links it: it needs the GNU C library 2.34 or later"
        relinked, static = linked(objects, pathlib.Path(room))
    compiler, libc = answer(*CC, "--version").split("\n")[0], answer("ldd", "--version").split("\n")[0]
    how = f"{shlex.join(['cc', *LINK])} {RELINKED}\n  by {compiler}, with {libc.removeprefix('ldd ')} inside (LGPL 2.1)"
    return {"bin/tracer": static, RELINKED: relinked}, how


def built_files():
    """The libraries for C, and what a C compiler needs beside them."""
    model, wraps = needed("MODEL_LIBRARY"), given("MODEL_LIBRARY").with_name("pukzarn_model.wraps").read_text()
    flags = " ".join(wraps.split())
    return {
        "lib/libpukzarn.a": needed("LIBRARY"),
        "lib/libpukzarn_model.a": model,
        "lib/pukzarn_model.wraps": wraps.encode(),
        "lib/pkgconfig/pukzarn.pc": pkg_config("tools/pukzarn.pc.in"),
        "lib/pkgconfig/pukzarn_model.pc": pkg_config("tools/pukzarn_model.pc.in", flags),
    }


def last_gate(status):
    """The last row of the table of whole runs in docs/STATUS.md, as one line."""
    rows = re.search(r"^\| Date \| Run \|.*\n\|[-|]*\n((?:\|.*\n)+)", status, re.M)
    if not rows:
        raise Refused("docs/STATUS.md has no table of runs that begins with Date and Run")
    date, run, wall = [cell.strip() for cell in rows[1].strip().split("\n")[-1].split("|")[1:4]]
    return f"{date}, {run}: {wall}"


def commit():
    """The commit and its time, and whether all is committed."""
    name, seconds, day = answer("git", "log", "-1", "--format=%H %ct %cs").split()
    changed = answer("git", "status", "--porcelain")
    if changed and os.environ.get("ALLOW_DIRTY") != "1":
        raise Refused(f"there are changes that are not committed (ALLOW_DIRTY=1 packs them all the same):\n{changed}")
    return f"{name} of {day}{', with changes that are not committed' if changed else ''}", int(seconds)


def provenance(of_commit, how_linked):
    kit = pathlib.Path(answer(*RT, "doc")).parent
    identity = (kit / "WHAT").read_text().strip().replace("\n", "\n  ")
    return f"""pukzarn {version()}, x86_64-linux

commit: {of_commit}
kit: {answer(*RT, "version")}
  {identity}
gate: {last_gate((TOP / "docs/STATUS.md").read_text())}
  (the last run of the gate that docs/STATUS.md of this commit has)
bin/tracer: {how_linked}
lib/libpukzarn.a: what the kit compiles of crates/pukzarn, as `make library` makes it
lib/libpukzarn_model.a: the same, with the crates of bindings/, as `make c-model` makes it; only tested

The proofs are of the code that the kit compiles. No proof covers compilers, linkers and the C library.
To check: sha256sum -c SHA256SUMS. To make it again, in a checkout of the commit, with the kit on the PATH: make check,
which proves all and runs the tests, and make dist, which on the same system makes the same bytes.
""".encode()


def contents(must_be_static):
    """Each file that is packed, and the time of the commit."""
    of_commit, seconds = commit()
    files = tracked(*AS_IT_IS, *C_PROGRAMS)
    for path, name in RENAMED.items():
        files[name] = moved((TOP / path).read_text(), path, name).encode()
    program, how_linked = program_files(must_be_static)
    files |= program | built_files() | {"PROVENANCE": provenance(of_commit, how_linked)}
    if RELINKED in program and LICENCE_OF_LIBC.is_file():
        files["relink/LGPL-2.1"] = LICENCE_OF_LIBC.read_bytes()
    return files, seconds


# The tarball.


def sums(files):
    return "".join(f"{hashlib.sha256(files[path]).hexdigest()}  {path}\n" for path in sorted(files)).encode()


def packed(folder, files, seconds):
    """The bytes of the tarball: one folder, sorted names, no user, and the time of the commit."""
    files = files | {"SHA256SUMS": sums(files)}
    folders = {str(parent) for path in files for parent in pathlib.PurePath(path).parents}
    made = io.BytesIO()
    with tarfile.open(fileobj=made, mode="w", format=tarfile.USTAR_FORMAT) as tar:
        for path in sorted(folders | files.keys()):
            entry = tarfile.TarInfo(os.path.normpath(f"{folder}/{path}"))
            entry.mtime, entry.mode = seconds, 0o644
            if path in folders:
                entry.type, entry.mode = tarfile.DIRTYPE, 0o755
                tar.addfile(entry)
                continue
            if path.startswith("bin/"):
                entry.mode = 0o755
            entry.size = len(files[path])
            tar.addfile(entry, io.BytesIO(files[path]))
    return gzip.compress(made.getvalue(), mtime=0)


def name_of_folder():
    return f"pukzarn-{version()}-x86_64-linux"


def pack(to, must_be_static=False):
    """Writes the tarball into a folder, and answers its path."""
    files, seconds = contents(must_be_static)
    to.mkdir(parents=True, exist_ok=True)
    tarball = to / f"{name_of_folder()}.tar.gz"
    tarball.write_bytes(packed(name_of_folder(), files, seconds))
    return tarball


def self_test():
    small = {"bin/tracer": b"a", "docs/C.md": b"b\n", "LICENSE": b"c"}
    other = dict(reversed(small.items()))
    assert packed("p-1", small, 7) == packed("p-1", other, 7), "the order of files changes the tarball"
    assert packed("p-1", small, 7) != packed("p-1", small | {"LICENSE": b"d"}, 7), "other bytes, and the same tarball"
    assert packed("p-1", small, 7) != packed("p-1", small, 8), "another time, and the same tarball"
    with tarfile.open(fileobj=io.BytesIO(packed("p-1", small, 7))) as tar:
        modes = {it.name: (it.mode, it.uid, it.mtime) for it in tar}
        said = tar.extractfile("p-1/SHA256SUMS").read().decode()
    assert modes["p-1/bin/tracer"] == (0o755, 0, 7) and modes["p-1/LICENSE"] == (0o644, 0, 7), modes
    assert f"{hashlib.sha256(b'c').hexdigest()}  LICENSE\n" in said and said.count("\n") == 3, said
    table = "| Date | Run | Wall time |\n|---|---|---|\n| d1 | r1 | w1 |\n| d2 | r2 | w2 |\n\n| d3 | r3 | w3 |\n"
    assert last_gate(table) == "d2, r2: w2", last_gate(table)
    assert moved("[a](C.md) [b](../c.md)", "docs/INSTALL.md", "INSTALL") == "[a](docs/C.md) [b](c.md)"
    assert b"${pcfiledir}/../.." in pkg_config("tools/pukzarn.pc.in")
    print("dist: the self-test passed")


def main(words):
    if words == ["--self-test"]:
        return self_test()
    must_be_static, words = "--static" in words, [it for it in words if it != "--static"]
    if len(words) != 1:
        sys.exit(__doc__)
    try:
        tarball = pack(pathlib.Path(words[0]), must_be_static)
    except Refused as why:
        sys.exit(f"dist: FAILED: {why}")
    made = tarball.read_bytes()
    print(f"dist: {tarball}, {len(made):,} bytes, sha256 {hashlib.sha256(made).hexdigest()}")


if __name__ == "__main__":
    main(sys.argv[1:])
