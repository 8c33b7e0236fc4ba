#!/usr/bin/env python3
"""Looks at the pages: README.md and its neighbours, docs/, examples/README.md, tests/README.md.

    documents.py                  names each line that is wider than 120 columns, and each link that leads nowhere
    documents.py --program FILE   also runs each command that a page shows, and compares what it prints with the page
    documents.py --self-test      shows that a wide line, a dead link and a wrong text are found; it needs no program

A command that is run stands in a block that begins with ```console, after `$ `; the lines after it are what it prints,
on both streams. It is run by sh, in a folder that has the repository's examples/ and the program as bin/tracer. In
other blocks nothing is run, and lines may be of any width.
"""

import argparse
import os
import pathlib
import re
import shutil
import subprocess
import sys
import tempfile

TOP = pathlib.Path(__file__).resolve().parent.parent
WIDEST = 120
BLOCK = re.compile(r"^```(\w*)\n(.*?)^```$", re.M | re.S)
LINK = re.compile(r"\]\(([^)\s#]+)[^)]*\)")
# The most that a command may take.
SECONDS = 60


def pages():
    """Each page, by its path from the top."""
    found = [path for part in ("*.md", "docs/**/*.md", "examples/*.md", "tests/*.md") for path in TOP.glob(part)]
    return {path.relative_to(TOP).as_posix(): path.read_text() for path in sorted(found)}


def lines_outside(texts):
    """Each line of a page that is in no block: its page, its number and itself."""
    for path, text in texts.items():
        outside = BLOCK.sub(lambda block: "\n" * block[0].count("\n"), text)
        yield from ((path, number, line) for number, line in enumerate(outside.split("\n"), 1))


def wide_lines(texts):
    """A line for each line that is too wide."""
    for path, number, line in lines_outside(texts):
        if len(line) > WIDEST:
            yield f"{path}:{number}: {len(line)} columns"


def dead_links(texts):
    """A line for each link to a file that is not there."""
    for path, number, line in lines_outside(texts):
        for target in LINK.findall(line):
            if "://" not in target and not (TOP / path).parent.joinpath(target).exists():
                yield f"{path}:{number}: there is no {target}"


def commands(texts):
    """Each command that is run: its page, itself, and what the page says that it prints."""
    for path, text in texts.items():
        for kind, block in BLOCK.findall(text):
            if kind == "console":
                for part in re.split(r"^\$ ", block, flags=re.M)[1:]:
                    command, _, printed = part.partition("\n")
                    yield path, command, printed


def differences(texts, run):
    """A text for each command that prints another text than its page says."""
    for path, command, printed in commands(texts):
        found = run(command)
        if found != printed:
            yield f"{path}: `{command}` prints\n{found}in place of\n{printed}"


def runner(program, folder):
    """A function that runs a command with this program, and answers what it prints."""
    folder = pathlib.Path(folder)
    (folder / "bin").mkdir()
    shutil.copy2(program, folder / "bin/tracer")
    (folder / "examples").symlink_to(TOP / "examples")

    def run(command):
        how = {"cwd": folder, "stdout": subprocess.PIPE, "stderr": subprocess.STDOUT, "timeout": SECONDS}
        path = {"PATH": os.environ.get("PATH", os.defpath), "LC_ALL": "C"}
        return subprocess.run(["sh", "-c", command], env=path, **how).stdout.decode(errors="backslashreplace")

    return run


def faults(texts, program):
    found = [*wide_lines(texts), *dead_links(texts)]
    if not any(True for _ in commands(texts)):
        found.append("no page shows a command")
    if program:
        with tempfile.TemporaryDirectory(prefix="documents-") as folder:
            found += differences(texts, runner(program, folder))
    return found


SELF_TEST = "x" * 121 + "\n\n```\n" + "y" * 121 + "\n```\n\n```console\n$ echo a\na\n$ echo b\nc\n$ true\n```\n"
LINKS = "\n[a](tools/documents.py) [b](https://b.example) [c](tools/no_page.md#c)\n"


def self_test():
    """Compares a page that was written by hand: one line is too wide, one of its commands prints another text, and one of
    its links leads nowhere."""
    texts = {"page": SELF_TEST + LINKS}
    with tempfile.TemporaryDirectory(prefix="documents-") as folder:
        found = [*differences(texts, runner(sys.executable, folder))]
    if [*wide_lines(texts)] != ["page:1: 121 columns"]:
        yield f"the wide line is not found, or another one is: {[*wide_lines(texts)]}"
    if [*dead_links(texts)] != ["page:15: there is no tools/no_page.md"]:
        yield f"the dead link is not found, or another one is: {[*dead_links(texts)]}"
    if found != ["page: `echo b` prints\nb\nin place of\nc\n"]:
        yield f"the wrong text is not found, or another one is: {found}"


def main():
    shape = {"description": __doc__, "formatter_class": argparse.RawDescriptionHelpFormatter}
    parser = argparse.ArgumentParser(**shape, usage="documents.py [--program FILE] | --self-test")
    parser.add_argument("--self-test", action="store_true", help="compare a page that was written by hand")
    parser.add_argument("--program", type=pathlib.Path, help="a program that is built already")
    asked = parser.parse_args()
    found = [*self_test()] if asked.self_test else faults(pages(), asked.program)
    for fault in found:
        print(f"documents: {fault}", file=sys.stderr)
    sys.exit(bool(found))


if __name__ == "__main__":
    main()
