#!/usr/bin/env python3
"""Runs a built program with less and less address space (setrlimit(2), RLIMIT_AS), and looks at how it ends.

    scarce_memory.py PROGRAM

It runs a case of the most tracees, with 64 pages each, by the most workers, so that the run asks for as many threads as
any: 272. At every limit the program has to end in one of three ways: it prints the whole text, with status 0; or it
prints nothing, and says on standard error, with status 3, that it is out of memory or that it cannot start its threads.
The limits go down from an ample one until the program is out of memory, and then into the gaps between limits at which
it ended in different ways.

Each of the three ways has to come. At one of the limits at which the program is out of memory it has to have enough to
read the file, so that the run was refused: there it refuses the same file with a faulty line at its end by that line.
"""

import resource
import subprocess
import sys

# The most tracees, how many pages each has, and the most workers.
TRACEES = range(100, 356)
PAGES = 64
WORKERS = 16
AMPLE = 16 << 30
# How far down a limit is below the last one, and how often a gap is halved.
STEP, HALVINGS = 0.8, 6
# The most that a run may take, in seconds.
SECONDS = 60

PRINTED, NO_MEMORY, NO_THREADS = "prints the text", "out of memory", "cannot start threads"


def case():
    """The case, and the text that it prints."""
    pages = "".join(f"page {n * 4096:#x}\n" for n in range(PAGES))
    blocks = (f"tracee {tid} {tid} 77 0\n{pages}exit 0\nend\n" for tid in TRACEES)
    text = (f"{tid} exit(0) = ?\n{tid} +++ exited with 0 +++\n" for tid in TRACEES)
    return "".join(blocks).encode(), "".join(text).encode()


def run(program, given, limit):
    """How a run of this file ends within this much address space: its status, and what it prints on its two streams."""
    def within():
        resource.setrlimit(resource.RLIMIT_AS, (limit, limit))

    try:
        how = {"input": given, "capture_output": True, "env": {}, "timeout": SECONDS, "preexec_fn": within}
        ran = subprocess.run([program, "run", "-w", str(WORKERS)], **how)
    except subprocess.TimeoutExpired:
        sys.exit(f"scarce-memory: FAILED: with {limit} bytes it did not end in {SECONDS} seconds")
    return ran.returncode, ran.stdout, ran.stderr


class Search:
    """The limits that were tried, and how the program ended at each."""

    def __init__(self, program):
        self.program, self.ends = program, {}
        self.given, text = case()
        self.ways = {
            (0, text, b""): PRINTED,
            (3, b"", b"tracer: no memory\n"): NO_MEMORY,
            (3, b"", b"tracer: cannot start threads\n"): NO_THREADS,
        }

    def end(self, limit):
        """How the program ends with this limit."""
        answer = run(self.program, self.given, limit)
        if answer not in self.ways:
            status, stdout, stderr = answer
            sys.exit(f"scarce-memory: FAILED: with {limit} bytes it ended with status {status}, {len(stdout)} bytes of "
                     f"text and this on standard error: {stderr[:500]}")
        self.ends[limit] = self.ways[answer]
        return self.ends[limit]

    def go_down(self):
        """Tries limits from an ample one until the program is out of memory."""
        limit = AMPLE
        while self.end(limit) != NO_MEMORY:
            limit = int(limit * STEP)

    def look_between(self):
        """Tries limits between two at which the program ended in different ways."""
        limits = sorted(self.ends)
        for low, high in zip(limits, limits[1:]):
            for _ in range(HALVINGS):
                if self.ends[low] == self.ends[high]:
                    break
                middle = (low + high) // 2
                if self.end(middle) == self.ends[low]:
                    low = middle
                else:
                    high = middle

    def has_read(self, limit):
        """Whether the program can read the file with this limit: it refuses it for a faulty line at its end."""
        lines = self.given.count(b"\n") + 1
        refused = (1, b"", f"tracer: line {lines}: UnknownWord\n".encode())
        return run(self.program, self.given + b"faulty\n", limit) == refused


def main(program):
    search = Search(program)
    search.go_down()
    search.look_between()
    for way in (PRINTED, NO_THREADS, NO_MEMORY):
        limits = sorted(limit for limit, end in search.ends.items() if end == way)
        if not limits:
            sys.exit(f"scarce-memory: FAILED: at no limit it ended so: {way}")
        print(f"  {way}: at {len(limits)} limits of {limits[0] >> 20} to {limits[-1] >> 20} MiB")
    lacking = [limit for limit, end in search.ends.items() if end == NO_MEMORY]
    if not any(map(search.has_read, lacking)):
        sys.exit("scarce-memory: FAILED: it was out of memory only while it read the file")


if __name__ == "__main__":
    if len(sys.argv) != 2 or sys.argv[1].startswith("-"):
        sys.exit(__doc__)
    main(sys.argv[1])
