"""Runs the program on the examples of its explorer and of replays with each allocation refused in turn.

Usage: refused_memory.py [PROGRAM]

A library that is loaded before the program (ld.so(8), LD_PRELOAD) lets the n-th call of malloc(3), calloc(3),
realloc(3) or aligned_alloc(3) fail. For each n the program has to say that there is no memory, with status 3, and to
have written nothing but a beginning of its text; or, where it can do without what was refused, to answer as ever. An
example with more than MOST places is left out. It needs a C compiler (CC, or cc).
"""

import os
import pathlib
import subprocess
import sys
import tempfile

import outcomes

ROOT = pathlib.Path(__file__).resolve().parent.parent
MOST = 100
# So many answers as ever, one after the other, and no later call is reached.
ALIKE = 25
# The most that a run may take.
SECONDS = 60

LIBRARY = """
#include <errno.h>
#include <stddef.h>
#include <stdlib.h>

void *__libc_malloc(size_t), *__libc_calloc(size_t, size_t);
void *__libc_realloc(void *, size_t), *__libc_memalign(size_t, size_t);

static int is_refused(void) {
    static long at, calls;
    if (!at) at = atol(getenv("REFUSED_CALL"));
    if (++calls != at) return 0;
    errno = ENOMEM;
    return 1;
}

void *malloc(size_t size) { return is_refused() ? NULL : __libc_malloc(size); }
void *calloc(size_t count, size_t size) { return is_refused() ? NULL : __libc_calloc(count, size); }
void *realloc(void *old, size_t size) { return is_refused() ? NULL : __libc_realloc(old, size); }
void *aligned_alloc(size_t align, size_t size) { return is_refused() ? NULL : __libc_memalign(align, size); }
"""


def build(folder):
    """The library, in this folder."""
    source, library = folder / "refuse.c", folder / "refuse.so"
    source.write_text(LIBRARY)
    subprocess.run([os.environ.get("CC") or "cc", "-shared", "-fPIC", "-O1", "-o", library, source], check=True)
    return library


def commands():
    """The arguments of each run."""
    for file in sorted((ROOT / "examples" / "explore").glob("*.litmus")):
        yield from (["explore", file], ["explore", "--ends", file], ["explore", "--replay", "1", file])
    yield from (["replay", file] for file in sorted((ROOT / "examples" / "replay").iterdir()) if not file.suffix)


def ran(program, words, library=None, call=0):
    """What a run answers: status, output, messages."""
    how = {"LD_PRELOAD": str(library), "REFUSED_CALL": str(call)} if library else {}
    done = subprocess.run([program, *words], stdin=subprocess.DEVNULL, capture_output=True, env=how,
                          timeout=SECONDS)
    return done.returncode, done.stdout, done.stderr


def is_right(answer, usual):
    status, output, message = answer
    return answer == usual or (status == 3 and usual[1].startswith(output) and b"no memory" in message)


def refusals(program, words, library, usual):
    """How many calls were refused in turn, and those at which the program answered wrongly."""
    wrong, call, alike = [], 0, 0
    while alike < ALIKE:
        call += 1
        answer = ran(program, words, library, call)
        alike = alike + 1 if answer == usual else 0
        if not is_right(answer, usual):
            wrong.append((call, answer))
    return call - ALIKE, wrong


def main():
    program = os.path.abspath(sys.argv[1] if len(sys.argv) > 1 else "bin/tracer")
    calls, failed = 0, 0
    with tempfile.TemporaryDirectory() as folder:
        library = build(pathlib.Path(folder))
        for words in commands():
            usual = ran(program, words)
            last = outcomes.LAST.search(usual[1])
            if last and int(last[2]) > MOST:
                continue
            refused, wrong = refusals(program, words, library, usual)
            calls, failed = calls + refused, failed + len(wrong)
            for call, answer in wrong:
                print(f"refused_memory: {' '.join(map(str, words))}: call {call} refused: {answer}")
    print(f"refused_memory: {calls} calls were refused, one in each run; {failed} runs answered wrongly")
    sys.exit(failed > 0)


main()
