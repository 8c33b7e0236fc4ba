#!/usr/bin/env python3
"""Finds names that are given to two things: a reader who knows one of them takes the other for it.

    one_meaning.py              says of each such name where it is given, and fails where there is one
    one_meaning.py --self-test  gives names a second time, and sees that each of them is found

| What | Where | Not looked at |
|---|---|---|
| definitions | the modules of crates/*/specs/ | constructors and fields, which are known by their type |
| types of Rust and traits | crates/*/src/ | tests, and crates for tests |
| functions outside of types | crates/*/src/ | the same; laws; what no other crate can call |

A type of Rust and a definition may share a name, as `Cut` and what contracts see of it. Of functions, the names that a
crate offers are looked for in the crates above and below it, where both may be read side by side. A name that has to
stand for two things goes into `ALLOWED`, with the reason.
"""

import functools
import pathlib
import re
import sys

import rattle_source
import wrong_bodies

ROOT = pathlib.Path(__file__).resolve().parent.parent
# Names that stand for two things, each with the reason.
ALLOWED = {"place_of": "of a page and of a row: in both, where it stands in the list that is handed over"}
TEST_CRATES = (
    "test_support",
    "thread_tests",
    "explorer_tests",
    "outcome_tests",
    "call_tests",
    "script_tests",
    "system_tests",
)
COMMENT = re.compile(r"(?m)(?:^|(?<=[\s(]))--(?=[\s-]|$)[^\n]*")
# The head of a definition, or the signature of one that has no head.
DEFINITION = re.compile(
    r"(?m)^(?:(?:pub|abbrev|unfoldable|record|data) )+(?!use\b|mod\b)(?P<headed>[^\W\d][\w'?]*)"
    r"|^(?P<signed>[^\W\d][\w'?]*)[ \n]+:"
)
FUNCTION = re.compile(r"(?m)^(?:pub(?:\([^)]*\))? )?(?:const )?fn (?P<named>\w+)")
OFFERED = re.compile(r"(?m)^pub (?:const )?fn (?P<named>\w+)")
TYPE = re.compile(r"(?m)^(?:pub(?:\([^)]*\))? )?(?:struct|enum|union|trait|type) (?P<named>\w+)")


def named_in(pattern, code):
    """The names that the pattern finds, each with its line."""
    return [(it[it.lastgroup], code.count("\n", 0, it.start()) + 1) for it in pattern.finditer(code)]


@functools.cache
def definitions_in(text):
    return named_in(DEFINITION, COMMENT.sub("", text))


@functools.cache
def types_in(text):
    return named_in(TYPE, rattle_source.blanked(text))


def is_for_tests(path, modules):
    """Whether a source file is of a crate for tests, or is below a module that is compiled for tests alone."""
    _, crate, _, *rest = path.split("/")
    module = "/".join(rest).removesuffix(".rt")
    return crate in TEST_CRATES or any(module == it or module.startswith(f"{it}/") for it in modules[crate])


def definitions(texts):
    """Where each definition stands: its name, its file and its line."""
    for path, text in texts.items():
        if "/specs/" in path:
            yield from ((name, path, line) for name, line in definitions_in(text))


def sources(texts):
    """The source files of what is no test."""
    files = {path: text for path, text in texts.items() if path.endswith(".rt")}
    by_crate = {}
    for path, text in files.items():
        _, crate, file = path.split("/", 2)
        by_crate.setdefault(crate, {})[file] = text
    modules = {crate: rattle_source.test_modules(those) for crate, those in by_crate.items()}
    return {path: text for path, text in files.items() if not is_for_tests(path, modules)}


def types(texts):
    """Where each type and each trait of Rust stands: its name, its file and its line."""
    for path, text in sources(texts).items():
        yield from ((name, path, line) for name, line in types_in(text))


@functools.cache
def functions_in(text):
    """The functions outside of types, and the names of those that other crates may call."""
    code = rattle_source.blanked(text)
    return named_in(FUNCTION, code), {name for name, _ in named_in(OFFERED, code)}


@functools.cache
def crates():
    return wrong_bodies.crates_of(ROOT)


def are_near(one, other):
    """Whether one of two crates stands on the other."""
    below = {name: [it.name for it in crates()[name].below] for name in (one, other)}
    return one in below[other] or other in below[one]


def shared_functions(texts):
    """A line for each name that a crate offers and a crate above or below it gives to a function too."""
    places, offers = {}, {}
    for path, text in sources(texts).items():
        if path.endswith("/laws.rt"):
            continue
        crate = path.split("/")[1]
        found, offered = functions_in(text)
        for name, line in found:
            places.setdefault(name, {}).setdefault(crate, f"{path}:{line}")
        for name in offered:
            offers.setdefault(name, set()).add(crate)
    for name, offering in sorted(offers.items()):
        for one in sorted(offering):
            others = [it for it in places[name] if it != one and are_near(one, it) and not (it in offering and it < one)]
            if others and name not in ALLOWED:
                where = [places[name][it] for it in (one, *sorted(others))]
                yield f"{name}: {', and '.join(f'a function at {place}' for place in where)}"


def faults(texts):
    """A line for each name that stands for two things."""
    yield from shared_functions(texts)
    for kind, found in [("definition", definitions(texts)), ("type", types(texts))]:
        places = {}
        for name, path, line in found:
            places.setdefault(name, {}).setdefault(path, f"{path}:{line}")
        for name, where in sorted(places.items()):
            if len(where) > 1 and name not in ALLOWED:
                yield f"{name}: {', and '.join(f'a {kind} at {place}' for place in where.values())}"


# What the self-test writes at the end of a file, and the name that is given a second time by that.
SECOND = [
    ("crates/trace_calls/specs/ByPid.antt", "abbrev pub KeepsRule : Type 0", "KeepsRule"),
    ("crates/stop_table/specs/View.antt", "pub record Trace : Type 0 where", "Trace"),
    ("crates/trace_status/specs/WaitStatus.antt", "pub data RunEnd : Type 0 where", "RunEnd"),
    ("crates/mem_views/specs/ByteView.antt", "unfoldable pub zeros : ℕ → List ℕ", "zeros"),
    ("crates/stop_board/specs/Board.antt", "mode_text : ℕ → List ℕ", "mode_text"),
    ("crates/replay_files/src/order.rt", "pub(crate) struct Tracee;", "Tracee"),
    ("crates/trace_pages/src/lib.rt", "pub trait Gate {}", "Gate"),
    ("crates/stop_history/src/phase.rt", "enum Cut {}", "Cut"),
    ("crates/tracer_cli/src/job.rt", "fn write_state() {}", "write_state"),
    ("crates/text_lines/src/words.rt", "pub fn keyword_at() {}", "keyword_at"),
]
# What gives no name a second time, and so must not be found.
HARMLESS = [
    ("crates/trace_calls/specs/ByPid.antt", "-- abbrev pub KeepsRule : Type 0"),
    ("crates/trace_calls/specs/ByPid.antt", "pub use Rattle.stop_table.specs.Rule.{KeepsRule}"),
    ("crates/trace_calls/specs/ByPid.antt", "pub mod View"),
    ("crates/replay_files/src/order.rt", "// struct Tracee;"),
    ("crates/trace_options/src/tests.rt", "struct Tracee;"),
    ("crates/thread_tests/src/lib.rt", "struct Tracee;"),
    ("crates/mem_views/src/lib.rt", "fn write_state() {}"),
    ("crates/tracer_cli/src/job.rt", "fn are_name_bytes() {}"),
]


def self_test(texts):
    """Each name that is not found, and what is taken for one."""
    for path, line, name in SECOND:
        found = [*faults({**texts, path: f"{texts[path]}\n{line}\n"})]
        if not any(fault.startswith(f"{name}: ") and path in fault for fault in found):
            yield f"{path}: with {line!r} the name is not found"
    for path, line in HARMLESS:
        if [*faults({**texts, path: f"{texts[path]}\n{line}\n"})] != [*faults(texts)]:
            yield f"{path}: {line!r} is taken for a name's second meaning"
    for name, reason in ALLOWED.items():
        if not reason:
            yield f"{name} is allowed for no reason"


def main():
    paths = [*ROOT.glob("crates/*/specs/**/*.antt"), *ROOT.glob("crates/*/src/**/*.rt")]
    texts = {str(path.relative_to(ROOT)): path.read_text() for path in sorted(paths)}
    found = [*self_test(texts)] if sys.argv[1:] == ["--self-test"] else [*faults(texts)]
    for fault in found:
        print(f"one_meaning: {fault}", file=sys.stderr)
    sys.exit(bool(found))


if __name__ == "__main__":
    main()
