#!/usr/bin/env python3
"""Compares the headers for C with the exports of the library, and looks at an archive.

    c_library.py                compares all that the table has; names each difference, and fails where there is one
    c_library.py archive FILE   fails where the archive has another global name than the calls of the header, lacks one
                                of them, or wants more than the functions of C that are listed below
    c_library.py page PROGRAM   runs tests/c/small_tracer as it was built, and compares what it prints with docs/C.md
    c_library.py --self-test    spoils a small header and a small archive in each way, and sees that it is named

| What | Decides | Compared |
|---|---|---|
| names and arguments of the calls | `pub extern "C" fn` of crates/pukzarn/src | include/pukzarn.h |
| structs, fields and their types | `#[repr(C)]` structs `C..` of crates/c_interface/src | include/pukzarn.h |
| constants | `pub const` of crates/c_interface/src | include/pukzarn.h |
| P_ALL, P_PID, P_PGID | <sys/wait.h>, as Python has it | crates/c_interface/src |
| the calls with their arguments | include/pukzarn.h | include/pukzarn_checked.h |

An argument of type `Global` is none in C, a slice is a pointer and a size_t, and any other reference is a pointer. The
types of numbers are compared, and whether a pointer is to const, except those to handles.
"""

import os
import pathlib
import re
import subprocess
import sys

ROOT = pathlib.Path(__file__).resolve().parent.parent
HEADER, CHECKED, PAGE = "include/pukzarn.h", "include/pukzarn_checked.h", "docs/C.md"
EXPORTS, TYPES = "crates/pukzarn/src", "crates/c_interface/src"
HANDLES = ("record", "board", "tracee", "tracer", "case", "machine")
WANTED_OF_C = {"malloc", "realloc", "free", "memcpy", "memmove", "memset", "memcmp"}
# What a type of Rattle is in C, as an argument, as a field or as an answer.
NUMBERS = {"u16": "uint16_t", "u32": "uint32_t", "i32": "int32_t", "u64": "uint64_t", "usize": "size_t"}
ANSWERS = {"i32": "int", "i64": "long", "isize": "long"}
WAITS = ("P_ALL", "P_PID", "P_PGID")


def without_comments(text):
    return re.sub(r"//[^\n]*", "", re.sub(r"/\*.*?\*/", " ", text, flags=re.S))


def parts(text):
    """What stands between the commas of a list, those within brackets aside."""
    depth, found = 0, [""]
    for character in text:
        depth += (character in "<([{") - (character in ">)]}")
        if character == "," and depth == 0:
            found.append("")
        else:
            found[-1] += character
    return [part.strip() for part in found if part.strip()]


def c_argument(text):
    """An argument of C as it is compared: `pointer`, `const pointer`, `handle`, or the type of a number."""
    text = " ".join(text.split())
    if re.match(rf"pukzarn_(checked_)?({'|'.join(HANDLES)}) \*", text):
        return "handle"
    if "*" in text or "[" in text:
        return "const pointer" if text.startswith("const ") else "pointer"
    name = text.rsplit(" ", 1)[0]
    return "int32_t" if name == "int" else name


def c_calls(text, prefix="pukzarn_"):
    """Each call of a header: its name without the prefix, its answer, and its arguments."""
    pattern = rf"^(?:static inline )?(int|long) {prefix}(\w+)\(([^;{{]*?)\)\s*[;{{]"
    return {name: (answer, parts(arguments)) for answer, name, arguments in re.findall(pattern, text, re.M | re.S)}


def rattle_argument(type_of):
    """An argument of an export as C has it, as a list: none, one or two arguments."""
    if type_of == "Global":
        return []
    const = "pointer" if type_of.startswith("&mut ") or type_of.startswith("*mut ") else "const pointer"
    target = re.sub(r"^(&(mut )?|\*(mut|const) )", "", type_of)
    if target == type_of:
        return [NUMBERS.get(type_of, type_of)]
    if target.startswith("[") and ";" not in target:
        inner = target.strip("[]")
        return ["handle" if inner.endswith("Handle") else const, "size_t"]
    return ["handle" if target.endswith("Handle") else const]


def exports(text):
    """Each export: its name without the prefix, its answer, and its arguments as C has them."""
    pattern = r'pub extern "C" fn pukzarn_(\w+)\s*\((.*?)\)\s*->\s*(\w+)'
    found = {}
    for name, arguments, answer in re.findall(pattern, text, re.S):
        types = [" ".join(part.split(":", 1)[1].split()) for part in parts(arguments)]
        found[name] = (ANSWERS.get(answer, answer), [each for type_of in types for each in rattle_argument(type_of)])
    return found


def call_faults(sources):
    wanted = exports(without_comments(sources[EXPORTS]))
    found = c_calls(without_comments(sources[HEADER]))
    if not wanted:
        yield f"{EXPORTS}: it exports nothing"
        return
    for name in sorted(wanted.keys() | found.keys()):
        if name not in found:
            yield f"{HEADER}: pukzarn_{name} is not there, and {EXPORTS} exports it"
        elif name not in wanted:
            yield f"{HEADER}: pukzarn_{name} is there, and {EXPORTS} does not export it"
        else:
            shape = (found[name][0], [c_argument(text) for text in found[name][1]])
            if shape != wanted[name]:
                yield f"{HEADER}: pukzarn_{name} is {shape}, and its export {wanted[name]}"


def checked_faults(sources):
    wanted = c_calls(without_comments(sources[HEADER]))
    found = c_calls(without_comments(sources[CHECKED]), "pukzarn_checked_")
    handle = re.compile(rf"\bpukzarn_({'|'.join(HANDLES)}) \*")
    spaced = lambda arguments: [" ".join(argument.split()) for argument in arguments]
    for name in sorted(wanted.keys() | found.keys()):
        if name not in found:
            yield f"{CHECKED}: pukzarn_checked_{name} is not there"
        elif name not in wanted:
            yield f"{CHECKED}: pukzarn_checked_{name} is there, and {HEADER} has no such call"
        else:
            answer, arguments = wanted[name]
            arguments = [handle.sub(r"pukzarn_checked_\1 *", argument) for argument in spaced(arguments)]
            if (answer, arguments) != (found[name][0], spaced(found[name][1])):
                yield f"{CHECKED}: pukzarn_checked_{name} has other arguments than pukzarn_{name}"


def c_structs(text):
    """Each struct of the header that is no handle: its fields with their types."""
    found = {}
    for name, body in re.findall(r"^struct pukzarn_(\w+) \{(.*?)\};", text, re.M | re.S):
        fields = [re.match(r"\s*(\w+)\s+(.*)", line, re.S).groups() for line in body.split(";") if line.strip()]
        found[name] = [(field.strip(), type_of) for type_of, names in fields for field in names.split(",")]
    return found


def rattle_structs(text):
    """Each #[repr(C)] struct whose name begins with C: its fields with their types in C."""
    found = {}
    pattern = r"#\[repr\(C\)\]\s*(?:#\[[^\]]*\]\s*)*pub struct C(\w+) \{(.*?)\n\}"
    for name, body in re.findall(pattern, text, re.S):
        fields = re.findall(r"pub (\w+): (\w+),", body)
        found[name.lower()] = [(field, NUMBERS.get(type_of, type_of)) for field, type_of in fields]
    return found


def struct_faults(sources):
    wanted, found = rattle_structs(without_comments(sources[TYPES])), c_structs(without_comments(sources[HEADER]))
    for name in sorted(wanted.keys() | found.keys()):
        if wanted.get(name) != found.get(name):
            yield f"{HEADER}: struct pukzarn_{name} is {found.get(name)}, and in {TYPES} {wanted.get(name)}"


def constant_faults(sources):
    pattern = r"pub const (\w+): \w+ = (\w+);"
    wanted = {name: int(number, 0) for name, number in re.findall(pattern, without_comments(sources[TYPES]))}
    enums = " ".join(re.findall(r"^enum \{(.*?)\}", without_comments(sources[HEADER]), re.M | re.S))
    found = {name: int(number, 0) for name, number in re.findall(r"PUKZARN_(\w+) = (\w+)", enums)}
    for name in WAITS:
        if wanted.pop(name, None) != getattr(os, name):
            yield f"{TYPES}: {name} is not that of <sys/wait.h>, {getattr(os, name)}"
    for name in sorted(wanted.keys() | found.keys()):
        if wanted.get(name) != found.get(name):
            yield f"{HEADER}: PUKZARN_{name} is {found.get(name)}, and in {TYPES} {wanted.get(name)}"


PARTS = (call_faults, checked_faults, struct_faults, constant_faults)


def faults(sources):
    return [fault for part in PARTS for fault in part(sources)]


def sources_of(root):
    """What is compared: the text of each file, of a folder those of all its files together."""
    folder = lambda path: "\n".join(each.read_text() for each in sorted((root / path).glob("**/*.rt")))
    headers = {path: (root / path).read_text() for path in (HEADER, CHECKED)}
    return headers | {path: folder(path) for path in (EXPORTS, TYPES)}


def archive_faults(symbols, header):
    """What nm says of an archive (lines `name type ..`), beside the calls of the header."""
    split = [line.split()[:2] for line in symbols.splitlines() if len(line.split()) >= 2]
    defined = {name for name, kind in split if kind != "U"}
    wanted = {name for name, kind in split if kind == "U"} - defined
    calls = {f"pukzarn_{name}" for name in c_calls(without_comments(header))}
    yield from (f"{name} is not in the archive" for name in sorted(calls - defined))
    yield from (f"{name} is global, and no call of {HEADER}" for name in sorted(defined - calls))
    yield from (f"{name} is wanted of whoever links it" for name in sorted(wanted - WANTED_OF_C))


def symbols_of(archive):
    command = ["nm", "--extern-only", "--format=posix", archive]
    return subprocess.run(command, stdout=subprocess.PIPE, check=True).stdout.decode()


def page_faults(program):
    """A line where the program prints another text than the page's block of text."""
    blocks = re.findall(r"^```text\n(.*?)^```", (ROOT / PAGE).read_text(), re.M | re.S)
    printed = subprocess.run([program], stdout=subprocess.PIPE, check=True, timeout=60).stdout.decode()
    if blocks != [printed]:
        yield f"{PAGE}: its blocks of text are {blocks}, and {program} prints {printed!r}"


# A library of two calls, and each way to spoil it: the file, what is there once, and what stands in its place.
SMALL = {
    HEADER: "/* int pukzarn_none(void); */\nenum {\n    PUKZARN_CONT = 0, /* a */\n    PUKZARN_SYSCALL = 1\n};\n"
    "struct pukzarn_stop {\n    uint32_t kind;\n    uint32_t value;\n};\n"
    "long pukzarn_version(char *to, size_t room);\n"
    "int pukzarn_board_publish(pukzarn_board *board, uint32_t row, const struct pukzarn_stop *stop,\n"
    "                          uint32_t *number);\n",
    CHECKED: "static inline long pukzarn_checked_version(char *to, size_t room)\n{\n}\n"
    "static inline int pukzarn_checked_board_publish(pukzarn_checked_board *board, uint32_t row,\n"
    "        const struct pukzarn_stop *stop, uint32_t *number)\n{\n}\n",
    EXPORTS: '#[unsafe(no_mangle)]\npub extern "C" fn pukzarn_version(to: &mut [u8]) -> i64\n{ 0 }\n'
    'pub extern "C" fn pukzarn_board_publish(\n    alloc: Global,\n    board: &mut BoardHandle,\n    row: u32,\n'
    "    stop: &CStop,\n    number: &mut u32,\n) -> i32\n    ensures { 0 }\n{ 0 }\n",
    TYPES: "pub const P_ALL: u32 = 0;\npub const P_PID: u32 = 1;\npub const P_PGID: u32 = 2;\n"
    "#[repr(C)]\n#[derive(Clone)]\npub struct CStop {\n    /// a\n    pub kind: u32,\n    pub value: u32,\n}\n"
    "impl X {\n    pub const CONT: u32 = 0;\n    pub const SYSCALL: u32 = 1;\n}\n",
}
SPOILT = [
    (HEADER, "long pukzarn_version(char *to, size_t room);\n", ""),
    (HEADER, "size_t room", "uint32_t room"),
    (HEADER, "long pukzarn_version", "int pukzarn_version"),
    (HEADER, "char *to", "const char *to"),
    (HEADER, "const struct pukzarn_stop *stop", "struct pukzarn_stop *stop"),
    (HEADER, "uint32_t row", "int32_t row"),
    (HEADER, ",\n                          uint32_t *number", ""),
    (HEADER, "PUKZARN_SYSCALL = 1", "PUKZARN_SYSCALL = 2"),
    (HEADER, "    PUKZARN_SYSCALL = 1\n", ""),
    (HEADER, "    uint32_t value;\n", "    uint64_t value;\n"),
    (HEADER, "    uint32_t kind;\n    uint32_t value;\n", "    uint32_t value;\n    uint32_t kind;\n"),
    (CHECKED, "pukzarn_checked_version", "pukzarn_checked_versions"),
    (CHECKED, "uint32_t row", "uint32_t rank"),
    (CHECKED, "pukzarn_checked_board *board", "pukzarn_board *board"),
    (EXPORTS, "fn pukzarn_version", "fn pukzarn_versions"),
    (EXPORTS, "&mut [u8]", "&mut u8"),
    (EXPORTS, "    alloc: Global,\n", "    alloc: Global,\n    tid: u32,\n"),
    (TYPES, "P_PGID: u32 = 2", "P_PGID: u32 = 3"),
]
NAMES = "pukzarn_version T 0 1\npukzarn_board_publish T 0 1\nmalloc U\n"
SPOILT_NAMES = [
    ("pukzarn_version T 0 1\n", ""),
    ("malloc U\n", "malloc U\nrattle_alloc T 0 1\n"),
    ("malloc U\n", "malloc U\nwrite U\n"),
]


def self_test():
    """The differences that are not named, and the same texts where a difference is named."""
    yield from (f"the small library: {fault}" for fault in faults(SMALL))
    yield from (f"the small archive: {fault}" for fault in archive_faults(NAMES, SMALL[HEADER]))
    for path, old, new in SPOILT:
        if SMALL[path].count(old) != 1:
            yield f"{path}: {old!r} is there {SMALL[path].count(old)} times"
        elif not faults(SMALL | {path: SMALL[path].replace(old, new)}):
            yield f"{path}: {new!r} in place of {old!r} is not named"
    for old, new in SPOILT_NAMES:
        if not [*archive_faults(NAMES.replace(old, new), SMALL[HEADER])]:
            yield f"an archive with {new!r} in place of {old!r} is not named"


def main():
    asked = sys.argv[1:]
    if asked == ["--self-test"]:
        found = [*self_test()]
    elif len(asked) == 2 and asked[0] == "archive":
        found = [f"{asked[1]}: {fault}" for fault in archive_faults(symbols_of(asked[1]), (ROOT / HEADER).read_text())]
    elif len(asked) == 2 and asked[0] == "page":
        found = [*page_faults(asked[1])]
    elif not asked:
        found = faults(sources_of(ROOT))
    else:
        sys.exit(__doc__)
    for fault in found:
        print(f"c_library: {fault}", file=sys.stderr)
    sys.exit(bool(found))


if __name__ == "__main__":
    main()
