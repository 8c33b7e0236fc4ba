"""The functions of a Rattle source file: where each body is, and what is public.

It reads just enough of the language to know which function an edit changes, and what other crates can see of it.
Comments, strings and characters are blanked first, so that no brace or word in them counts.
"""

import dataclasses
import re

# What is no code: comments, strings and characters. (A lifetime has no closing quote, and so is none of these.)
NO_CODE = re.compile(
    r"""//[^\n]*|/\*.*?\*/|[bc]?r(#*)".*?"\1|[bc]?"(?:[^"\\]|\\.)*"|b?'(?:\\[^\n]*?|[^'\\\n])'""", re.S
)
CLAUSE = re.compile(r"\b(requires|ensures)\b[^{}]*$")
FN = re.compile(r"\bfn\s+(\w+)")
BLOCK = re.compile(r"(?m)^[ \t]*(?:pub(?:\([^)]*\))?\s+)?(?:unsafe\s+)?(impl|trait)\b([^{};]*)\{")
TEST_MODULE = r"#\[cfg\(test\)\]\s*(?:pub\s+)?mod\s+(\w+)\s*;"


@dataclasses.dataclass(frozen=True)
class Function:
    """A function with a body. `owner` is the type in whose impl it is, `of_trait` the trait of that impl, if any."""

    file: str
    owner: str
    of_trait: str
    name: str

    def modules(self):
        parts = self.file.removeprefix("src/").removesuffix(".rt").split("/")
        return [it for it in parts if it not in ("lib", "main")]

    def is_named(self, path):
        """Whether a report means this function by the path, which begins after the crate's name. It names a method by
        the module of its type, whichever file has the impl, and a closure by `fn::` and its function."""
        whole, is_closure, inner = f"::{path}".partition("::fn::")
        parts, modules = path.split("::"), self.modules()
        if is_closure:
            outer = [it for it in whole.split("::") if it]
            named = inner.split("::")
            parts = [*outer, *named[: 2 if self.owner else 1]]
        if not self.owner:
            return parts == [*modules, self.name]
        if len(parts) < 2 or parts[-1] != self.name:
            return False
        owner = f"{self.owner}{self.of_trait}"
        return parts[-2].startswith(owner) if self.of_trait else parts[-2] == owner


@dataclasses.dataclass(frozen=True)
class Place:
    """Where a function stands in a text: the end of its name, the characters of its body, and its first and last line,
    counted from 1."""

    function: Function
    named: int
    begin: int
    end: int
    first: int
    last: int


def blanked(text):
    """The text with blanks in place of what is no code; each character keeps its place."""
    return NO_CODE.sub(lambda it: re.sub(r"[^\n]", " ", it[0]), text)


def closing(code, at):
    """The place after the brace that closes the one at `at`."""
    depth = 0
    for it in re.finditer(r"[{}]", code[at:]):
        depth += 1 if it[0] == "{" else -1
        if depth == 0:
            return at + it.end()
    return len(code)


def body_of(code, at):
    """The characters of the body of a function whose name ends at `at`, after its clauses; None where it has none."""
    depth, last = 0, at
    while at < len(code):
        it = code[at]
        depth += (it in "([") - (it in ")]")
        if it == ";" and depth == 0:
            return None
        if it == "{" and depth == 0:
            end = closing(code, at)
            if not CLAUSE.search(code[last:at]):
                return at, end
            at = last = end
            continue
        at += 1
    return None


def without_generics(text):
    """The text without what stands between angle brackets."""
    text = text.replace("->", "  ")
    while "<" in text:
        shorter = re.sub(r"<[^<>]*>", "", text)
        if shorter == text:
            break
        text = shorter
    return text


def owner_of(kind, header):
    """The type and the trait that the head of an impl or a trait names; a trait with its types, as `FromAllocError`."""
    head = re.sub(r"^\s*<(?:[^<>]|<[^<>]*>)*>", "", re.split(r"\bwhere\b", header)[0])
    last = lambda it: (re.findall(r"\w+", without_generics(it).replace("dyn ", "")) or [""])[-1]
    if kind == "trait":
        return last(head.split(":")[0]), ""
    if not re.search(r"\bfor\b", head):
        return last(head), ""
    trait, owner = re.split(r"\bfor\b", head, maxsplit=1)
    given = re.findall(r"(?<!')\b[A-Z]\w+", trait[trait.find("<") :]) if "<" in trait else []
    return last(owner), last(trait) + "".join(given)


def first_line(text, at):
    """The first line of a function whose name is here: that of its comment and attributes, where reports begin it."""
    before = text[:at].split("\n")
    first = len(before)
    while first > 1 and before[first - 2].strip().startswith(("#[", "///")):
        first -= 1
    return first


def blocks_of(code):
    """The impls and traits of a file: where each begins and ends, its word, and what follows that."""
    return [(it.start(), closing(code, it.end() - 1), it[1], it[2]) for it in BLOCK.finditer(code)]


def places(text, file):
    """Where the functions of a file stand, in the file's order."""
    code, found = blanked(text), []
    blocks = [(begin, end, owner_of(kind, header)) for begin, end, kind, header in blocks_of(code)]
    for it in FN.finditer(code):
        body = body_of(code, it.end())
        if not body:
            continue
        owner = next((named for begin, end, named in blocks if begin < it.start() < end), ("", ""))
        function = Function(file, *owner, it[1])
        found.append(Place(function, it.end(), *body, first_line(text, it.start()), code.count("\n", 0, body[1]) + 1))
    return found


def is_public(code, place):
    """Whether other crates can name the function: it is `pub`, or of a trait."""
    is_of_trait = place.function.of_trait or any(
        kind == "trait" and begin < place.begin < end for begin, end, kind, _ in blocks_of(code))
    return is_of_trait or bool(re.search(r"\bpub\s+(?:const\s+|unsafe\s+)*fn\s+\w+$", code[: place.named]))


def contracts(text):
    """What other crates can rest on of this file's functions: the text without bodies, and without the functions that no
    other crate can name."""
    code, found = blanked(text), places(text, "")
    outer = [it for it in found if not any(other.begin < it.begin < other.end for other in found)]
    for it in reversed(outer):
        begin = it.begin if is_public(code, it) else code.rfind("\n", 0, it.named) + 1
        text = text[:begin] + text[it.end :]
    return without_blank_lines(text)


def without_blank_lines(text):
    return re.sub(r"\n(?:[ \t]*\n)+", "\n", text).strip()


def deciding(text, file):
    """What of a file decides whether a function is proved: the text with neither comments nor modules of tests."""
    if file.endswith(".rt"):
        text = NO_CODE.sub(lambda it: "" if it[0].startswith("//") else it[0], text)
        text = re.sub(f"{TEST_MODULE}\n?", "", text)
    elif file.endswith(".antt"):
        text = re.sub(r"(?m)^[ \t]*--.*$", "", text)
    return without_blank_lines(text)


def test_modules(texts):
    """The modules that are compiled for tests alone, by their paths below src/, without an ending."""
    found = set()
    for file, text in texts.items():
        folder = file.removeprefix("src/").removesuffix(".rt")
        folder = "" if folder in ("lib", "main") else f"{folder}/"
        found |= {folder + it for it in re.findall(TEST_MODULE, text)}
    return found


def function_at(text, file, begin, end):
    """The function whose body holds these characters; the innermost, or None."""
    inside = [it for it in places(text, file) if it.begin < begin and end < it.end]
    return min(inside, key=lambda it: it.end - it.begin).function if inside else None


def function_on(text, file, line):
    """The function that has this line, from its name to the end of its body; the innermost, or None."""
    inside = [it for it in places(text, file) if it.first <= line <= it.last]
    return min(inside, key=lambda it: it.end - it.begin).function if inside else None
