"""Edits that make a body wrong: how they are read, applied, and put into groups that one check can try.

An edit is a file of lines. `file: PATH` names a file of the crate; each pair `old: TEXT`, `new: TEXT` replaces a text
that stands there exactly once. Later pairs apply to what the earlier ones made.
"""

import collections
import dataclasses
import pathlib
import re

import rattle_source

# More in one check would only make a report that is harder to read.
MOST_IN_A_GROUP = 40
NAME = re.compile(r"[A-Za-z0-9_-][A-Za-z0-9_.-]*\.edit")


class BadEdit(Exception):
    """Why an edit cannot be applied."""


@dataclasses.dataclass(frozen=True)
class Edit:
    """A wrong body: its crate, its file's name, and what it replaces."""

    crate: str
    name: str
    pairs: tuple

    def __str__(self):
        return f"{self.crate}/{self.name}"


def pairs_of(text):
    """The file, the old and the new text of each replacement."""
    file, old, found = "", None, []
    for line in text.split("\n"):
        if line.startswith("file: "):
            file = line.removeprefix("file: ").strip()
            if not file.startswith("src/") or ".." in file:
                raise BadEdit("a `file:` line names no file below src/")
        elif line.startswith("old: "):
            old = line.removeprefix("old: ")
        elif line.startswith("new:"):
            if not file or not old:
                raise BadEdit("a `new:` line stands before any `file:` or `old:` line")
            found.append((file, old, line.removeprefix("new:").removeprefix(" ")))
            old = None
    if not found:
        raise BadEdit("it has no `old:` and `new:` pair")
    return tuple(found)


def read(folder):
    """The edits in a crate's folder `wrong-bodies`, and why the others are none, by their names."""
    good, bad = [], {}
    place = pathlib.Path(folder, "wrong-bodies")
    for file in sorted(place.iterdir()) if place.is_dir() else []:
        try:
            if not NAME.fullmatch(file.name) or not file.is_file():
                raise BadEdit("the name of an edit is of letters, digits, _, - and . and ends in .edit")
            good.append(Edit(pathlib.Path(folder).name, file.name, pairs_of(file.read_text(encoding="utf-8"))))
        except (BadEdit, UnicodeDecodeError) as why:
            bad[file.name] = str(why)
    return good, bad


def sources(folder):
    """The texts of a crate's sources, by their paths in the crate."""
    files = sorted(pathlib.Path(folder, "src").rglob("*.rt"))
    return {str(it.relative_to(folder)): it.read_text(encoding="utf-8") for it in files}


def applied(edit, texts):
    """The texts with the edit's replacements."""
    texts = dict(texts)
    for file, old, new in edit.pairs:
        if file not in texts:
            raise BadEdit(f"there is no file {file}")
        found = texts[file].count(old)
        if found != 1:
            raise BadEdit(f"an `old:` text is in {file} {found} times, and not once")
        texts[file] = texts[file].replace(old, new)
    return texts


def functions_of(edit, texts):
    """The functions whose bodies the edit changes, or None where it changes something else, as a constant."""
    texts, found = dict(texts), set()
    for file, old, new in edit.pairs:
        at = texts[file].index(old)
        function = rattle_source.function_at(texts[file], file, at, at + len(old))
        if not function:
            return None
        found.add(function)
        texts[file] = texts[file].replace(old, new)
    return frozenset(found)


def grouped(edits, texts):
    """Groups of edits for one check each. No two of a group change the same function, so each function's proof rests on
    one wrong body, its own, and on contracts, which no edit of a body changes. What changes more than bodies stands
    alone."""
    changed = {it: functions_of(it, texts) for it in edits}
    inside = [it for it in edits if changed[it]]
    of_function = collections.Counter(function for it in inside for function in changed[it])
    most = max(of_function.values(), default=0)
    groups = [[] for _ in range(max(most, -(-len(inside) // MOST_IN_A_GROUP)))]
    for edit in sorted(inside, key=lambda it: (-max(of_function[f] for f in changed[it]), it.name)):
        for group in sorted(groups, key=len):
            apart = len(group) < MOST_IN_A_GROUP and not any(changed[edit] & changed[other] for other in group)
            if apart and fits(edit, group, texts):
                group.append(edit)
                break
        else:
            groups.append([edit])
    return [it for it in groups if it] + [[it] for it in edits if not changed[it]]


def fits(edit, group, texts):
    """Whether the edit can be applied beside those of the group: each text it replaces still stands there once."""
    try:
        all_applied([*group, edit], texts)
    except BadEdit:
        return False
    return True


def all_applied(group, texts):
    for edit in group:
        texts = applied(edit, texts)
    return texts
