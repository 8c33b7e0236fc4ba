"""What the report of a check says of wrong bodies.

Of each function the report has a line `fn PATH: proved`, or one that says why it is not. What fails is told before it,
by its place: in the function's own lines, or in a file of its own proof.
"""

import enum
import re

import rattle_source

FUNCTION = re.compile(r"(?m)^fn ([^\s:]+(?:::[^\s:]+)*): (.*)$")
GOAL = re.compile(r"(?m)^(?:note: )?(?:\./)?(src/\S+?):(\d+):\d+: (?:error: )?(.*)$")
PROOF = re.compile(r"(?m)^(?:\./)?proofs/(\S+)/[^/\s]+:\d+:\d+: error: (.*)$")
ERROR = re.compile(r"(?m)^(?:\./)?(src/\S+?):(\d+):\d+: error\b(.*)$")
NOT_FOUND = re.compile(r"\bsearch`? did not prove")
# A proof that names what the edit took away: this says little of the contract.
LOST_NAME = re.compile(r"has no field|is not in scope|has no `|was not admitted")
# An edited text that cannot be read, where one that only makes a statement false reads well.
UNREAD = re.compile(r"is not in scope|has no field|is no name|operand is missing|expected the end|cannot continue")
# The kept work of a library that no longer fits.
STALE = re.compile(r"module .Rattle-(\w+)-.*Run the lower steps again")


class Verdict(enum.Enum):
    """What a check says of one wrong body."""

    REFUSED = "refused"
    NOT_TOLD = "not told by this check"
    LET_THROUGH = "NOT REFUSED: the crate is still proved with it"
    BAD = "BAD EDIT"


def is_of_the_prover(report):
    """Whether the check came to the prover, so that the report speaks of functions."""
    return bool(re.search(r"(?m)^logic=", report))


def blamed(report, texts):
    """The functions in which the text could not be read."""
    lines = [(file, int(line)) for file, line, _ in ERROR.findall(report) if file in texts]
    return {rattle_source.function_on(texts[file], file, line) for file, line in lines} - {None}


def why_refused(functions, report, texts):
    """The first goal of its own that one of these functions does not meet, or None where the report names none."""
    for path, told in FUNCTION.findall(report):
        _, _, inside = path.partition("::")
        mine = [it for it in functions if it.is_named(inside)]
        if not mine or told.startswith("proved"):
            continue
        if NOT_FOUND.search(told):
            return told
        for file, line, said in GOAL.findall(report):
            is_goal = "not proved" in said and file in texts
            if is_goal and rattle_source.function_on(texts[file], file, int(line)) in mine:
                return f"{file}:{line}: {said}"
        for folder, said in PROOF.findall(report):
            named = "::".join(it.lstrip("+") for it in folder.split("/"))
            if any(it.is_named(named) for it in mine) and not LOST_NAME.search(said):
                return f"proofs/{folder}: {said}"
    return None


def alone(status, report, changed):
    """The verdict on an edit of these files that was tried alone, and why: as `rt must-fail` counts it."""
    for line in report.split("\n"):
        at = re.match(r"(?:\./)?(\S+?):\d+:\d+: error: (?:(`[^`]*`): )?(.*)", line)
        if at and (at[1] in changed or at[1].startswith(("src/", "specs/"))):
            said = re.sub(r"`[^`]*`", "", at[3])
            if not at[2] or UNREAD.search(said):
                return Verdict.BAD, f"the prover cannot read the edited text, so no contract was tried: {line[:200]}"
    if STALE.search(report):
        return Verdict.BAD, "the kept work of a library could not be used"
    if status == 0:
        return Verdict.LET_THROUGH, ""
    if status == 1 and re.search(r"(?m)^logic=not-proved", report):
        return Verdict.REFUSED, ""
    return Verdict.BAD, "it did not reach the prover: " + " / ".join(report.split("\n")[:3])[:300]
