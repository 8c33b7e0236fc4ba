"""What else follows from the outcomes of an example of examples/explore.

- With `--budget M`, M being its number of places, it prints the same; with one less there are too many places.
- `--replay K` prints the order of its outcome K as a replay file, for each K; one more than there are is named.
- `tracer replay` answers that file with the replies that the order lists: for a look or a peek with the state, and for a
  kill or an exit_group with the replies to the commands that it is made of.
- Of a forbidden example litmus.py says how many places there are, and which budget the searches for its line need: with
  that budget it prints the same; with one less, if there are not too many places then, `forbidden` without a line.

Where the example has options, they stay. Of one with `--ends` litmus.py says what is printed without it: that is run
too, and its orders are replayed.
"""

import re

import litmus

LAST = re.compile(rb"^outcomes (\d+), places (\d+)$", re.M)


def orders(text):
    """The lines below `order` of each outcome, each as the thread, the words of the command, and the answer."""
    for part in text.decode().split("\norder\n")[1:]:
        lines = part.split("\n\n")[0].split("\n")
        turns = [line.partition(": ") for line in lines if line]
        yield [(*command.split(" ", 1), answer) for command, _, answer in turns]


def ending(board, row, death):
    """The commands, each of one row, by which a row's thread group ends, and the replies to them."""
    for other in filter(board.is_alive, board.group(row)):
        tid, (state, *numbers) = board.litmus.tids[other], board.state(other)
        if state == "stopped":
            yield f"claim {tid} 0", litmus.spell(("stop", *numbers))
        if state != "running":
            yield f"resume {tid} {numbers[1] if state == 'claimed' else 0} cont 0", "resumed"
        yield f"exit {tid} {death}", "exited"


def replay(rows, order):
    """An order as a replay file, and the replies to it. What a look leaves there, a board of litmus.py tells."""
    lines, replies, claimed = list(rows), [], {}
    tracees = litmus.Litmus("\n".join(rows))
    board = litmus.Board(tracees)
    for thread, command, answer in order:
        kind, aim, *rest = command.split(" ")
        if answer in ("nothing", "no child"):
            continue
        if aim == "group":
            aim, rest = "any", rest[1:]
        if aim == "any":
            aim, answer = answer.split(" ", 1)
        elif aim == "it":
            aim = claimed[thread]
        row = tracees.tids.index(int(aim))
        if kind in ("look", "peek"):
            lines.append(f"state {aim}")
            replies.append(litmus.spell(board.state(row)))
            continue
        if kind in ("kill", "exit_group"):
            for line, reply in ending(board, row, f"exited {rest[0]}" if rest else "killed 9"):
                lines.append(line)
                replies.append(reply)
            _, board = board.call(row, kind, rest)
            continue
        if answer.startswith("stop "):
            claimed[thread] = aim
        _, board = board.call(row, kind, rest)
        lines.append(" ".join(["claim" if kind == "wait" else kind, aim, *rest]))
        replies.append(answer)
    return tuple("".join(f"{line}\n" for line in it).encode() for it in (lines, replies))


def too_few(options, given, places):
    """A run with a budget of one place less than there are, if there are more than one."""
    if places > 1:
        yield ["explore", *options, "--budget", str(places - 1)], given, b"", b"tracer: too many places\n", 3


def follow_forbidden(options, given, text):
    """What is run of a forbidden example."""
    places, with_line = litmus.budgets(given.decode())
    yield ["explore", *options, "--budget", str(with_line)], given, text, b"", 4
    if with_line > places:
        yield ["explore", *options, "--budget", str(with_line - 1)], given, b"forbidden\n", b"", 4
    yield from too_few(options, given, places)


def follow(options, given, text):
    """What is run, and what comes of it: the words, the input, the two streams and the status."""
    last = LAST.search(text)
    if text.startswith(b"forbidden"):
        yield from follow_forbidden(options, given, text)
    if not last:
        return
    count, places = int(last[1]), int(last[2])
    yield ["explore", *options, "--budget", str(places)], given, text, b"", 0
    yield from too_few(options, given, places)
    if "--ends" in options:
        text = litmus.explore(given.decode())[0].encode()
        yield ["explore"], given, text, b"", 0
    rows = [line for line in given.decode().split("\n") if line.startswith("row ")]
    for number, order in enumerate(orders(text), 1):
        file, replies = replay(rows, order)
        yield ["explore", "--replay", str(number)], given, file, b"", 0
        yield ["replay"], file, replies, b"", 0
    yield ["explore", "--replay", str(count + 1)], given, b"", f"tracer: no outcome {count + 1}\n".encode(), 4


GIVEN = b"row 7 7 7 0\nrow 8 7 7 7\nrow 9 7 7 7\nthread a\n"
TEXT = b"""outcome 1 of 1
order
a publish 7 start: published 1
a look any 3: 7 stop 1 0x80057f
a peek group 7 2: 7 stop 1 0x80057f
a wait any 0: 7 stop 1 0x80057f
a resume it 0 cont 0: resumed
a claim any 0: nothing
a publish 7 clone 8: published 2
a publish 8 enter: published 1
a claim any 5: 7 stop 2 0x03057f
a kill 8: killed
a kill 7: dead

outcomes 1, places 12
"""
# The last line is of a group of which nothing lives: no command of a replay is made of it.
FILE = b"""row 7 7 7 0
row 8 7 7 7
row 9 7 7 7
publish 7 start
state 7
state 7
claim 7 0
resume 7 0 cont 0
publish 7 clone 8
publish 8 enter
claim 7 5
claim 8 0
resume 8 0 cont 0
exit 8 killed 9
resume 7 5 cont 0
exit 7 killed 9
"""
REPLIES = b"""published 1
stopped 1 0x80057f
stopped 1 0x80057f
stop 1 0x80057f
resumed
published 2
published 1
stop 2 0x03057f
stop 1 0x00857f
resumed
exited
resumed
exited
"""
# An example with `--ends`, and what is printed without it.
ENDING = b"row 7 7 7 0\nthread a\npublish 7 start\n"
ENDS = b"1 outcomes, first 1: 7 stopped; nobody waits\noutcomes 1, places 2\n"
WHOLE = b"""outcome 1 of 1
thread a
publish 7 start: published 1
tracees
7 stopped 1 0x80057f
order
a publish 7 start: published 1

outcomes 1, places 2
"""
# A forbidden example, which has one place more with its first reply alone.
UNMET = b"row 7 7 7 0\nthread a\npublish 7 start = published 1\nwait 7 0 = stop 2 *\n"
NO_RUN = b"forbidden: line 4\n"
TOO_MANY = b"tracer: too many places\n"


def is_right():
    """Whether what follows from outcomes that were written by hand is what should."""
    tried = [([], GIVEN, TEXT), (["--ends"], ENDING, ENDS), ([], UNMET, NO_RUN)]
    found = [(" ".join(words), *of_it) for example in tried for words, *of_it in follow(*example)]
    return found == [
        ("explore --budget 12", GIVEN, TEXT, b"", 0),
        ("explore --budget 11", GIVEN, b"", TOO_MANY, 3),
        ("explore --replay 1", GIVEN, FILE, b"", 0),
        ("replay", FILE, REPLIES, b"", 0),
        ("explore --replay 2", GIVEN, b"", b"tracer: no outcome 2\n", 4),
        ("explore --ends --budget 2", ENDING, ENDS, b"", 0),
        ("explore --ends --budget 1", ENDING, b"", TOO_MANY, 3),
        ("explore", ENDING, WHOLE, b"", 0),
        ("explore --replay 1", ENDING, b"row 7 7 7 0\npublish 7 start\n", b"", 0),
        ("replay", b"row 7 7 7 0\npublish 7 start\n", b"published 1\n", b"", 0),
        ("explore --replay 2", ENDING, b"", b"tracer: no outcome 2\n", 4),
        ("explore --budget 3", UNMET, NO_RUN, b"", 4),
        ("explore --budget 2", UNMET, b"forbidden\n", b"", 4),
        ("explore --budget 1", UNMET, b"", TOO_MANY, 3),
    ]
