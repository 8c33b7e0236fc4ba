"""Compares the manual page with the program's own help, and its examples with what the program prints.

    man_page.py inputs PAGE FOLDER     writes a case for each example and each help, for `rt try --cases FOLDER`
    man_page.py compare PAGE REPORT    compares OPTIONS and SYNOPSIS of the page with the helps in rt's report

Of each option the names, the value's name, the range ("A to B") and the default have to be the same.
"""

import pathlib
import re
import sys

COMMANDS = ["tracer", "tracer explore", "tracer replay", "tracer run"]
EVERYWHERE = {"-h, --help", "-V, --version"}


def plain(line):
    """A line of roff as it reads: without macros, fonts and quotes."""
    words = re.match(r"\.([A-Z]+) (.*)", line)
    if words:
        parts = [a or b for a, b in re.findall(r'"([^"]*)"|(\S+)', words[2])]
        line = ("" if len(words[1]) == 2 and words[1] not in ("SH", "SS") else " ").join(parts)
    return re.sub(r"\\f[A-Z]|\\f\(..", "", line).replace("\\-", "-").replace("\\e", "\\")


def facts(text):
    """The range and the default that a text names."""
    range_of = re.search(r"\b(\d+) to (\d+)\b", text)
    default = re.search(r"default(?::| is) (\w+)", text)
    return f"range {range_of[0] if range_of else 'none'}, default {default[1] if default else 'none'}"


def section(page, name):
    return page.split(f"\n.SH {name}\n")[1].split("\n.SH ")[0] + "\n"


def options_of_page(page):
    """For each command its options, each with what its paragraph says."""
    found = {}
    for part in section(page, "OPTIONS").split(".SS ")[1:]:
        command, *paragraphs = part.split("\n.TP\n")
        options = [paragraph.split("\n") for paragraph in paragraphs]
        found[command.strip()] = {plain(tag): facts(" ".join(map(plain, text))) for tag, *text in options}
    return found


def options_of_help(text):
    found = {}
    for line in text.split("\nOptions:\n")[1].split("\n\n")[0].split("\n"):
        name, words = re.match(r" +(.*?)(?:  +(.*))?$", line).groups()
        found[re.sub(r"<(\w+)>", r"\1", name)] = facts(words or "")
    return found


def synopsis_of_page(page):
    """For each command the options and arguments of its line."""
    found = {"tracer": set()}
    for line in map(plain, section(page, "SYNOPSIS").split("\n")):
        if line.startswith("tracer "):
            command, _, rest = line.partition(" [")
            found[command] = set(re.findall(r"\[([^]]*)\]", "[" + rest))
    return found


def examples_of_page(page):
    """The words, the input and the output of each example."""
    pattern = r"\n\.EX\n\$ tracer ([^\n]*) <<END\n(.*?\n)END\n(.*?)\.EE\n"
    for words, given, printed in re.findall(pattern, section(page, "EXAMPLES"), re.S):
        yield plain(words).split(), plain(given), plain(printed)


def write_inputs(page, folder):
    folder.mkdir(parents=True)
    cases = {f"help_{c.split()[-1]}": (c.split()[1:] + ["--help"], "", None) for c in COMMANDS}
    cases |= {f"example_{i}": example for i, example in enumerate(examples_of_page(page), 1)}
    if len(cases) - len(COMMANDS) != section(page, "EXAMPLES").count(".EX\n"):
        sys.exit("man-page: FAILED: an example is not of the form `$ tracer WORDS <<END`")
    for name, (words, given, printed) in cases.items():
        (folder / name).write_text(given)
        (folder / f"{name}.args").write_text("".join(f"{word}\n" for word in words))
        if printed is not None:
            (folder / f"{name}.stdout").write_text(printed)


def differences(page, report):
    on_page, synopsis = options_of_page(page), synopsis_of_page(page)
    if sorted(on_page) != sorted(COMMANDS):
        yield f"OPTIONS has the parts {sorted(on_page)}, not {sorted(COMMANDS)}"
        return
    for command in COMMANDS:
        text = report.split(f"== help_{command.split()[-1]}\n")[1].split("\ncase=")[0]
        in_help = options_of_help(text)
        for option in in_help.keys() - on_page[command].keys():
            yield f"{command}: the help has the option {option}, and the page lacks it"
        for option in on_page[command].keys() - in_help.keys():
            yield f"{command}: the page has the option {option}, and the help lacks it"
        for option in in_help.keys() & on_page[command].keys():
            if in_help[option] != on_page[command][option]:
                yield f"{command} {option}: {in_help[option]} in the help, {on_page[command][option]} on the page"
        usage = re.search(r"^Usage: \w+(.*)", text, re.M)[1]
        wanted = (in_help.keys() - EVERYWHERE) | set(re.findall(r"\[(?!OPTIONS)(\w+)\]", usage))
        if synopsis.get(command) != wanted:
            yield f"{command}: SYNOPSIS has {sorted(synopsis.get(command, []))}, and the help {sorted(wanted)}"
    named = set(re.findall(r"^  (\w+)  ", report.split("\nCommands:\n")[1].split("\n\n")[0], re.M)) - {"help"}
    if named != {command.split()[1] for command in COMMANDS[1:]}:
        yield f"the help names the commands {sorted(named)}"


def main():
    what, page, place = sys.argv[1], pathlib.Path(sys.argv[2]).read_text(), pathlib.Path(sys.argv[3])
    if what == "inputs":
        write_inputs(page, place)
        return
    found = list(differences(page, place.read_text()))
    for difference in found:
        print(f"man-page: {difference}", file=sys.stderr)
    if found:
        sys.exit("man-page: FAILED: man/tracer.1 and the program's help differ")


main()
