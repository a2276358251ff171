"""Simpler lines for a line of a script, and scripts with a name less. Each line differs in one argument or flag, or is a simpler command that gives the same name."""
import re

from machine_model import FORMS, PAGE
from machine_model.grammar import RIGHTS, TYPES, NoCommand, read_line, spell_line

NAME = re.compile("[vrp](0|[1-9][0-9]*)")
# What is tried in the place of an argument, by its type, the simplest first.
SIMPLER = {
    "NUM": lambda value: [it for it in dict.fromkeys((0, PAGE if value > PAGE else 1, 2 * PAGE, value // PAGE * PAGE)) if it < value],
    "BYTE": lambda value: [it for it in (0, 1) if it < value],
    "DATA": lambda value: [value[:1]] if len(value) > 1 else [],
    "KIND": lambda value: {"slice": ["snapshot"], "reference": ["snapshot", "slice"]}.get(value, []),
    "PERM": lambda value: [it for it in RIGHTS.values() if it < value],
}


def simpler_commands(command, values, flags):
    """Yields simpler commands: a VMO in the place of a child, and a write of one byte in that of a fill."""
    if command == "vmo_create_child":
        yield "vmo_create", [values[0], values[4]], flags & {"resizable"}
    if command == "vmo_fill":
        yield "vmo_write", [*values[:2], b"\1"], flags


def simpler_lines(line):
    """Yields lines that are simpler than a line, the simplest first. There is none for a line that is no command."""
    try:
        found = read_line(line)
    except NoCommand:
        found = None
    if not found:
        return
    command, values, flags = found
    yield from (spell_line(*it) for it in simpler_commands(command, values, flags))
    yield from (spell_line(command, values, flags - {it}) for it in sorted(flags))
    for at, argument in enumerate(FORMS[command][0].split()):
        of = argument.split(":")[-1]
        simpler = SIMPLER.get(of if of in TYPES else "NUM", lambda _: [])
        yield from (spell_line(command, [*values[:at], it, *values[at + 1 :]], flags) for it in simpler(values[at]))


def shorter_scripts(lines):
    """Yields scripts with a line less: one that makes a child, whose parent stands in its place from there on, the last first."""
    for at in reversed(range(len(lines))):
        command, *names = lines[at].split(" ")[:3]
        if command in ("vmo_create_child", "vmar_allocate") and len(names) == 2:
            child, parent = names
            yield lines[:at] + [" ".join(parent if it == child else it for it in line.split(" ")) for line in lines[at + 1 :]]


def renamed(lines):
    """Returns lines whose VMOs, regions and pins have the numbers from 1 on, in the order in which they come."""
    names = {}

    def name_for(word):
        return names.setdefault(word, f"{word[0]}{1 + sum(it[0] == word[0] for it in names)}") if NAME.fullmatch(word) else word

    return [" ".join(map(name_for, line.split(" "))) for line in lines]
