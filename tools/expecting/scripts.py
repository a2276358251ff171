"""A script with the replies that are expected: behind a line stands `#= ` and a line of its reply."""
import argparse
import re
from typing import NamedTuple

from directives import settle
from judging.filling import filled_line
from judging.reasons import why
from judging.replies import bytes_of, command_of, lines_of
from looking.turns import MACHINES
from machine_model import Machine
from wording import Trouble, read_file

MARK = "#="
# Stands for any refusal.
REFUSED = "!OK"


class Wrong(Exception):
    """Says what is wrong with a script, or with how it is played."""


class Script(NamedTuple):
    """A script: its name, its lines, the word that it is run under, the frames, and the reply lines that are expected to lines, by the
    index of each."""

    name: str
    lines: list
    word: str
    frames: int
    wanted: dict


class Difference(NamedTuple):
    """A line whose reply is not as expected: its number, the line, the reply lines that are wanted and that came, and of the first one why, as far
    as the model can tell. The number 0 stands for what came behind the last reply."""

    number: int
    line: str
    wanted: list
    got: list
    why: str


def wanted_in(lines):
    """Returns the reply lines that are expected to lines, by the index of each."""
    wanted, of = {}, None
    for at, line in enumerate(lines):
        if line.startswith(MARK):
            text = line[len(MARK) :].strip(" \r")
            if of is None:
                raise Wrong(f"line {at + 1}: {MARK} stands right behind a line with a reply, or behind another {MARK}")
            lines_wanted = [*wanted.get(of, []), text]
            if not text or REFUSED in lines_wanted and len(lines_wanted) > 1:
                raise Wrong(f"line {at + 1}: {MARK} needs a line of a reply, and {REFUSED} stands alone")
            wanted[of] = lines_wanted
        else:
            of = at if command_of(line) else None
    return wanted


def script_in(name, lines):
    """Returns the script of lines. Raises Wrong if it is none that is answered line by line."""
    asked = argparse.Namespace(word=None, frames=None)
    try:
        settle(asked, lines, [*MACHINES])
    except Trouble as trouble:
        raise Wrong(str(trouble)) from None
    return Script(name, lines, asked.word, asked.frames, wanted_in(lines))


def read_script(path):
    """Returns the script in a file."""
    try:
        lines = lines_of(read_file(path))
    except Trouble as trouble:
        raise Wrong(str(trouble)) from None
    return script_in(str(path), lines)


def is_like(wanted, got):
    """Returns whether the lines of a reply are as expected. In them `?` stands for any value, and `!OK` alone for any refusal."""
    if wanted == [REFUSED]:
        return bool(got) and not re.match("OK( |$)", got[0])
    return len(wanted) == len(got) and all(filled_line(its, it) == it for its, it in zip(wanted, got))


def followed(script, turns):
    """Returns a model that did turns, with the choices that their replies tell."""
    machine = MACHINES[script.word](script.frames)
    for line, replies in turns:
        machine.answer(line, replies[0] if replies else "")
    return machine


def why_not(script, turns, at, wanted):
    """Says why the reply of a turn is not as expected, as far as the model can tell."""
    line, got = turns[at]
    before, after = (followed(script, turns[:at]) for _ in range(2))
    answer = after.answer(line, got[0] if got else "")
    told = got[0] if got and got != answer else filled_line(wanted[0], answer[0]) if answer else ""
    if isinstance(after, Machine):
        return why(before, after, line, told)
    return f"{after.refusal.name}: {after.refusal.why}" if after.refusal else ""


def differences(script, turns, left=()):
    """Yields what differs between the replies of turns and those expected, and the lines that are left over."""
    wrong = [(at, it) for at, it in script.wanted.items() if not is_like(it, turns[at][1])]
    for number, (at, wanted) in enumerate(wrong):
        line, got = turns[at]
        yield Difference(at + 1, line, wanted, got, why_not(script, turns, at, wanted) if number == 0 else "")
    if left:
        yield Difference(0, "", [], list(left), "")


def updated(script, turns):
    """Returns the lines of a script in which the replies that came stand in the place of those expected that differ. A script without
    any has all of them then."""
    lines = []
    for at, (line, got) in enumerate(turns):
        if line.startswith(MARK):
            continue
        wanted = script.wanted.get(at, [])
        lines += [line, *(f"{MARK} {it}" for it in (wanted if is_like(wanted, got) else got if wanted or not script.wanted else []))]
    return lines


def written(script, turns):
    """Returns the bytes of the same."""
    return bytes_of(updated(script, turns))
