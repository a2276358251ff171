"""The turns of a script: each line with its reply, by the program and by the model side by side."""
import itertools
import pathlib
import re
import sys
from typing import NamedTuple

from machine_model import BatchMachine, Machine, Refusal, SourceMachine
from machine_model.grammar import seen
from programs import run
from wording import UNREADABLE, Trouble

TOP = pathlib.Path(__file__).resolve().parent.parent.parent
MOST_ANSWER = 200
MACHINES = {"run": Machine, "batch": BatchMachine, "sources": SourceMachine}


class Turn(NamedTuple):
    """A line of a script, the lines of its reply, how many frames were taken, given back and are used then, how many page faults
    were taken, and the refusal, if it was refused."""

    number: int
    line: str
    replies: list
    taken: int
    given: int
    used: int
    faults: int
    refusal: Refusal | None


def read_script(path):
    """Returns the lines of a script, of a file or of the standard input if there is none."""
    shown = repr(path) if path else "the standard input"
    if not path and sys.stdin is None:
        raise Trouble(UNREADABLE, f"cannot read {shown}: it is closed")
    try:
        text = pathlib.Path(path).read_bytes() if path else sys.stdin.buffer.read()
    except FileNotFoundError:
        raise Trouble(UNREADABLE, f"cannot open {shown}: there is no such file") from None
    except IsADirectoryError:
        raise Trouble(UNREADABLE, f"cannot open {shown}: it is a folder") from None
    except PermissionError:
        raise Trouble(UNREADABLE, f"cannot open {shown}: it may not be read") from None
    except (OSError, ValueError) as error:
        raise Trouble(UNREADABLE, f"cannot read {shown}: {getattr(error, 'strerror', None) or error}") from None
    try:
        lines = text.decode().split("\n")
    except UnicodeDecodeError as error:
        number = text.count(b"\n", 0, error.start) + 1
        raise Trouble(UNREADABLE, f"cannot read {shown}: line {number} has the byte {text[error.start]:#04x}, which is no text") from None
    return lines[:-1] if lines[-1] == "" else lines


def replies_of(program, word, frames, lines):
    """Returns the lines that a program answers to a script."""
    ran = run(program, [word, "--frames", str(frames)], "".join(f"{it}\n" for it in lines).encode())
    if ran.returncode:
        raise Trouble(1, f"the program {program!r} ends with status {ran.returncode}")
    replies = ran.stdout.decode(errors="replace").split("\n")
    return replies[:-1] if replies[-1] == "" else replies


def answered(replies):
    """Returns reply lines as they are shown in a sentence."""
    return cut(" / ".join(replies), MOST_ANSWER) or "nothing"


class Said:
    """The lines that a program answers, as they come."""

    def __init__(self, lines):
        self.lines, self.next = iter(lines), None

    def first(self):
        """Returns the next line, or an empty text if there is none."""
        if self.next is None:
            self.next = next(self.lines, None)
        return self.next or ""

    def take(self, count):
        """Takes so many lines, or those that there are."""
        self.first()
        if not count or self.next is None:
            return []
        taken, self.next = [self.next, *itertools.islice(self.lines, count - 1)], None
        return taken


def follow(machine, lines, said, first=1):
    """Yields each turn with the machine behind it. Replies are those that were said, or the machine's own if there are none. The first
    turn at which both differ ends it."""
    for number, line in enumerate(lines, first):
        taken, given = machine.taken, machine.given
        wanted = machine.answer(line, said.first() if said else "")
        if said is not None:
            got = said.take(len(wanted))
            if got != wanted:
                both = f"the program answers {answered(got)}\nlook: the model answers   {answered(wanted)}"
                raise Trouble(1, f"line {number}, {cut(visible(line), MOST_ANSWER)!r}: the answers differ\nlook: {both}")
        faults = re.match(r"OK faults=(\d+)", wanted[0]) if wanted else None
        yield Turn(number, line, wanted, machine.taken - taken, machine.given - given, machine.used,
                   int(faults[1]) if faults else 0, machine.refusal), machine


def play(lines, word, frames, program):
    """Yields each turn with the machine behind it. Replies are the program's, or the model's without one. The first turn at which
    both differ ends it."""
    said = Said(replies_of(program, word, frames, lines)) if program else None
    yield from follow(MACHINES[word](frames), lines, said)
    left = said.take(sys.maxsize) if said else []
    if left:
        both = f"the program answers {answered(left)}\nlook: the model answers   nothing"
        raise Trouble(1, f"behind the last line: the answers differ\nlook: {both}")


def visible(line):
    """Returns a line with blanks at its ends left out, and what can't be seen spelled out."""
    line = line.strip(" \t\r")
    return line if line.isprintable() else seen(line.replace("\t", " "))


def cut(text, most):
    """Returns a text, cut if it is longer."""
    return text if len(text) <= most else f"{text[: most - 2]}.."
