"""What the page is told of a script: the reply to each line with its reason, the costs, and the pictures after one line."""
import argparse
import re

from looking.drawing import all_rows, marks_of, picture
from looking.page import record_of
from looking.texts import COLUMNS, Blocks, Ranks, payers_of
from looking.trees import renumber, tree_after, tree_shown
from looking.turns import MACHINES, play
from wording import Trouble

LEAST, WIDEST = 340, 920
MOST_LINES = 10_000


def lines_of(script):
    """Returns the lines of a script."""
    lines = script.replace("\r\n", "\n").split("\n")
    return lines[:-1] if lines[-1] == "" else lines


class View:
    """The pictures after a line, as the turns come to it."""

    def __init__(self, asked, line):
        self.asked, self.line = asked, line
        self.before, self.shown = {}, None

    def follow(self, turn, machine, lines):
        """Takes notice of a turn."""
        if turn.number == self.line - 1:
            self.before = marks_of(machine)
        if turn.number == self.line:
            self.shown = self.drawn(machine, lines)

    def drawn(self, machine, lines):
        """Returns the pictures after the line, and who pays."""
        return self.drawn_with(machine, tree_after(lines[: self.line], self.asked))

    def drawn_with(self, machine, last):
        """Returns the same with a tree, if there is one."""
        width = min(max(self.asked.width, LEAST), WIDEST)
        if last:
            renumber(machine, last)
        tree = tree_shown(last, machine, width) if last and "\n" in last else ""
        is_drawn = self.asked.word == "run" and last is not None
        return {"line": self.line, "picture": picture(all_rows(machine, self.before, width), [], f"The machine after line {self.line}"),
                "tree": tree if is_drawn else None, "pays": payers_of(machine), "used": machine.used}


class Turns:
    """The turns of a script as the page is told of them, and the view of one line."""

    def __init__(self, asked, lines):
        self.asked, self.lines, self.ranks = asked, lines, Ranks(asked.word)
        self.told, self.blocks, self.is_begun = [], Blocks(), False
        self.view = View(asked, min(asked.line, len(lines)))

    def follow(self, program):
        """Plays the script, with all of its lines or up to the one that is viewed, and returns what stops it, if anything does."""
        lines = self.lines if self.asked.all else self.lines[: self.view.line]
        try:
            for turn, machine in play(lines, self.asked.word, self.asked.frames, program):
                self.view.follow(turn, machine, lines)
                if self.asked.all:
                    self.told.append(record_of(turn, self.ranks) | {"faults": turn.faults, "column": column_of(turn)})
                    self.blocks.add(turn, machine)
                self.is_begun = True
        except Trouble as trouble:
            return str(trouble).replace("\nlook: ", "; ")
        return ""


def answer(asked):
    """Returns what the page is told of a script. With `all` it has each line, and else the view of one line alone. If the program fails,
    the model answers alone, which is told."""
    lines = lines_of(asked.script)
    turns = Turns(asked, lines[:MOST_LINES])
    trouble = turns.follow(asked.program)
    if trouble and not turns.is_begun:
        trouble += "; these replies are the model's" + turns.follow(None)
    if len(lines) > MOST_LINES:
        trouble = f"{trouble}; " * bool(trouble) + f"the page shows {MOST_LINES:,} lines, and the script has {len(lines):,}"
    turns.blocks.end_row()
    costs = [[str(it[name]) for name in COLUMNS] for it in turns.blocks.rows]
    return {"error": trouble, "view": turns.view.shown, "lines": turns.told, "columns": COLUMNS, "cost": costs}


def column_of(turn):
    """Returns where the word begins and how long it is that makes a line no command, or None."""
    found = re.match(r"column (\d+): `([^`]*)`", turn.refusal.why) if turn.refusal and turn.refusal.rank == 0 else None
    return [int(found[1]) - 1, len(found[2])] if found else None


def read_request(request, program, tree):
    """Returns what a request asks for. Raises ValueError if that is not a request of the page."""
    kinds = {"script": str, "word": str, "frames": int, "line": int, "width": int, "all": bool}
    if not isinstance(request, dict) or any(type(request.get(name)) is not kind for name, kind in kinds.items()):
        raise ValueError("not a request of the page")
    asked = argparse.Namespace(**{name: request[name] for name in kinds}, program=program, tree=tree)
    if asked.word not in MACHINES or not 1 <= asked.frames <= 65_536 or asked.line < 0:
        raise ValueError("not a request of the page")
    return asked
