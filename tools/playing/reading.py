"""A long script as a page asks for it. It is played once from the start, piece by piece, and copies of the machine are kept on the way: what
there is after a line is found by playing the few lines since the copy before it."""
import argparse
import bisect
import io
import pickle
import subprocess
import tempfile
import time

from looking.drawing import marks_of
from looking.page import record_of
from looking.texts import Ranks
from looking.trees import tree_after, tree_program
from looking.turns import MACHINES, Said, follow
from machine_model import PAGE, Refusal
from wording import Trouble

from .answers import View

MOST_LINES, MOST_BYTES = 100_000, 1 << 25
# How many lines a request may ask for, and in how many columns the frames over the lines are shown.
MOST_ASKED, COLUMNS = 500, 1000
# How long it may take to draw a tree that nobody asked for, and any tree.
SOON, LATE = 0.3, 20
# How long one request plays on, how much playing there may be between two copies, and how many bytes all copies have.
PIECE, BETWEEN, MOST_KEPT = 0.3, 0.1, 1 << 27
MOST_VIEWS = 64


class Pickler(pickle.Pickler):
    """Writes a machine without the bytes of its frames, which no picture shows and on which nothing depends, and without its last refusal."""

    def persistent_id(self, it):
        return "page" if type(it) is bytearray else "none" if isinstance(it, Refusal) else None


class Unpickler(pickle.Unpickler):
    """Reads such a machine again. All frames have one page of bytes."""

    def __init__(self, data):
        super().__init__(io.BytesIO(data))
        self.page = bytearray(PAGE)

    def persistent_load(self, word):
        return self.page if word == "page" else None


def copy_of(machine):
    """Returns a machine as bytes, or None if its parts refer to each other too deeply."""
    out = io.BytesIO()
    try:
        Pickler(out, pickle.HIGHEST_PROTOCOL).dump(machine)
    except RecursionError:
        return None
    return out.getvalue()


def said_by(program, word, frames, lines):
    """Yields the lines that a program answers to a script, as they come."""
    with tempfile.TemporaryFile() as script:
        script.write("".join(f"{it}\n" for it in lines).encode())
        script.seek(0)
        try:
            running = subprocess.Popen([program, word, "--frames", str(frames)], stdin=script, stdout=subprocess.PIPE)
        except OSError as error:
            raise Trouble(1, f"cannot run {program!r}: {error.strerror}") from None
        with running:
            for line in running.stdout:
                yield line.removesuffix(b"\n").decode(errors="replace")
        if running.returncode:
            raise Trouble(1, f"the program {program!r} ends with status {running.returncode}")


class Script:
    """A script that is played as far as it is asked for."""

    def __init__(self, program, tree):
        self.program, self.tree = program, tree

    def begin(self, given):
        """Begins with a script."""
        self.lines, self.word, self.frames = given["lines"], given["word"], given["frames"]
        self.ranks = Ranks(self.word)
        self.copies, self.sizes, self.between, self.since = [(0, copy_of(self.machine()))], 0, BETWEEN, 0.0
        self.turns, self.views, self.error, self.is_done = [], {}, given["error"], False
        # How long vmotree takes for a line, as far as that is known.
        self.pace = 1e-5
        self.most, self.faults, self.refused = 0, 0, []
        self.used, self.marks = [0] * min(COLUMNS, len(self.lines)), set()
        self.said = Said(said_by(self.program, self.word, self.frames, self.lines)) if self.program else None
        self.coming = follow(self.machine(), self.lines, self.said)
        return {}

    def machine(self):
        """Returns a new machine."""
        return MACHINES[self.word](self.frames)

    def keep(self, machine):
        """Keeps a copy of the machine as it is now. If they get too many, every second one is dropped, and less are made from then on."""
        self.since = 0.0
        copy = copy_of(machine)
        if copy is None:
            return
        self.copies.append((len(self.turns), copy))
        self.sizes += len(copy)
        if self.sizes > MOST_KEPT:
            self.copies = self.copies[:1] + self.copies[2::2]
            self.sizes = sum(len(it) for _, it in self.copies)
            self.between *= 2

    def note(self, turn):
        """Takes a turn to those that were played."""
        self.turns.append(turn)
        column = (turn.number - 1) * len(self.used) // len(self.lines)
        self.used[column] = max(self.used[column], turn.used)
        self.most, self.faults = max(self.most, turn.used), self.faults + turn.faults
        if turn.refusal:
            self.refused.append(turn.number)
            self.marks.add(column)

    def stop(self, trouble):
        """Ends the script at what stops it. If that is before its first line, the model answers alone."""
        self.is_done = bool(self.turns) or not self.said
        self.error = "; ".join(filter(None, (self.error, str(trouble).replace("\nlook: ", "; "))))
        if not self.is_done:
            self.error += "; these replies are the model's"
            self.said, self.coming = None, follow(self.machine(), self.lines, None)

    def turn(self):
        """Plays a line, and returns its turn with the machine behind it, or None at the end."""
        try:
            found = next(self.coming, None)
            if found is None and self.said and self.said.take(1):
                raise Trouble(1, "the program answers more behind the last line")
            self.is_done = found is None
            return found
        except Trouble as trouble:
            self.stop(trouble)
            return None

    def play_on(self, seconds):
        """Plays on for some time."""
        began = last = now = time.perf_counter()
        while not self.is_done and now - began <= seconds:
            found = self.turn()
            now = time.perf_counter()
            self.since += now - last
            last = now
            if found:
                self.note(found[0])
                if self.since > self.between:
                    self.keep(found[1])
                    last = time.perf_counter()

    def more(self, _):
        """Plays on, and returns what there is of the whole."""
        self.play_on(PIECE)
        return {"done": len(self.turns), "isDone": self.is_done, "count": len(self.lines), "most": self.most, "faults": self.faults, "refused": len(self.refused),
                "used": self.used, "marks": sorted(self.marks), "error": self.error}

    def some(self, asked):
        """Returns the lines from a first one to a last one that were played."""
        first = max(asked["first"], 1)
        turns = self.turns[first - 1 : min(asked["last"], first + MOST_ASKED - 1)]
        return {"lines": [record_of(it, self.ranks) for it in turns]}

    def refusal(self, asked):
        """Returns the next line behind or before one that was refused, or 0."""
        line = asked["line"]
        if asked["back"]:
            at = bisect.bisect_left(self.refused, line) - 1
            return {"line": self.refused[at] if at >= 0 else 0}
        at = bisect.bisect_right(self.refused, line)
        return {"line": self.refused[at] if at < len(self.refused) else 0}

    def tree_at(self, line, options):
        """Returns the tree after a line, or why there is none, and notes how long that takes."""
        began = time.perf_counter()
        try:
            return tree_after(self.lines[:line], options, LATE), None
        except Trouble as trouble:
            return None, str(trouble)
        finally:
            self.pace = (time.perf_counter() - began) / line

    def view(self, asked):
        """Returns the pictures after a line that was played. If the tree takes long, it is drawn only if it is asked for, and else False."""
        line, width = asked["line"], asked["width"]
        if not 1 <= line <= len(self.turns):
            raise ValueError(f"line {line} was not played")
        has_tree = asked["tree"] or self.pace * line < SOON
        shown = self.views.get((line, width, has_tree))
        if not shown:
            view = View(argparse.Namespace(word=self.word, frames=self.frames, tree=self.tree, width=width), line)
            number, copy = self.copies[bisect.bisect_left(self.copies, line, key=lambda it: it[0]) - 1]
            machine = Unpickler(copy).load()
            for turn in self.turns[number : line - 1]:
                machine.answer(turn.line, "".join(turn.replies[:1]))
            view.before, turn = marks_of(machine), self.turns[line - 1]
            machine.answer(turn.line, "".join(turn.replies[:1]))
            tree, why = self.tree_at(line, view.asked) if has_tree else (None, False)
            shown = view.drawn_with(machine, tree)
            if why is not None and tree_program(view.asked):
                shown["tree"] = why
            if len(self.views) >= MOST_VIEWS:
                del self.views[next(iter(self.views))]
            self.views[line, width, has_tree] = shown
        return {"view": shown}

    def answer(self, request):
        """Answers a request of the page, or the first one of all, which has the script."""
        if "lines" in request:
            return self.begin(request)
        kinds = {"more": (self.more, {}), "some": (self.some, {"first": int, "last": int}), "view": (self.view, {"line": int, "width": int, "tree": bool}),
                 "refusal": (self.refusal, {"line": int, "back": bool})}
        does, wanted = kinds.get(request.get("kind"), (None, {}))
        if not does or any(type(request.get(name)) is not kind for name, kind in wanted.items()):
            return {"error": "not a request of the page"}
        try:
            return does(request)
        except (Trouble, ValueError) as error:
            return {"error": str(error)}
