"""Shrinks a script as long as something is wrong with the replies to it."""
import itertools
import time

from machine_model.answering import are, counted

from .simplifying import renamed, shorter_scripts, simpler_lines
from .trials import FRAMES, cut_at, filled, replay, unfilled

# How long simpler lines are tried. A try with a kernel that hangs takes as long as a reply may.
MOST_SECONDS = 60
# Of how many lines each two are tried, and on how many frames a script is tried.
MOST_PAIRED = 12
FEWER = (1, 2, 3, 4, 6, 8, 16, 64, 256)


class Shrinking:
    """A trial that is shrunk. Each try starts a new kernel, and progress is shown after it."""

    def __init__(self, hunt, trial, progress):
        self.hunt = hunt
        self.best = trial
        self.progress = progress
        self.tries = 0
        self.end = 0

    def lines(self):
        """Returns the lines that are left."""
        return [line for line, _ in self.best.turns]

    def holds(self, lines):
        """Tries fewer lines, and returns whether something is wrong with them too: a reply, or that the kernel hangs or dies, as before.
        Then they are what is left, up to the first that is wrong."""
        self.tries += 1
        trial = replay(self.hunt, lines)
        left = len(self.best.turns)
        self.progress(f"shrinking, {counted(left, 'line')} {are(left)} left after {counted(self.tries, 'try')}")
        if not trial.is_found() or bool(trial.lost) != bool(self.best.lost):
            return False
        self.best = trial
        if len(cut_at(trial)) < len(lines):
            self.holds(cut_at(trial))
        return True

    def leave_out(self, size):
        """Leaves out each piece of so many lines that can be left out, from the last to the first. Returns whether there was one."""
        before = len(self.best.turns)
        at = before
        while at > 0:
            lines = self.lines()
            at = min(at, len(lines))
            first = max(at - size, 0)
            self.holds(lines[:first] + lines[at:])
            at = first
        return len(self.best.turns) < before

    def leave_out_two(self):
        """Leaves out two lines that can't be left out one by one. Returns whether there were any."""
        lines = self.lines()
        pairs = itertools.combinations(range(len(lines)), 2) if len(lines) <= MOST_PAIRED else ()
        tried = itertools.takewhile(lambda _: time.monotonic() < self.end, pairs)
        return any(self.holds([it for at, it in enumerate(lines) if at not in pair]) for pair in tried)

    def leave_out_child(self):
        """Leaves out a line that makes a child, and has its parent in its place. Returns whether there was one."""
        return any(map(self.holds, shorter_scripts(self.lines())))

    def fill_more(self):
        """Takes more of the frames at the beginning, or none. Returns whether it could."""
        lines, free = self.lines(), self.hunt.frames
        taken = [it for it in range(len(FEWER)) if lines[:2] == filled(free - it)]
        if not taken:
            return False
        return any(self.holds([*filled(free - it), *lines[2:]]) for it in [free, *range(taken[0])])

    def fewer_frames(self):
        """Takes away frames from a kernel that is told how many it has, and what filled them. Returns whether there were fewer."""
        if not any(FRAMES in it for it in self.hunt.command):
            return False
        hunt, lines = self.hunt, self.lines()
        for frames in (it for it in FEWER if it < hunt.frames):
            self.hunt = hunt._replace(frames=frames)
            if any(map(self.holds, unfilled(lines))):
                return True
        self.hunt = hunt
        return False

    def simplify(self, at):
        """Puts a simpler line in the place of one, if something is wrong with it too. Returns whether there was such a line."""
        lines = self.lines()
        tried = itertools.takewhile(lambda _: time.monotonic() < self.end, simpler_lines(lines[at]))
        return any(self.holds([*lines[:at], it, *lines[at + 1 :]]) for it in tried)

    def simplify_all(self):
        """Simplifies each line as long as it can be, from the last to the first. Returns whether one was."""
        before = self.lines()
        for at in reversed(range(len(before))):
            while at < len(self.best.turns) and self.simplify(at):
                pass
        return self.lines() != before

    def shrink(self):
        """Leaves out halves, then shorter pieces, and then single lines and simplifies what is left, as long as either can be done.
        At last names are numbered from 1."""
        self.holds(cut_at(self.best))
        self.end = time.monotonic() + MOST_SECONDS
        self.fill_more()
        size = len(self.best.turns)
        while size > 1:
            size = (size + 1) // 2
            self.leave_out(size)
        self.end = time.monotonic() + MOST_SECONDS
        while self.leave_out(1) or self.leave_out_child() or self.fewer_frames() or self.fill_more() or self.simplify_all() or self.leave_out_two():
            pass
        if renamed(self.lines()) != self.lines():
            self.holds(renamed(self.lines()))
        return self.best
