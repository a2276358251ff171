"""Trials: a script and the replies of a kernel, whether made up line by line or given, and the verdict on them."""
import itertools
import re
from typing import NamedTuple

from generating.commands import Commands, seeded
from judging.filling import fill
from judging.replies import UNSUPPORTED, transcript_of
from judging.verdicts import judge
from machine_model import PAGE

from .kernels import Kernel, Lost


# The theme of a hunt whose trials take these themes in turn.
EACH, TURNS = "each", ("clones", "spaces", "pins", "all")
# Stands in a command for how many frames the kernel is to have.
FRAMES = "{frames}"
# A trial may begin by taking all frames but these, by a VMO that no other line speaks of, if there are not too many.
FULL_SHARE, FREE, MOST_FILLED, FILLING = 0.25, (0, 1, 1, 2, 2, 3, 5), 8192, "v12"


class Hunt(NamedTuple):
    """What is hunted for: the command that starts the kernel, in which `{frames}` stands for the frames, the seconds that a reply may take, the program that judges, the frames
    of the machine, the seed, the theme of the lines, how many there are in a trial, the words of commands, kinds and flags that are
    left out, and whether no line lets the kernel choose a place."""

    command: list
    seconds: float
    program: str | None
    frames: int
    seed: str
    theme: str
    lines: int
    without: tuple
    fixed: bool


class Trial(NamedTuple):
    """The turns of a trial, the verdict on them, and how the kernel was lost, if it was."""

    turns: list
    verdict: str
    lost: str

    def is_found(self):
        """Returns whether something is wrong."""
        return bool(self.lost) or not self.verdict.startswith("LEGAL ")

    def words(self):
        """Returns what is wrong in words."""
        return f"the kernel {self.lost}" if self.lost else self.verdict


def run(hunt, lines, note=None, is_over=None):
    """Returns the trial of lines on a new kernel. Each turn is noted. The trial ends early, and is None, if it is over."""
    turns, lost = [], ""
    with Kernel([it.replace(FRAMES, str(hunt.frames)) for it in hunt.command], hunt.seconds) as kernel:
        try:
            for line in lines:
                if is_over and is_over():
                    return None
                turns.append((line, []))
                kernel.answer(*turns[-1])
                if turns[-1][1] == [UNSUPPORTED]:
                    turns.pop()
                elif note:
                    note(*turns[-1])
            kernel.end(turns[-1][1] if turns else [])
        except Lost as how:
            lost = str(how)
    turns = fill(turns, hunt.frames)
    return Trial(turns, judge(hunt.program, transcript_of(turns), hunt.frames), lost)


def seed_of(hunt, number):
    """Returns the seed of the trial of a number. The trials of a seed that is a number have the seeds from it on, so that those of two
    hunts are those of one with as many trials."""
    return str(int(hunt.seed) + number) if re.fullmatch("[0-9]{1,18}", str(hunt.seed)) else f"{hunt.seed} {number}"


def theme_of(hunt, seed):
    """Returns the theme of the trial of a seed: the themes of lines take turns if the hunt has each."""
    return hunt.theme if hunt.theme != EACH else TURNS[int(re.search("[0-9]+$", seed)[0]) % len(TURNS)]


def filling(hunt, seed):
    """Returns the lines that leave few frames free at the beginning of some trials."""
    mixer = seeded(f"{seed} filling")
    is_full = mixer.random() < FULL_SHARE and hunt.frames <= MOST_FILLED and hunt.theme != "host" and {"vmo_create", "vmo_commit"}.isdisjoint(hunt.without)
    return filled(hunt.frames - mixer.choice(FREE)) if is_full else []


def filled(frames):
    """Returns the lines that take so many frames."""
    size = frames * PAGE
    return [f"vmo_create {FILLING} {size}", f"vmo_commit {FILLING} 0 {size}"] if frames > 0 else []


def unfilled(lines):
    """Yields lines without those of the VMO that fills the frames, if there is one, and all lines."""
    kept = [it for it in lines if FILLING not in it.split(" ")]
    yield from ([kept, lines] if 0 < len(kept) < len(lines) else [lines])


def try_number(hunt, number, is_over=None):
    """Returns the trial of a number, whose lines are made up from the replies."""
    seed = seed_of(hunt, number)
    commands = Commands(seeded(seed), theme_of(hunt, seed), hunt.without, hunt.fixed)
    lines = itertools.chain(filling(hunt, seed), (commands.line() for _ in range(hunt.lines)))

    def note(line, replies):
        if FILLING not in line.split(" "):
            commands.note(line, replies)

    trial = run(hunt, lines, note, is_over)
    has_none = trial and not trial.turns and not trial.is_found()
    return trial._replace(lost=f"answers {UNSUPPORTED} to every line") if has_none else trial


def replay(hunt, lines):
    """Returns the trial of the lines of a script."""
    return run(hunt, lines)


def cut_at(trial):
    """Returns the lines of a trial up to the first that is wrong."""
    kept, number = len(trial.turns), 1
    wrong = 0 if trial.verdict.startswith("LEGAL ") else int(trial.verdict.split()[1])
    for at, (_, replies) in enumerate(trial.turns, 1):
        number += 1 + len(replies)
        # If the next line of the script stands in the place of a reply, that of this one is missing.
        if wrong and number >= wrong:
            kept = at
            break
    return [line for line, _ in trial.turns[:kept]]
