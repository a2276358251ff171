"""How a page came to its frame, and what closing VMOs in each order does."""
import itertools
import re

from machine_model import PAGE
from wording import WRONG_WORD, Trouble

from .texts import payers_words
from .turns import MACHINES, cut, play, visible

MOST_NAMES, MOST_LINE = 4, 70


def replayed(turns, asked):
    """Yields turns with a model of their own, which has the choices of the replies."""
    machine = MACHINES[asked.word](asked.frames)
    for turn in turns:
        machine.answer(turn.line, turn.replies[0] if turn.replies else "")
        yield turn, machine


def page_asked(machine, name, page):
    """Returns the VMO and the page of it that a name and a page of the name stand for."""
    if name not in machine.names:
        raise Trouble(WRONG_WORD, f"{name} is not open after the last line")
    it = machine.names[name]
    if page * PAGE >= it.size():
        raise Trouble(WRONG_WORD, f"{name} has {it.size() // PAGE:,} pages, and {page} is asked for")
    return it.vmo.koid, it.first + page


class Page:
    """A page of a VMO as turns come: its frame, and who shows that."""

    def __init__(self, koid, page):
        self.koid, self.page = koid, page
        self.frame, self.koids = None, frozenset()
        self.lines = []

    def follow(self, turn, machine):
        """Takes notice of a turn, and returns what it did to the page, or an empty text."""
        self.lines += [turn.number] * (machine.pool.count - len(self.lines))
        vmo = next((it for it in machine.vmos if it.koid == self.koid), None)
        frame = vmo.pages.get(self.page) if vmo else None
        koids = frozenset(frame.koids) if frame else frozenset()
        words = "" if (frame, koids) == (self.frame, self.koids) else self.words(turn, machine, frame, koids)
        self.frame, self.koids = frame, koids
        return words

    def words(self, turn, machine, frame, koids):
        """Says how the page changed."""
        if frame is None:
            return f"the page is zero, and f{self.frame.slot} is {'given back' if not self.frame.koids else 'left to others'}"
        if frame is not self.frame:
            taken = self.lines[frame.order]
            before = f" in place of f{self.frame.slot}" if self.frame else ""
            if taken == turn.number:
                return f"the page takes f{frame.slot}{before}"
            return f"the page shows f{frame.slot}, taken at line {taken}, with {self.others(machine, koids)}"
        parts = [f"{machine.label(it)} shows it too" for it in sorted(koids - self.koids)]
        parts += [f"{machine.label(it)} shows it no more" for it in sorted(self.koids - koids)]
        payer = min(koids)
        return ", ".join(parts) + (f", and {machine.label(payer)} pays now" if payer != min(self.koids) else "")

    def others(self, machine, koids):
        """Returns what the others are called that show the frame."""
        return ", ".join(map(machine.label, sorted(koids - {self.koid})))


def why(turns, asked):
    """Yields which line gave a page its frame, and who shares it since."""
    if asked.word == "sources":
        raise Trouble(WRONG_WORD, "why is for run and batch alone")
    done = []
    for turn, machine in turns:
        done.append(turn)
    name, number = asked.of
    page = Page(*page_asked(machine, name, int(number)))
    for turn, machine in replayed(done, asked):
        words = page.follow(turn, machine)
        if words:
            yield f"{turn.number:5}  {cut(visible(turn.line), MOST_LINE)}: {words}"
    if page.frame is None:
        yield f"page {number} of {name} is zero, and has no frame"
    else:
        others = page.others(machine, page.koids)
        shared = f"is shared with {others}" if others else "is shown by no other VMO"
        yield f"page {number} of {name} is in f{page.frame.slot}, which {shared}; {machine.label(min(page.koids))} pays"


def orders(turns, asked):
    """Yields for each order in which the VMOs are closed how many frames are used after each close, and who pays for them."""
    for _, machine in turns:
        pass
    absent = next((it for it in asked.of if it not in machine.names), None)
    if absent:
        raise Trouble(WRONG_WORD, f"{absent} is not open after the last line")
    yield f"{'order':{4 * len(asked.of)}}  frames used at first and after each close, and who pays then"
    for names in itertools.permutations(asked.of):
        lines = [*asked.lines, *(f"vmo_close {it}" for it in names)]
        said = []
        for turn, machine in play(lines, asked.word, asked.frames, asked.program):
            if turn.number >= len(asked.lines):
                said.append(f"{machine.used} ({payers_words(machine)})" if machine.used else "0")
        yield f"{' '.join(names):{4 * len(asked.of)}}  {' -> '.join(said)}"


def read_of(verb, words):
    """Returns what a verb is asked of, NAME PAGE or NAME.., and the file that is left, or None."""
    names = list(itertools.takewhile(lambda it: re.fullmatch("v[0-9]+", it), words))
    if verb == "why":
        if len(names) != 1 or len(words) < 2 or not re.fullmatch("[0-9]{1,11}", words[1]):
            raise ValueError("why takes a VMO and a page of it, as in: why v2 0 FILE")
        names, rest = words[:2], words[2:]
    else:
        rest = words[len(names) :]
        if not 2 <= len(names) <= MOST_NAMES or len(set(names)) < len(names):
            raise ValueError(f"orders takes from 2 to {MOST_NAMES} VMOs, as in: orders v1 v2 v3 FILE")
    if len(rest) > 1:
        raise ValueError(f"{rest[1]!r} is one word too many")
    return names, rest[0] if rest else None
