"""A page with a slider over the lines of a script: the picture behind each, its reply, the frames over time, and the clone tree if
`vmotree` is built. One file, which fetches nothing."""
import json
import os
import pathlib
from html import escape

from wording import Trouble, called

from .cells import styles
from .drawing import FONT, all_rows, marks_of
from .texts import Ranks, change_words
from .trees import has_tree, renumber, tree_after, tree_shown
from .turns import cut, visible

TEMPLATE = pathlib.Path(__file__).with_name("page.html")
MOST_LINES = 1000
MOST_LINE, MOST_REPLY = 200, 200
# The commands after which the picture is the one before.
ASKING = ("vmo_size", "vmo_info", "stat", "maps")
# Those after which the clone tree is the one before. A run of vmotree for each line is most of what a page costs.
STILL = (*ASKING, "vmo_read", "root_create", "vmar_allocate", "vmar_protect", "mem_read")


class Rows:
    """The parts of all pictures, each once, the rows as lists of parts, and the pictures as lists of rows."""

    def __init__(self):
        self.parts = {}
        self.rows = {}
        self.kept = {}
        self.states = {}
        self.last = None
        self.is_plain = False
        self.marks = {}

    def state_of(self, turn, machine):
        """Returns which picture is behind a turn."""
        word = (turn.line.split() or [""])[0]
        is_same = turn.refusal or not turn.replies or word in ASKING
        if self.last is None or not is_same or not self.is_plain:
            rows = all_rows(machine, None if is_same and self.last is not None else self.marks, kept=self.kept)
            shown = tuple(self.rows.setdefault((it.height, *self.parts_of(it)), len(self.rows)) for it in rows)
            width = max(it.right for it in rows)
            self.last = self.states.setdefault((width, *shown), len(self.states))
            self.is_plain = bool(is_same)
            self.marks = self.marks if is_same else marks_of(machine)
        return self.last

    def parts_of(self, row):
        """Returns the numbers of the parts of a row."""
        return [self.parts.setdefault(it, len(self.parts)) for it in row.parts]


def record_of(turn, ranks):
    """Returns what the page has of a turn."""
    return {"number": turn.number, "text": cut(visible(turn.line), MOST_LINE), "reply": [cut(it, MOST_REPLY) for it in turn.replies],
            "refused": turn.refusal is not None, "why": ranks.words(turn) if turn.refusal else "", "change": change_words(turn),
            "used": turn.used}


class Trees:
    """The clone trees after the lines, each drawn once. There are none without vmotree."""

    def __init__(self, asked):
        self.asked = asked
        self.lines, self.drawn = [], {}
        self.tree, self.last = None, None

    def tree_of(self, turn, machine):
        """Returns which tree there is after a turn, the next one, and gives the frames of the machine their numbers there."""
        self.lines.append(turn.line)
        # A command that is refused or only asks leaves the tree as it was.
        is_still = self.tree and (turn.refusal or not has_tree(turn) or turn.line.split()[0] in STILL)
        if has_tree(turn) and not is_still:
            self.tree = tree_after(self.lines, self.asked)
        if self.tree and has_tree(turn):
            renumber(machine, self.tree)
            self.last = self.drawn.setdefault(tree_shown(self.tree, machine), len(self.drawn)) if "\n" in self.tree else None
        return self.last


def page(turns, asked):
    """Yields the page of a script."""
    if len(asked.lines) > MOST_LINES:
        raise Trouble(2, f"a page has at most {MOST_LINES:,} lines, and the script has {len(asked.lines):,}; {called('play')} --page shows "
                         f"up to 100,000, and --at {MOST_LINES} here the first")
    rows, trees, ranks, lines, machine = Rows(), Trees(asked), Ranks(asked.word), [], None
    for turn, machine in turns:
        tree = trees.tree_of(turn, machine)
        lines.append(record_of(turn, ranks) | {"state": rows.state_of(turn, machine), "tree": tree})
    data = {"lines": lines, "parts": [*rows.parts], "rows": [*rows.rows], "states": [*rows.states], "frames": machine.frames, "font": FONT,
            "styles": styles("auto"), "trees": [*trees.drawn]}
    title = f"{os.path.basename(asked.file) if asked.file else 'A script'}, line by line"
    # No text of the script may end the element that the data stands in.
    text = json.dumps(data, separators=(",", ":")).replace("<", "\\u003c")
    parts = TEMPLATE.read_text(encoding="utf-8").removesuffix("\n")
    parts = parts.replace("@TITLE@", escape(title)).replace("@COUNT@", str(len(lines)))
    yield parts.replace("@DATA@", text)
