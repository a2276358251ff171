"""What happened, as texts: a script with its replies and reasons, a table of costs, and a line of JSON for each turn."""
import collections
import csv
import io
import json
import re

from machine_model import SourceMachine
from machine_model.answering import plural
from machine_model.tables import key_of, refusals_of

from .turns import MACHINES, cut, visible

LEAST_WIDTH, MOST_WIDTH = 24, 60
MOST_LINE, MOST_REPLY, MOST_TITLE, MOST_COMMENTS = 120, 120, 60, 4
COLUMNS = ("line", "commands", "refused", "faults", "taken", "given", "used", "peak", "pays", "block")
MOST_PAYERS = 6


class Ranks:
    """How many refusals each command of a machine has."""

    def __init__(self, word):
        self.counts = {}
        for it in dict.fromkeys(("run" if word == "batch" else word, word)):
            self.counts.update({key: len(refusals) for key, refusals in refusals_of(MACHINES[it]).items()})

    def of(self, turn):
        """Returns how many refusals the command of a turn has, or None of a piece of a job, which has those of its own command."""
        key = key_of(turn.line)
        return None if key == "step" else self.counts[key]

    def words(self, turn):
        """Returns why a turn was refused, with its rank."""
        why, rank = turn.refusal.why, turn.refusal.rank
        if rank == 0:
            return why
        most = self.of(turn)
        return f"refusal {rank}{f' of {most}' if most else ''}: {why}"


def change_words(turn):
    """Says how many frames a turn took and gave back; or nothing."""
    parts = [f"+{turn.taken}"] * (turn.taken > 0) + [f"-{turn.given}"] * (turn.given > 0)
    return f"{' '.join(parts)} {plural(turn.taken + turn.given, 'frame')}" if parts else ""


def frames_words(turn):
    """Says the same, and how many frames are used then."""
    change = change_words(turn)
    return f"[{change}, {turn.used} used]" if change else ""


def annotate(turns, asked):
    """Yields the lines of a script with their numbers and replies, the frames taken and given back, and why lines were refused."""
    turns, ranks = [turn for turn, _ in turns], Ranks(asked.word)
    widths = [len(visible(it.line)) for it in turns if it.replies]
    width = max([LEAST_WIDTH, *(it for it in widths if it <= MOST_WIDTH)])
    for turn in turns:
        line = cut(visible(turn.line), MOST_LINE)
        if not turn.replies:
            yield f"{turn.number:5}  {line}".rstrip()
            continue
        first, *others = [cut(it, MOST_REPLY) for it in turn.replies]
        yield f"{turn.number:5}  {line:{width}}  {first}  {frames_words(turn)}".rstrip()
        for it in others:
            yield f"{'':{width + 9}}{it}"
        if turn.refusal:
            yield f"{'':9}^ {ranks.words(turn)}"


def title_of(comments):
    """Returns the title of a block: the first sentence of the comments above it."""
    text = " ".join(visible(it).lstrip("#").strip() for it in comments[:MOST_COMMENTS])
    return cut(re.split(r"(?<=[^.])[.:;?] ", f"{text} ")[0].strip(), MOST_TITLE) or "(no comment)"


def payers_of(machine):
    """Returns what each VMO is called that is charged for frames, with how many, in the order of the koids."""
    held = [vmo.held if isinstance(machine, SourceMachine) else vmo.pages for vmo in machine.vmos]
    counts = collections.Counter(frame.payer() for frame in {frame for pages in held for frame in pages.values()})
    labels = machine.labels()
    return [(labels[koid], counts[koid]) for koid in sorted(counts)]


def payers_words(machine):
    """Says the same in a few words."""
    payers = [f"{name} {count}" for name, count in payers_of(machine)]
    return ", ".join(payers if len(payers) <= MOST_PAYERS else [*payers[:MOST_PAYERS], ".."]) or "-"


class Blocks:
    """The costs of a script as they come: a row for each block of commands under a comment, with who pays at its end."""

    def __init__(self):
        self.rows, self.comments, self.row, self.used = [], [], None, 0
        self.machine = None

    def end_row(self):
        """Ends the row of a block. The machine is as it was behind the last command."""
        if self.row:
            self.row["pays"] = payers_words(self.machine)
            self.row = None

    def add(self, turn, machine):
        """Adds a turn."""
        self.machine = machine
        if not turn.replies:
            if turn.line.strip(" \t\r"):
                self.comments.append(turn.line)
                self.end_row()
            return
        if self.row is None:
            self.row = dict.fromkeys(COLUMNS, 0) | {"line": turn.number, "peak": self.used, "block": title_of(self.comments)}
            self.rows.append(self.row)
            self.comments.clear()
        self.used = turn.used
        counts = {"commands": 1, "refused": turn.refusal is not None, "faults": turn.faults, "taken": turn.taken, "given": turn.given}
        for name, count in counts.items():
            self.row[name] += count
        self.row |= {"used": turn.used, "peak": max(self.row["peak"], turn.used)}


def blocks_of(turns):
    """Returns the rows of costs of a script."""
    blocks = Blocks()
    for turn, machine in turns:
        blocks.add(turn, machine)
    blocks.end_row()
    return blocks.rows


def total_of(rows):
    """Returns the row of all blocks together."""
    total = {it: sum(row[it] for row in rows) for it in ("commands", "refused", "faults", "taken", "given")}
    return {"line": "", **total, "used": rows[-1]["used"], "peak": max(it["peak"] for it in rows), "pays": rows[-1]["pays"], "block": "all"}


def cost(turns, _):
    """Yields the lines of a table of costs."""
    rows = blocks_of(turns)
    rows += [total_of(rows)] if rows else []
    width = max([len(it["pays"]) for it in rows] or [4])
    for row in [dict(zip(COLUMNS, COLUMNS)), *rows]:
        yield " ".join(f"{row[it]:>8}" for it in COLUMNS[:-2]) + f"  {row['pays']:{width}}  {row['block']}"


def cost_csv(turns, _):
    """Yields the lines of the same table as CSV, without the last row."""
    text = io.StringIO()
    writer = csv.DictWriter(text, COLUMNS, lineterminator="\n")
    writer.writeheader()
    writer.writerows(blocks_of(turns))
    yield text.getvalue().removesuffix("\n")


def as_json(turns, asked):
    """Yields a line of JSON for each line of a script that has a reply."""
    ranks = Ranks(asked.word)
    for turn, _ in turns:
        if turn.replies:
            yield json.dumps(record_of(turn, ranks))


def record_of(turn, ranks):
    """Returns what the line of JSON of a turn has."""
    refusal = None
    if turn.refusal:
        of = ranks.of(turn) if turn.refusal.rank else None
        refusal = {"name": turn.refusal.name, "rank": turn.refusal.rank, "of": of, "why": turn.refusal.why}
    frames = {"taken": turn.taken, "given": turn.given, "used": turn.used}
    return {"line": turn.number, "command": turn.line.rstrip("\r"), "reply": turn.replies, "frames": frames, "faults": turn.faults,
            "refusal": refusal}
