"""Pages as cells of a picture: runs of equal pages, folded if they are long, and how each is drawn. Nothing in it has an id, so that
pictures may stand on one page."""
import functools
from html import escape
from typing import NamedTuple

FOLDED = 9
LONG_NUMBER = 1_000_000
MOST_CELLS = 60
MOST_KEPT = 1 << 14
CELL, FOLD, HEIGHT, GAP, NUMBER, BAR, BAR_STEP = 44, 104, 24, 3, 13, 6, 12
# Fills for cells with black labels, one for each VMO that pays. Any two are at least 23 apart in CIE Lab, and neighbours 37, also as
# they are simulated for each of the three kinds of colour blindness. They stand on white and on black.
COLOURS = ("#44dddd", "#ffcc44", "#8866ff", "#dd4466", "#dd88ff", "#ccddaa", "#4488aa", "#dd8844")
# What stands in a cell that shows no frame. A zero page is an empty one.
WORDS = {"zero": "zero", "past": "past end", "absent": "absent", "parent": "parent", "rest": "pages"}
# What a mapping shows of a page: neither reads nor writes take a fault, reads take none, or the next access faults.
FAULTS, READS, WRITES = "faults", "reads", "writes"
MEANING = {WRITES: "mapped, without a fault", READS: "mapped, reads take no fault", FAULTS: "mapped, the next access faults"}
LIGHT = {"back": "#ffffff", "ink": "#16181d", "dim": "#5c6370", "edge": "#9aa2ad", "new": "#c2410c"}
DARK = {"back": "#0d1117", "ink": "#e6e8eb", "dim": "#9aa2ad", "edge": "#596270", "new": "#ffb37a"}


def rules(colours):
    """Returns the styles of a picture in these colours."""
    return (f".vm .back{{fill:{colours['back']}}}.vm text,.vm .ink{{fill:{colours['ink']}}}.vm .dim{{fill:{colours['dim']}}}"
            f".vm .on{{fill:#111}}.vm .none{{fill:none;stroke:{colours['edge']}}}.vm .line{{fill:none;stroke:{colours['dim']}}}"
            f".vm .bar{{fill:none;stroke:{colours['ink']}}}.vm .new{{fill:none;stroke:{colours['new']};stroke-width:2.5}}"
            f".vm text.new{{fill:{colours['new']};stroke:none}}.vm .seen{{fill-opacity:.25}}")


def styles(scheme):
    """Returns the styles of a picture: light, dark, or as the reader's screen is (auto)."""
    dark = f"@media(prefers-color-scheme:dark){{{rules(DARK)}}}" if scheme == "auto" else ""
    return f"<style>{rules(DARK if scheme == 'dark' else LIGHT)}{dark}</style>"


class Look(NamedTuple):
    """What a page looks like: `held` or a word of WORDS, the koid that pays for its frame, what stands beside the frame and below the
    cell, a hint, whether it is pinned, what the mappings show of it, and whether the last line changed it or one of these."""

    kind: str
    payer: int = 0
    tag: str = ""
    note: str = ""
    hint: str = ""
    is_pinned: bool = False
    ready: tuple = ()
    is_new: bool = False
    new_ready: tuple = ()


class Cell(NamedTuple):
    """Pages in a row that look alike."""

    pages: range
    look: Look

    def width(self):
        """Returns how wide the cell is."""
        return CELL if len(self.pages) == 1 and self.pages.start < LONG_NUMBER else FOLD


def runs_of(pages, marked, look_at):
    """Returns the cells of a range of pages. Between those that are marked, which are in order, all look alike."""
    runs, at = [], pages.start
    for page in [*marked, pages.stop]:
        for run in (range(at, page), range(page, min(page + 1, pages.stop))):
            if run:
                look = look_at(run.start)
                if runs and runs[-1].look == look:
                    runs[-1] = Cell(range(runs[-1].pages.start, run.stop), look)
                else:
                    runs.append(Cell(run, look))
        at = page + 1
    cells = []
    for run in runs:
        cells += [run] if len(run.pages) >= FOLDED else [Cell(range(it, it + 1), run.look) for it in run.pages]
    if len(cells) > MOST_CELLS:
        rest = range(cells[MOST_CELLS].pages.start, pages.stop)
        cells = [*cells[:MOST_CELLS], Cell(rest, Look("rest", hint="pages that are left out"))]
    return cells


def text(x, y, words, size=11, kind="", more=""):
    """Returns a text of a picture."""
    kind = f' class="{kind}"' if kind else ""
    return f'<text x="{x:g}" y="{y:g}" font-size="{size:g}"{kind}{more}>{escape(words)}</text>'


def rect(x, y, width, height, kind="", more=""):
    """Returns a rectangle of a picture."""
    kind = f' class="{kind}"' if kind else ""
    return f'<rect x="{x:g}" y="{y:g}" width="{width:g}" height="{height:g}"{kind}{more}/>'


def colour_of(koid):
    """Returns the colour of a VMO, which is the same at each line."""
    return COLOURS[(koid - 1) % len(COLOURS)]


def frames_words(numbers):
    """Returns frames by their numbers, those in a row together."""
    runs = []
    for it in numbers:
        if runs and runs[-1][1] + 1 == it:
            runs[-1][1] = it
        else:
            runs.append([it, it])
    return ", ".join(f"f{first}" if first == last else f"f{first} to f{last}" for first, last in runs)


def label_of(cell, numbers):
    """Returns the label of a cell: its frame or frames, or what it is in place of one."""
    count, look = len(cell.pages), cell.look
    if look.kind == "held":
        words = frames_words(numbers)
        return words if count == 1 or words.count("f") < 3 else f"{count:,} frames"
    return ("" if look.kind == "zero" else WORDS[look.kind]) if count == 1 else f"{count:,} {WORDS[look.kind]}"


@functools.lru_cache(MOST_KEPT)
def drawn(cell, x, y, numbers):
    """Draws a cell, with the numbers of its frames. Those of one picture are mostly those of the picture before, and are kept."""
    width, look = cell.width(), cell.look
    first, last = cell.pages.start, cell.pages.stop - 1
    where = f"page {first:,}" if first == last else f"pages {first:,} to {last:,}"
    shown = frames_words(numbers) if look.kind == "held" else WORDS[look.kind]
    out = f"<g><title>{escape(f'{where}: {shown}, {look.hint}')}</title>"
    if look.kind == "held":
        out += rect(x, y, width, HEIGHT, "", f' rx="3" fill="{colour_of(look.payer)}"')
    else:
        dashes = "" if look.kind == "zero" else ' stroke-dasharray="3 3"'
        out += rect(x + 0.5, y + 0.5, width - 1, HEIGHT - 1, "none", f' rx="3"{dashes}')
    label = label_of(cell, numbers)
    both = f"{label} {look.tag}".strip()
    size = min(11, (width - 4) / max(len(both), 1) / 0.6)
    out += text(x + width / 2, y + 16, both, round(size, 1), "on" if look.kind == "held" else "dim", ' text-anchor="middle"') if both else ""
    if look.is_pinned:
        out += f'<path d="M{x + width - 13:g} {y + 2}h11v11z" class="on"/>'
    if look.is_new:
        out += rect(x - 1.5, y - 1.5, width + 3, HEIGHT + 3, "new", ' rx="4"')
    number = f"{first:,}" if first == last else f"{first:,} to {last:,}"
    number = f"from {first:,}" if len(number) * 4.9 > width else number
    return out + text(x + width / 2, y + HEIGHT + 10, f"{number} {look.note}".strip(), 8, "dim", ' text-anchor="middle"') + "</g>"


def bar(x, y, width, ready, is_new):
    """Draws what a mapping shows of the pages of a cell."""
    out = f"<g><title>{MEANING[ready]}</title>" + rect(x + 0.5, y + 0.5, width - 1, BAR - 1, "bar")
    if ready != FAULTS:
        out += rect(x, y, width / 2 if ready == READS else width, BAR, "ink")
    return out + (rect(x - 1, y - 1, width + 2, BAR + 2, "new") if is_new else "") + "</g>"


def in_lines(cells, x, width):
    """Returns the cells with their places, as lines of a width."""
    lines, at = [[]], x
    for cell in cells:
        if at + cell.width() > x + width and lines[-1]:
            lines.append([])
            at = x
        lines[-1].append((cell, at))
        at += cell.width() + GAP
    return lines
