"""The rows of a picture: a label, and beside it cells with the bars of mappings below them."""
import functools
from typing import NamedTuple

from .cells import BAR, BAR_STEP, HEIGHT, MOST_KEPT, NUMBER, bar, colour_of, drawn, in_lines, rect, text
from .turns import cut

WIDTH, LEAST_WIDTH, LABEL, MARGIN, STEP = 920, 640, 190, 12, 14
MOST_DEPTH = 6
SPACE = 4


class Row(NamedTuple):
    """A row of a picture, with its height, the parts that it is drawn by, its right end, and the kinds of marks that are in it. It begins at
    the height 0."""

    height: int
    parts: tuple
    right: int = 0
    kinds: tuple = ()

    def drawn(self):
        """Returns the row as it is drawn."""
        return "".join(self.parts)


class Label(NamedTuple):
    """What stands beside the cells of a VMO: how far down it is, its koid, what it is called, a line below, and whether it is new."""

    depth: int
    koid: int
    bold: str
    small: str
    is_new: bool = False


@functools.lru_cache(MOST_KEPT)
def label_of(label):
    """Draws a label."""
    x = MARGIN + STEP * min(label.depth, MOST_DEPTH)
    out = f'<path d="M{x - 9} -6V12H{x - 2}" class="line"/>' if label.depth else ""
    out += rect(x, 3, 10, 10, "", f' rx="2" fill="{colour_of(label.koid)}"')
    bold = cut(label.bold, int((LABEL - x - 16 - 30 * label.is_new) / 7.4))
    out += text(x + 15, 12, bold, 12, "", ' font-weight="bold"')
    out += text(x + 22 + 7.6 * len(bold), 12, "new", 10, "new") if label.is_new else ""
    return out + text(x + 15, 24, cut(label.small, int((LABEL - x - 15) / 4.9)), 9, "dim")


@functools.lru_cache(MOST_KEPT)
def kinds_of(look):
    """Returns the kinds of marks in a cell and in the bars below it, each with the VMO that pays and what stands beside the frame, where
    that is told."""
    kinds = {look.kind, *filter(None, look.ready), *(("pinned",) if look.is_pinned else ())}
    kinds |= {"new"} if look.is_new or any(look.new_ready) else set()
    kinds |= {"more" if look.tag.startswith("+") else "other"} if look.tag else set()
    return {(it, look.payer, look.tag) if it in ("held", "more", "other") else (it, 0, "") for it in kinds}


def row_of(cells, label, numbers_of, bars=()):
    """Returns a row of cells with its label, and below the cells a bar for each mapping, whose name is given with whether it is new."""
    out, y, right = [label_of(label)], 0, LABEL
    x = MARGIN + STEP * min(label.depth, MOST_DEPTH) + 15
    for line in in_lines(cells, LABEL, WIDTH - LABEL - MARGIN):
        out += [drawn(cell, at, y, numbers_of(cell)) for cell, at in line]
        right = max(right, line[-1][1] + line[-1][0].width()) if line else right
        y += HEIGHT + NUMBER
        for number, (name, is_new) in enumerate(bars):
            shown = [(cell, at) for cell, at in line if cell.look.ready and cell.look.ready[number]]
            if shown:
                out.append(text(x, y + BAR + 2, cut(name, int((LABEL - x) / 5.1)), 9, "new" if is_new else "dim"))
                out.append("".join(bar(at, y + 2, cell.width(), cell.look.ready[number], cell.look.new_ready[number]) for cell, at in shown))
                y += BAR_STEP
        y += 2
    kinds = set().union(*map(kinds_of, {cell.look for cell in cells})) | ({("new", 0, "")} if label.is_new or any(it for _, it in bars) else set())
    return Row(max(y, 28) + SPACE, tuple(out), right + MARGIN, tuple(sorted(kinds)))


def text_row(words, kind="dim", x=MARGIN):
    """Returns a row of words."""
    return Row(16, (text(x, 11, words, 10, kind),), round(x + 5.6 * len(words)) + MARGIN)


def tree_of(vmos, parent_of):
    """Yields VMOs, each behind its parent, with how far down it is. `parent_of` returns the koid of a parent, or None."""
    inner = {}
    for vmo in vmos:
        inner.setdefault(parent_of(vmo), []).append(vmo)
    waiting = [(it, 0) for it in reversed(inner.get(None, []))]
    while waiting:
        vmo, depth = waiting.pop()
        yield vmo, depth
        waiting += [(it, depth + 1) for it in reversed(inner.get(vmo.koid, []))]
