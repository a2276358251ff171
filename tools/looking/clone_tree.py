"""The clone tree as a picture, from the text that `vmotree` draws. A node is a row of cells: solid where it has the frame, faint where
it sees that of the node above."""
import re
from html import escape

from .cells import colour_of, rect, styles, text

NODE = re.compile(r"#    [|` -]*(VMO|hidden) (\d+) pages=(\d+) first=(\d+) seen=(\d+) \[ (.*)\]")
ROW = re.compile(r"(\d+):(\d+|zero|-)([LR]*)")
CELL, GAP, LEVEL, BESIDE, TOP = 30, 2, 74, 18, 26
# How many cells a node has, how many nodes a picture, and how many pages in a row are drawn that no row speaks of.
MOST_CELLS, MOST_NODES, MOST_PLAIN = 12, 60, 3
LEGEND = (
    ("solid", "the node has this frame"),
    ("faint", "it shows that of the node above"),
    ("corner", "no VMO on this side sees it any more"),
    ("zero", "zero"),
    ("hidden", "hidden parent"),
)
SIDES = {"L": "left", "R": "right"}


class Node:
    """A node: its koid, or None of a hidden node, its pages, its window over the node above, and its rows: of a page the frame, or None
    for zero, with the split bits that are set."""

    def __init__(self, words, parent):
        kind, number, pages, first, seen, rows = words
        self.koid = int(number) if kind == "VMO" else None
        self.pages, self.first, self.seen = int(pages), int(first), int(seen)
        self.rows = {int(page): (int(it) if it.isdigit() else None, bits) for page, it, bits in ROW.findall(rows)}
        self.parent, self.inner = parent, []
        self.width = self.left = self.level = 0
        self.cells = []

    def holder(self, page):
        """Returns the node whose row says what a page shows, and the frame, which is None for zero."""
        node = self
        while node:
            if page in node.rows:
                return node, node.rows[page][0]
            if page >= node.seen:
                break
            page, node = page + node.first, node.parent
        return None, None

    def spoken_of(self):
        """Returns the pages that a row of this node or of one above speaks of."""
        pages, node, begin, end = set(), self, 0, self.pages
        while node:
            pages |= {it - begin for it in node.rows if begin <= it < end}
            begin, end, node = begin + node.first, min(end, node.seen) + node.first, node.parent
        return pages


def nodes_of(tree):
    """Returns the nodes of a tree, each behind the one above. A hidden node has two below it, and a VMO has none."""
    nodes, waiting = [], []
    for line in tree.splitlines():
        found = NODE.fullmatch(line)
        if not found:
            continue
        parent = waiting.pop() if waiting else None
        node = Node(found.groups(), parent)
        nodes.append(node)
        if parent:
            parent.inner.append(node)
            node.level = parent.level + 1
        if node.koid is None:
            waiting += [node, node]
    return nodes


def payers_of(nodes):
    """Returns the koid of the VMO that is charged for each frame: the least of those that show it."""
    payers = {}
    for node in sorted((it for it in nodes if it.koid), key=lambda it: it.koid):
        for page in node.spoken_of():
            payers.setdefault(node.holder(page)[1], node.koid)
    return payers


def shown_pages(node):
    """Returns the pages of a node as they are drawn: each alone, or as a range of those that no row speaks of."""
    pages, shown, at = sorted(node.spoken_of()), [], 0
    for page in [*pages, node.pages]:
        gap = range(at, page)
        shown += [range(it, it + 1) for it in gap] if gap.stop - gap.start <= MOST_PLAIN else [gap]
        shown += [range(page, page + 1)] if page < node.pages else []
        at = page + 1
    return shown if len(shown) <= MOST_CELLS else [*shown[: MOST_CELLS - 1], range(shown[MOST_CELLS - 1].start, node.pages)]


def width_of(node):
    """Sets how wide a node is with all below it, and returns that."""
    node.cells = shown_pages(node)
    node.width = max(len(node.cells) * (CELL + GAP) + BESIDE, 84, sum(map(width_of, node.inner)))
    return node.width


def place(node, left):
    """Sets where a node and those below it stand."""
    node.left = left
    left += (node.width - sum(it.width for it in node.inner)) / 2
    for it in node.inner:
        place(it, left)
        left += it.width


MIDDLE = ' text-anchor="middle"'


def titled(title, drawn):
    """Returns what is drawn with a title."""
    return f"<g><title>{escape(title)}</title>{drawn}</g>"


def empty_cell(x, y, words, more=""):
    """Draws a cell without a frame, with a word in it."""
    return rect(x + 0.5, y + 0.5, CELL - 1, CELL - 1, "none", f' rx="3"{more}') + text(x + CELL / 2, y + 19, words, 9, "dim", MIDDLE)


def cell(node, pages, x, y, payers):
    """Draws a cell of a node."""
    if pages.stop - pages.start > 1:
        return titled(f"{pages.stop - pages.start:,} pages", empty_cell(x, y, "..", ' stroke-dasharray="3 3"'))
    page = pages.start
    where, frame = node.holder(page)
    if frame is None:
        return titled(f"page {page:,}: zero", empty_cell(x, y, "zero" if page in node.rows else ""))
    is_own = where is node
    bits = node.rows[page][1] if is_own else ""
    said = f"page {page:,}: f{frame}" + ("" if is_own else ", of a node above") + "".join(f", seen by no VMO on the {SIDES[it]}" for it in bits)
    out = rect(x, y, CELL, CELL, "" if is_own else "seen", f' rx="3" fill="{colour_of(payers.get(frame, 1))}"')
    out += text(x + CELL / 2, y + 18, f"f{frame}" if is_own else "↑", 11, "on" if is_own else "dim", MIDDLE)
    return titled(said, out + "".join(corner(x, y, it) for it in bits))


def corner(x, y, side):
    """Draws a split bit that is set."""
    return f'<path d="M{x if side == "L" else x + CELL:g} {y + CELL:g}v-11l{11 if side == "L" else -11} 11z" class="on"/>'


def box(node, payers, labels):
    """Draws a node."""
    y, length = TOP + node.level * LEVEL, len(node.cells) * (CELL + GAP) - GAP
    middle = node.left + node.width / 2
    x = middle - length / 2
    is_hidden = node.koid is None
    out = ""
    if node.parent:
        above = node.parent.left + node.parent.width / 2
        out += f'<path d="M{middle:g} {y - 20:g}V{y - 30:g}H{above:g}V{y - LEVEL + CELL + 4:g}" class="line"/>'
    out += rect(x - 4, y - 4, length + 8, CELL + 8, "line", ' rx="6"' + (' stroke-dasharray="4 3"' if is_hidden else ""))
    words = "hidden parent" if is_hidden else labels[node.koid]
    out += text(middle, y - 8, words, 11, "dim" if is_hidden else "", MIDDLE + (' font-style="italic"' if is_hidden else ' font-weight="bold"'))
    return out + "".join(cell(node, pages, x + at * (CELL + GAP), y, payers) for at, pages in enumerate(node.cells))


def sample(kind):
    """Draws what a line of the legend explains."""
    if kind in ("zero", "hidden"):
        return rect(0.5, -9.5, 13, 13, "line" if kind == "hidden" else "none", ' rx="2"' + (' stroke-dasharray="3 2"' if kind == "hidden" else ""))
    filled = rect(0, -10, 14, 14, "seen" if kind == "faint" else "", f' rx="2" fill="{colour_of(1)}"')
    return filled + ('<path d="M0 4v-8l8 8z" class="on"/>' if kind == "corner" else "")


def legend(width, y):
    """Returns the legend, and where it ends."""
    out, x = "", 12
    for kind, words in LEGEND:
        length = 20 + 5.4 * len(words) + 14
        if x > 12 and x + length > width:
            x, y = 12, y + 17
        out += f'<g transform="translate({x:g} {y})">{sample(kind)}{text(20, 1, words, 10, "dim")}</g>'
        x += length
    return out, y + 12


def tree_picture(tree, labels, scheme="auto", least=460):
    """Returns the picture of a tree, or an empty text if it has no node or too many."""
    nodes = nodes_of(tree)
    if not nodes or len(nodes) > MOST_NODES:
        return ""
    left = 12
    for it in nodes:
        if not it.parent:
            left += width_of(it)
            place(it, left - it.width)
    width = max(least, left)
    payers = payers_of(nodes)
    out = "".join(box(it, payers, labels) for it in nodes)
    below, height = legend(width, TOP + (max(it.level for it in nodes) + 1) * LEVEL - 2)
    said = f"The clone tree: {sum(it.koid is not None for it in nodes)} VMOs and {sum(it.koid is None for it in nodes)} hidden parents"
    return (f'<svg xmlns="http://www.w3.org/2000/svg" class="vm" role="img" width="{width:g}" height="{height:g}" viewBox="0 0 {width:g} {height:g}" '
            f'font-family="system-ui, DejaVu Sans, sans-serif"><title>{escape(said)}</title>{styles(scheme)}{rect(0, 0, width, height, "back")}{out}{below}</svg>')
