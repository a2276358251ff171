"""The picture of what there is behind a line: VMOs with their pages, coloured by who pays, and below each the mappings that show it."""
import functools
import textwrap
from html import escape

from machine_model import PAGE, SourceMachine, spelled
from machine_model.answering import counted
from machine_model.objects import Frame
from machine_model.regions import READY_TO_WRITE

from .cells import FAULTS, MEANING, READS, WRITES, Look, bar, colour_of, rect, runs_of, styles, text
from .changes import Before
from .paged import source_marks, source_rows
from .rows import LABEL, LEAST_WIDTH, MARGIN, STEP, Label, Row, row_of, text_row, tree_of
from .states import address, names_by_koid, pieces_of, regions_below, roots_of
from .turns import cut, visible

MOST_BARS, MOST_SHARERS = 12, 8
FONT = "system-ui, -apple-system, Segoe UI, DejaVu Sans, sans-serif"
# What a mark in a picture means. Only those that occur are in its legend.
LEGEND = {
    "held": "a frame, coloured by who pays",
    "more": "{more} show{s} it",
    "other": "{tag} pays for it",
    "zero": "zero page, no frame",
    "pinned": "pinned",
    **MEANING,
    "new": "changed by this line",
}
SOURCES_LEGEND = {it: LEGEND[it] for it in ("held", "more", "other", "zero", "new")}
SAMPLE = 22


# ---- what there is, to find what a line changed


def marks_of(machine):
    """Returns what a picture shows, by its places: each held page, each VMO, each mapping and each page that is ready."""
    if isinstance(machine, SourceMachine):
        return source_marks(machine)
    # Many VMOs may show a frame.
    labels, payer_of = machine.labels(), functools.cache(Frame.payer)
    marks = {("page", vmo.koid, page): (frame.slot, payer_of(frame), len(frame.koids)) for vmo in machine.vmos for page, frame in vmo.pages.items()}
    marks |= {("vmo", vmo.koid): labels[vmo.koid] for vmo in machine.vmos}
    for name, pin in machine.pins.items():
        marks["pin", name] = pin.vmo.koid, pin.pages
    for root in roots_of(machine):
        for pages, (_, _, rights, _, region), ready in pieces_of(root):
            marks["piece", root.name, pages, region.name] = rights
            marks |= {("ready", root.name, page): it for page, it in ready.items()}
    return marks


# ---- VMOs with their mappings


class Piece:
    """Pages of an address space that show pages of a VMO."""

    def __init__(self, root, piece, before):
        self.root = root
        self.pages, (self.vmo, self.ahead, rights, _, region), self.ready = piece
        self.before = before
        place = "" if region is root else f" in {root.name}"
        self.name = f"{region.name}{place} {address(self.pages.start)} {spelled(rights)}"
        self.is_new = before.is_new("piece", root.name, self.pages, region.name)

    def ends(self):
        """Returns the pages of the VMO at which this begins or ends to look otherwise."""
        return {self.pages.start + self.ahead, self.pages.stop + self.ahead, *(it + self.ahead for it in self.ready)}

    def look(self, page):
        """Returns what is shown of a page of the VMO, or an empty word, and whether the last line changed that."""
        at = page - self.ahead
        if at not in self.pages:
            return "", False
        ready = self.ready.get(at)
        return FAULTS if ready is None else WRITES if ready == READY_TO_WRITE else READS, self.before.is_new("ready", self.root.name, at)


class Scene:
    """What the rows of a picture are drawn from: what VMOs are called, and by their koids their names, pins and pieces, each found in one
    pass over all. Rows of earlier pictures are kept, and those that would be drawn alike are taken from there."""

    def __init__(self, machine, before, kept):
        self.kept = {} if kept is None else kept
        self.before, self.labels, self.names = before, machine.labels(), names_by_koid(machine)
        self.pins, self.pieces = {}, {}
        for name, it in sorted(machine.pins.items(), key=lambda it: int(it[0][1:])):
            self.pins.setdefault(it.vmo.koid, []).append((name, it.pages))
        for root in roots_of(machine):
            for piece in pieces_of(root):
                self.pieces.setdefault(piece[1][0].koid, []).append(Piece(root, piece, before))
        self.sharers_of = functools.cache(lambda frame: sorted(frame.koids))
        self.seen_as = functools.cache(self.number_of)

    def number_of(self, frame):
        """Returns a number that stands for a frame and all that is said of it, the same in each picture."""
        sharers = self.sharers_of(frame)
        seen = (frame.slot, len(sharers), *map(self.labels.__getitem__, sharers[: MOST_SHARERS + 1]), sharers[0])
        return self.kept.setdefault(seen, len(self.kept))

    def sharers_words(self, frame, koid):
        """Says which VMOs show a frame besides one."""
        others = [self.labels[it] for it in self.sharers_of(frame)[: MOST_SHARERS + 1] if it != koid][:MOST_SHARERS]
        more = len(frame.koids) - 1 - len(others)
        return f", shown by {', '.join(others)}{f' and {more:,} more' if more else ''} too" if others else ""


class VmoRow:
    """The row of a VMO in the making."""

    def __init__(self, scene, vmo):
        self.scene, self.vmo, self.before = scene, vmo, scene.before
        self.pins, self.pieces = scene.pins.get(vmo.koid, []), scene.pieces.get(vmo.koid, [])

    def look_at(self, page):
        """Returns what a page looks like."""
        vmo, scene = self.vmo, self.scene
        ready, new_ready = zip(*(it.look(page) for it in self.pieces)) if self.pieces else ((), ())
        if page >= vmo.count:
            return Look("past", hint="behind the end of the VMO", ready=ready, new_ready=new_ready)
        frame = vmo.pages.get(page)
        is_new = self.before.is_new("page", vmo.koid, page)
        if frame is None:
            return Look("zero", hint="no frame", ready=ready, is_new=is_new, new_ready=new_ready)
        payer, others = scene.sharers_of(frame)[0], len(frame.koids) - 1
        tag = "" if not others else f"+{others}" if payer == vmo.koid else scene.labels[payer]
        hint = f"{scene.labels[payer]} pays{scene.sharers_words(frame, vmo.koid)}"
        holds = [name for name, pages in self.pins if page in pages]
        hint += f", pinned by {', '.join(holds)}" if holds else ""
        is_new = is_new or any(self.before.is_new("pin", it) for it in holds)
        return Look("held", payer, tag, holds[0] if holds else "", hint, bool(holds), ready, is_new, new_ready)

    def row(self, depth):
        """Returns the row: that of an earlier picture, if it would be drawn alike."""
        vmo, before = self.vmo, self.before
        if vmo.koid in before.koids or before.has_others and (self.pins or self.pieces):
            return self.made(depth)
        key = (vmo.koid, depth, vmo.count, *((it["name"], it["kind"]) for it in self.scene.names[vmo.koid]), None,
               *vmo.pages, None, *map(self.scene.seen_as, vmo.pages.values()), None, *self.pins,
               *((it.name, it.pages, it.ahead, *it.ready.items()) for it in self.pieces))
        row = self.scene.kept.get(key)
        if row is None:
            row = self.scene.kept[key] = self.made(depth)
        return row

    def made(self, depth):
        """Makes the row."""
        vmo = self.vmo
        ends = {end for it in self.pieces for end in it.ends()} | {vmo.count}
        stop = max([vmo.count, *(it.pages.stop + it.ahead for it in self.pieces)])
        marked = {*vmo.pages, *self.before.changed_pages(vmo.koid), *(page for end in ends for page in (end, end - 1))}
        cells = runs_of(range(stop), sorted(it for it in marked if 0 <= it < stop), self.look_at)
        names = [it["name"] + ("" if it["kind"] == "owner" else f" ({it['kind']})") for it in self.scene.names[vmo.koid]]
        pays = sum(self.scene.sharers_of(frame)[0] == vmo.koid for frame in vmo.pages.values())
        uses = "" if pays == len(vmo.pages) else f", uses {len(vmo.pages):,}"
        small = f"pays {pays:,}{uses} of {vmo.count:,} page{'' if vmo.count == 1 else 's'}"
        label = Label(depth, vmo.koid, " ".join(names) or f"koid {vmo.koid}", small, self.before.is_new("vmo", vmo.koid))
        shown = self.pieces[:MOST_BARS]
        row = row_of(cells, label, lambda cell: tuple(vmo.pages[it].slot for it in cell.pages) if cell.look.kind == "held" else (),
                     [(it.name, it.is_new) for it in shown])
        left = len(self.pieces) - len(shown)
        return row if not left else Row(row.height + 12, (*row.parts, text(LABEL, row.height, f"and {left:,} mappings more", 9, "dim")), row.right)


def space_rows(machine):
    """Yields a row for each region that no bar names: those made in others, and address spaces in which nothing is mapped."""
    for root in roots_of(machine):
        regions = [*regions_below(root)]
        if len(regions) == 1 and root.mappings:
            continue
        for region, parent, depth in regions:
            what = "region" if parent else "address space"
            span = f"{address(region.pages.start)} to {address(region.pages.stop)}, allows {spelled(region.rights)}"
            yield text_row(f"{what} {region.name}: {span}" + ("" if root.mappings or parent else "; nothing is mapped"), x=MARGIN + STEP * min(depth, 6))


def rows_of(machine, before=None, kept=None):
    """Returns the rows of a picture. What differs from the marks before the last line is marked as changed. Pictures of one machine may
    keep their rows for the next ones."""
    if isinstance(machine, SourceMachine):
        return source_rows(machine, Before(before, source_marks(machine)))
    change = Before(before, marks_of(machine))
    scene = Scene(machine, change, kept)
    rows = [VmoRow(scene, vmo).row(depth) for vmo, depth in tree_of(machine.vmos, lambda it: it.parent and it.parent.koid)] or [text_row("no VMO")]
    if change.gone():
        rows.append(text_row(f"gone: {', '.join(change.gone())}", "new"))
    for name, it in sorted(getattr(machine, "jobs", {}).items()):
        left = counted((it.end - it.next) // PAGE, "page")
        rows.append(text_row(f"job {name}: {it.command} of {it.name} goes on at byte {it.next:,}, {left} left"))
    return rows + [*space_rows(machine)]


# ---- the whole picture


def heading_of(turn, machine):
    """Returns the lines above a picture."""
    reply = f" → {cut(turn.replies[0], 60)}" if turn.replies else ""
    counts = f"{machine.used} of {machine.frames} frames used, {counted(len(machine.vmos), 'VMO')}"
    return [f"after line {turn.number}: {cut(visible(turn.line), 70)}{reply}", counts]


def sample_of(kind, payer, tag):
    """Draws what a part of the legend explains, as it occurs."""
    width = SAMPLE
    if kind in MEANING:
        return bar(0, -6, width, kind, False)
    if kind in ("zero", "new"):
        return rect(0.5, -8.5, width - 1, 11, "new" if kind == "new" else "none", ' rx="2"')
    box = rect(0, -9, width, 12, "", f' rx="2" fill="{colour_of(payer or 1)}"')
    if kind in ("more", "other"):
        return box + text(width / 2, 0, tag, min(9, 30 / len(tag)), "on", ' text-anchor="middle"')
    return box + (f'<path d="M{width - 10} -8h9v9z" class="on"/>' if kind == "pinned" else "")


def legend_rows(rows, words, least):
    """Returns the rows of the legend: what each mark means that occurs. They are at least so wide."""
    width = max(least, *(it.right for it in rows))
    first = {}
    for kind, payer, tag in sorted(kind for it in rows for kind in it.kinds):
        first.setdefault(kind, (payer, tag))
    lines, x = [[]], MARGIN
    for kind, said in words.items():
        if kind in first:
            payer, tag = first[kind]
            said = said.format(tag=tag, more=counted(int(tag), "more VMO") if kind == "more" else "", s="s" if tag == "+1" else "")
            length = SAMPLE + 6 + 5.3 * len(said) + 14
            if x + length > width and lines[-1]:
                lines.append([])
                x = MARGIN
            lines[-1].append(f'<g transform="translate({x:g} 11)">{sample_of(kind, payer, tag)}{text(SAMPLE + 6, 0, said, 10, "dim")}</g>')
            x += length
    return [Row(16 if it else 0, tuple(it), width) for it in lines]


def all_rows(machine, before=None, least=LEAST_WIDTH, kept=None):
    """Returns the rows of a picture with those of its legend, which is at least so wide."""
    rows = rows_of(machine, before, kept)
    return rows + legend_rows(rows, SOURCES_LEGEND if isinstance(machine, SourceMachine) else LEGEND, least)


def picture(rows, heading, title, scheme="auto"):
    """Returns a whole picture, light, dark or as the reader's screen is."""
    width = round(max(it.right for it in rows))
    out, y = [], 7
    for at, it in enumerate(heading):
        for line in textwrap.wrap(it, int((width - 2 * MARGIN) / (7 if at == 0 else 5.9)) or 1) or [""]:
            y += 15
            out.append(text(MARGIN, y, line, 12 if at == 0 else 11, "" if at == 0 else "dim", ' font-weight="bold"' if at == 0 else ""))
    y += 12
    for row in rows:
        out.append(f'<g transform="translate(0 {y:g})">{row.drawn()}</g>')
        y += row.height
    said = "; ".join(heading)
    return (f'<svg xmlns="http://www.w3.org/2000/svg" class="vm" role="img" width="{width}" height="{y + 6:g}" viewBox="0 0 {width} {y + 6:g}" '
            f'font-family="{FONT}"><title>{escape(title)}</title><desc>{escape(said)}</desc>{styles(scheme)}'
            f'{rect(0, 0, width, round(y + 6), "back")}' + "\n".join(out) + "</svg>")


def draw(turns, asked):
    """Yields the picture of what there is behind the last turn, with what that changed."""
    before = None
    for turn, machine in turns:
        if turn.number == len(asked.lines) - 1:
            before = marks_of(machine)
    yield picture(all_rows(machine, before if before is not None else {}), heading_of(turn, machine),
                  visible(f"{asked.file or 'a script'} after line {turn.number}"), asked.scheme)
