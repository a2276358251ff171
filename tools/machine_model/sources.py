"""The machine of page sources. Each VMO has the bytes of all its pages, whether they are in memory or not, and a write is pushed
down into the pages that show the one that is written. So nothing is looked up through parents, except which page a read supplies."""
import functools
from typing import NamedTuple

from .answering import Answering, counted, misplaced
from .grammar import FORMS_OF
from .limits import MOST_READ, PAGE, pages_in, touched
from .objects import Frame, FramePool, Labels

MOST_BYTES = 1 << 24
LAST_KIND = 2
ZEROS = bytes(PAGE)


@functools.cache
def run_of(first, step):
    """Returns the bytes of a page that begins with a byte and goes on by a step."""
    return bytes((first + at * step) % 256 for at in range(PAGE))


def source_page(kind, seed, page):
    """Returns the bytes of a page of a source."""
    first = seed + (0, page * PAGE, page)[kind]
    return run_of(first % 256, int(kind == 1))


class Backing(NamedTuple):
    """Where pages of a VMO come from: the first `seen` pages are those of a source from its page `base` on."""

    kind: int
    seed: int
    base: int
    seen: int

    def page(self, page):
        """Returns the bytes of a page by the source, which are zeros past those that are seen."""
        return source_page(self.kind, self.seed, self.base + page) if page < self.seen else ZEROS

    def part(self, first, count):
        """Returns the same of so many pages from a page on."""
        return Backing(self.kind, self.seed, self.base + first, min(count, max(self.seen - first, 0)))


class Link(NamedTuple):
    """What a loose VMO shows: its first `seen` pages are those of the parent from its page `base` on."""

    parent: "SourceVmo"
    base: int
    seen: int


class SourceVmo:
    """A VMO: the bytes of its pages, and of each page that is held its frame."""

    def __init__(self, koid, text, backing=None, link=None):
        self.koid = koid
        self.text = text
        self.backing = backing
        self.link = link
        self.loose = []
        self.held = {}

    def size(self):
        """Returns its bytes."""
        return len(self.text) * PAGE

    def shown(self, first, count):
        """Returns the bytes of so many pages from a page on, zeros past the end."""
        pages = self.text[first : first + count]
        return pages + [ZEROS] * (count - len(pages))

    def is_absent(self, page):
        """Returns whether a page comes from a source and is not held."""
        return page not in self.held and self.backing is not None and page < self.backing.seen

    def is_sole(self, page):
        """Returns whether a page is held and no other VMO shows its frame."""
        return page in self.held and len(self.held[page].koids) == 1

    def is_clean(self, page):
        """Returns whether a page is held and has the bytes that it has by its source."""
        return page in self.held and self.text[page] == self.backing.page(page)

    def read_at(self, page):
        """Returns the VMO and the page of it at which a read of a page ends."""
        vmo = self
        while vmo.link and page not in vmo.held and page < vmo.link.seen:
            vmo, page = vmo.link.parent, vmo.link.base + page
        return vmo, page

    def push(self, page, at, written):
        """Writes into a page, and into the pages of loose children that show it."""
        shown = self.text[page]
        self.text[page] = shown[:at] + written + shown[at + len(written) :]
        for child in self.loose:
            its_page = page - child.link.base
            if 0 <= its_page < child.link.seen and its_page not in child.held:
                child.push(its_page, at, written)


def past_most(what, size):
    """Says that a size passes that of the largest VMO, if it does."""
    return size > MOST_BYTES and f"{what} = {size}, a VMO has at most {MOST_BYTES} bytes"


def past_end_row(vmo, offset, length):
    """Returns the row that refuses a range that passes the end of a VMO."""
    end = offset + length
    return "OUT_OF_RANGE", end > vmo.size() and f"OFFSET + LEN = {end}, the VMO has {vmo.size()} bytes"


class SourceMachine(Answering):
    """A machine of page sources with so many frames."""

    forms = {
        "source_create": ("VMO SIZE KIND:NUM SEED", ""),
        "vmo_create_child": ("VMO PARENT:VMO KIND:SOURCE_KIND OFFSET SIZE", ""),
        "vmo_close": ("VMO", ""),
        "vmo_read": ("VMO OFFSET LEN", ""),
        "vmo_write": ("VMO OFFSET DATA", ""),
        "supply": ("VMO OFFSET LEN", ""),
        "evict": ("VMO OFFSET LEN", ""),
        "stat": ("", ""),
    }

    def __init__(self, frames):
        super().__init__()
        self.frames = frames
        self.pool = FramePool()
        self.used = 0
        # How many frames were ever taken and given back.
        self.taken = 0
        self.given = 0
        self.next = 1
        self.vmos = []
        self.names = {}

    # ---- what there is

    def vmo(self, name):
        """Returns the VMO of an open name."""
        self.refuse(("BAD_HANDLE", name not in self.names and f"{name} is not open"))
        return self.names[name]

    def labels(self):
        """Returns what all VMOs are called."""
        return Labels(self.names.items())

    def add(self, name, text, backing=None, link=None):
        """Adds a VMO with a name, and returns it."""
        it = SourceVmo(self.next, text, backing, link)
        self.next += 1
        self.vmos.append(it)
        self.names[name] = it
        return it

    def give_up(self, vmo, page):
        """Takes the frame of a page from a VMO."""
        frame = vmo.held.pop(page)
        frame.koids.remove(vmo.koid)
        if not frame.koids:
            self.used -= 1
            self.given += 1
            self.pool.give_back(frame)

    def own(self, vmo, page):
        """Gives a page a frame that no other VMO shows."""
        if not vmo.is_sole(page):
            if page in vmo.held:
                self.give_up(vmo, page)
            self.used += 1
            self.taken += 1
            vmo.held[page] = Frame(b"", vmo.koid, self.pool)

    def new_name_row(self, name):
        """Returns the row that refuses a name that is open."""
        return "NAME_IN_USE", name in self.names and f"{name} is open"

    def lacks_words(self, need, what):
        """Says that pages take more frames than are free, if they do."""
        free = self.frames - self.used
        free_words = f"{free or 'none'} {'are' if free > 1 else 'is'} free"
        return need > free and f"it needs {counted(need, 'frame')}, {free_words}: {counted(need, 'page')} {what}"

    def supply_each(self, pages):
        """Supplies absent pages, each of a VMO."""
        self.refuse(("NO_MEMORY", self.lacks_words(len(pages), "that it supplies")))
        self.may_lack_host_memory(pages)
        for vmo, page in pages:
            self.own(vmo, page)

    def prune(self, vmo):
        """Lets a VMO go that has no name and no loose child, and then its parent, if it has none either."""
        while vmo and vmo not in self.names.values() and not vmo.loose:
            for page in sorted(vmo.held):
                self.give_up(vmo, page)
            self.vmos.remove(vmo)
            parent = vmo.link.parent if vmo.link else None
            if parent:
                parent.loose.remove(vmo)
            vmo = parent

    # ---- commands

    def source_create(self, name, size, kind, seed):
        """Makes a VMO that comes from a source."""
        count = pages_in(size)
        self.refuse(
            self.new_name_row(name),
            ("INVALID_ARGS", kind > LAST_KIND and f"KIND = {kind}, the kinds are 0 to {LAST_KIND}"),
            ("OUT_OF_RANGE", past_most("SIZE, rounded up to whole pages,", count * PAGE)),
        )
        self.may_lack_host_memory()
        backing = Backing(kind, seed, 0, count)
        self.add(name, [backing.page(it) for it in range(count)], backing)

    def vmo_create_child(self, name, parent, kind, offset, size):
        """Makes a child of a VMO."""
        of = self.vmo(parent)
        is_loose, count, first = kind != "snapshot", pages_in(size), offset // PAGE
        self.refuse(self.new_name_row(name), ("INVALID_ARGS", misplaced(OFFSET=offset)))
        if not is_loose:
            self.refuse(("NOT_SUPPORTED", of.link and f"{parent} is loose"))
        self.refuse(("OUT_OF_RANGE", past_most("OFFSET + SIZE, rounded up to whole pages,", offset + count * PAGE)))
        self.may_lack_host_memory()
        text = of.shown(first, count)
        if is_loose:
            seen = min(count, max(len(of.text) - first, 0))
            of.loose.append(self.add(name, text, link=Link(of, first, seen)))
            return
        child = self.add(name, text, of.backing.part(first, count))
        for page in range(first, min(first + count, len(of.text))):
            if page in of.held:
                child.held[page - first] = of.held[page]
                of.held[page].koids.add(child.koid)

    def vmo_close(self, name):
        """Closes a name."""
        it = self.vmo(name)
        del self.names[name]
        self.prune(it)

    def vmo_read(self, name, offset, length):
        """Returns bytes of a name."""
        it = self.vmo(name)
        self.refuse(
            ("INVALID_ARGS", length > MOST_READ and f"LEN = {length}, one read has at most {MOST_READ} bytes"),
            past_end_row(it, offset, length),
        )
        pages = touched(offset, length)
        ends = [it.read_at(page) for page in pages]
        self.supply_each([(vmo, page) for vmo, page in ends if vmo.is_absent(page)])
        shown = b"".join(it.text[page] for page in pages)
        return shown[offset % PAGE : offset % PAGE + length].hex() or "-"

    def vmo_write(self, name, offset, written):
        """Writes bytes by a name."""
        it = self.vmo(name)
        self.refuse(past_end_row(it, offset, len(written)))
        pages = touched(offset, len(written))
        need = sum(not it.is_sole(page) for page in pages)
        self.refuse(("NO_MEMORY", self.lacks_words(need, "that it touches, zero or shared")))
        self.may_lack_host_memory(need)
        for page in pages:
            start, end = max(offset, page * PAGE), min(offset + len(written), (page + 1) * PAGE)
            it.push(page, start - page * PAGE, written[start - offset : end - offset])
            self.own(it, page)

    def whole_pages(self, name, offset, length):
        """Returns the VMO of a name that is not loose, and the pages of a range of whole pages."""
        it = self.vmo(name)
        self.refuse(
            ("INVALID_ARGS", misplaced(OFFSET=offset, LEN=length)),
            ("NOT_SUPPORTED", it.link and f"{name} is loose"),
            past_end_row(it, offset, length),
        )
        return it, touched(offset, length)

    def supply(self, name, offset, length):
        """Supplies the absent pages of a range."""
        it, pages = self.whole_pages(name, offset, length)
        self.supply_each([(it, page) for page in pages if it.is_absent(page)])

    def evict(self, name, offset, length):
        """Takes the frames of the clean pages of a range."""
        it, pages = self.whole_pages(name, offset, length)
        clean = [page for page in pages if it.is_clean(page)]
        self.may_lack_host_memory(clean)
        for page in clean:
            self.give_up(it, page)

    def stat(self):
        """Returns how many frames and VMOs there are."""
        return f"frames={self.frames} used={self.used} free={self.frames - self.used} vmos={len(self.vmos)}"


FORMS_OF["sources"] = SourceMachine.forms
