"""What a machine is made of: frames, VMOs and their names, pins, regions and mappings."""
from .limits import PAGE, is_inside, meet


class FramePool:
    """The numbers of page frames. The program takes the frame that was given back last, or else the next one that was never taken."""

    def __init__(self):
        self.taken = {}
        self.idle = []
        self.fresh = 0
        self.count = 0

    def take(self, frame):
        """Gives a frame its number."""
        if not self.idle:
            self.idle.append(self.fresh)
            self.fresh += 1
        frame.slot = self.idle.pop()
        frame.order = self.count
        self.count += 1
        self.taken[frame.slot] = frame

    def give_back(self, frame):
        """Frees the number of a frame."""
        del self.taken[frame.slot]
        self.idle.append(frame.slot)

    def renumber(self, frame, number):
        """Gives a frame another number, which a reply told. A frame that has it gets the number of this one."""
        if number == frame.slot:
            return
        other = self.taken.get(number)
        self.idle += range(self.fresh, number + 1)
        self.fresh = max(self.fresh, number + 1)
        if other:
            other.slot = frame.slot
            self.taken[other.slot] = other
        else:
            self.idle.remove(number)
            self.give_back(frame)
        frame.slot = number
        self.taken[number] = frame


class Frame:
    """A page frame: its bytes, the koids of the VMOs that show it, its number in the pool, and how many frames were taken before it.
    `number` is that in the pool while a pin keeps it, and else None."""

    def __init__(self, bytes_shown, koid, pool):
        self.data = bytearray(bytes_shown)
        self.koids = {koid}
        self.number = None
        pool.take(self)

    def payer(self):
        """Returns the koid of the VMO that is charged for the frame."""
        return min(self.koids)


class Vmo:
    """A VMO: how many pages it has, the frame of each that is held, and the mappings that show it."""

    def __init__(self, koid, count, resizable, parent=None):
        self.koid = koid
        self.count = count
        self.resizable = resizable
        self.parent = parent
        self.is_snapshot = parent is not None
        self.pages = {}
        self.mappings = set()

    def held(self, pages):
        """Returns those of a range of pages that are held, in order."""
        return sorted(it for it in self.pages if it in pages)

    def is_sole(self, page):
        """Returns whether a page is held and no other VMO shows its frame."""
        return page in self.pages and len(self.pages[page].koids) == 1


class Labels(dict):
    """What VMOs are called, by their koids: each by its first name, or else by its koid. The names come each with its VMO."""

    def __init__(self, names):
        super().__init__()
        for name, vmo in sorted(names, key=lambda it: int(it[0][1:]), reverse=True):
            self[vmo.koid] = name

    def __missing__(self, koid):
        return f"koid {koid}"


class Name:
    """A name of a VMO: its first page, how many pages it has if that is fixed, and what may be done by it."""

    def __init__(self, vmo, kind, may_write, may_resize, first=0, limit=None):
        self.vmo = vmo
        self.kind = kind
        self.may_write = may_write
        self.may_resize = may_resize
        self.first = first
        self.limit = limit

    def size(self):
        """Returns the bytes of what the name stands for."""
        return (self.vmo.count if self.limit is None else self.limit) * PAGE


class Pin:
    """A pin: its VMO, and the pages that it covers."""

    def __init__(self, vmo, pages):
        self.vmo = vmo
        self.pages = pages


class Region:
    """A region: its pages, what it allows, and the regions made in it. A root region has the mappings of its address space."""

    def __init__(self, name, root, pages, rights):
        self.name = name
        self.root = root or self
        self.pages = pages
        self.rights = rights
        self.is_live = True
        self.inner = []
        self.mappings = []

    def live(self):
        """Returns the live regions that were made in this one."""
        return [it for it in self.inner if it.is_live]

    def own_mappings(self):
        """Returns the mappings that were made in this region."""
        return [it for it in self.root.mappings if it.region is self]

    def shown(self, pages):
        """Returns the mappings that show a page of a range."""
        return [it for it in self.root.mappings if meet(it.pages, pages)]

    def shown_at(self, page):
        """Returns the mapping of a page, or None."""
        return next(iter(self.shown(range(page, page + 1))), None)

    def cut(self, pages):
        """Cuts the mappings of the address space at both ends of a range, and returns those in it, in order."""
        for it in self.shown(pages):
            ends = sorted({it.pages.start, it.pages.stop, max(it.pages.start, pages.start), min(it.pages.stop, pages.stop)})
            if len(ends) > 2:
                self.take_out(it)
                for first, end in zip(ends, ends[1:]):
                    self.put_in(it.part(range(first, end)))
        return sorted(self.shown(pages), key=lambda it: it.pages.start)

    def put_in(self, mapping):
        """Puts a mapping in."""
        self.root.mappings.append(mapping)
        mapping.vmo.mappings.add(mapping)

    def take_out(self, mapping):
        """Takes a mapping out, and returns its VMO."""
        self.root.mappings.remove(mapping)
        mapping.vmo.mappings.remove(mapping)
        return mapping.vmo

    def taken_by(self, pages):
        """Returns the live children and the own mappings that have a page of a range, in order."""
        taken = [it for it in [*self.live(), *self.own_mappings()] if meet(it.pages, pages)]
        return sorted(taken, key=lambda it: it.pages.start)

    def is_free(self, pages):
        """Returns whether a range is a free place."""
        return bool(pages) and is_inside(pages, self.pages) and not self.taken_by(pages)

    def first_free(self, count, limit):
        """Returns the lowest page at which so many free pages begin that end at or below the limit, or None."""
        ends = [self.pages.start, *(it.pages.stop for it in [*self.live(), *self.own_mappings()])]
        return next((it for it in sorted(ends) if it + count <= limit and self.is_free(range(it, it + count))), None)


class Mapping:
    """Pages of an address space that show pages of a VMO, each the one so many pages ahead: what may be done, the region, and
    what each page is ready for, if it is ready."""

    def __init__(self, pages, vmo, ahead, rights, cap, region):
        self.pages = pages
        self.vmo = vmo
        self.ahead = ahead
        self.rights = rights
        self.cap = cap
        self.region = region
        self.ready = {}

    def part(self, pages):
        """Returns a part of the mapping by itself."""
        it = Mapping(pages, self.vmo, self.ahead, self.rights, self.cap, self.region)
        it.ready = {page: ready for page, ready in self.ready.items() if page in pages}
        return it
