"""The plain machine: a VMO is a map of its pages, and a snapshot copies the map."""
import itertools
import re

from .answering import Answering, counted, misplaced
from .limits import MOST_PAGES, MOST_PINNED, MOST_READ, PAGE, len_of, meet, pages_in, touched
from .objects import Frame, FramePool, Labels, Name, Pin, Vmo
from .regions import READY_TO_READ, RegionCommands

MOST_BYTES = MOST_PAGES * PAGE
# How many VMOs and runs of pages a reason names.
MOST_SHOWN = 3


def past_most(what, size):
    """Says that a size passes that of the largest VMO, if it does."""
    return size > MOST_BYTES and f"{what} = {size}, a VMO has at most {MOST_BYTES} bytes"


def past_end(name, offset, length):
    """Says that a range passes the end of a name, if it does."""
    return offset + length > name.size() and f"OFFSET + LEN = {offset + length}, the name has {name.size()} bytes"


class Machine(RegionCommands, Answering):
    """A machine with so many frames."""

    def __init__(self, frames):
        super().__init__()
        self.frames = frames
        self.pool = FramePool()
        self.used = 0
        # How many frames were ever taken and given back.
        self.taken = 0
        self.given = 0
        self.next = 1
        self.vmos = []
        self.names = {}
        self.pins = {}
        self.regions = {}

    # ---- what a VMO is made of

    def new_vmo(self, count, resizable, parent=None):
        """Adds a VMO."""
        self.vmos.append(Vmo(self.next, count, resizable, parent))
        self.next += 1
        return self.vmos[-1]

    @staticmethod
    def reset(vmo, page):
        """Makes what shows a page not ready."""
        for it in vmo.mappings:
            it.ready.pop(page - it.ahead, None)

    def give_up(self, vmo, page):
        """Makes a page zero."""
        frame = vmo.pages.pop(page, None)
        if frame:
            frame.koids.remove(vmo.koid)
            if not frame.koids:
                self.used -= 1
                self.given += 1
                self.pool.give_back(frame)
            self.reset(vmo, page)

    def own(self, vmo, page):
        """Returns the frame of a page, which no other VMO shows then."""
        if not vmo.is_sole(page):
            shown = vmo.pages[page].data if page in vmo.pages else bytes(PAGE)
            self.give_up(vmo, page)
            self.used += 1
            self.taken += 1
            vmo.pages[page] = Frame(shown, vmo.koid, self.pool)
            self.reset(vmo, page)
        return vmo.pages[page]

    @staticmethod
    def wanting(pages):
        """Yields those of the pages, each of a VMO, that take a frame if they are owned one after another."""
        owned, left = set(), {}
        for vmo, page in pages:
            frame = vmo.pages.get(page)
            if (vmo, page) in owned or frame and len(frame.koids) - left.get(frame, 0) == 1:
                continue
            owned.add((vmo, page))
            left[frame] = left.get(frame, 0) + 1
            yield vmo, page

    def lacks(self, pages):
        """Returns whether owning the pages, each of a VMO, one after another takes more frames than are free."""
        return next(itertools.islice(self.wanting(pages), self.frames - self.used, None), None) is not None

    def free_words(self):
        """Says how many frames are free."""
        free = self.frames - self.used
        return f"{free or 'none'} {'is' if free < 2 else 'are'} free"

    def labels(self):
        """Returns what all VMOs are called."""
        return Labels((name, it.vmo) for name, it in self.names.items())

    def label(self, koid):
        """Returns what a VMO is called: its first name, or its koid."""
        return Labels((name, it.vmo) for name, it in self.names.items() if it.vmo.koid == koid)[koid]

    def want_of(self, vmo, page):
        """Says why owning a page takes a frame; or nothing, if no other VMO shows the one that it has."""
        frame = vmo.pages.get(page)
        if frame is None:
            return f"of {self.label(vmo.koid)} is zero"
        others = sorted(frame.koids - {vmo.koid})
        return f"of {self.label(vmo.koid)} is shared with {', '.join(map(self.label, others[:MOST_SHOWN]))}" if others else ""

    def needs_words(self, need, wants):
        """Says how many frames a command needs, and which pages want them. They come as ranges of pages, each with why."""
        runs = []
        for pages, why in wants:
            if runs and runs[-1][1] == why and runs[-1][0].stop == pages.start:
                runs[-1] = range(runs[-1][0].start, pages.stop), why
            elif why and len(runs) <= MOST_SHOWN:
                runs.append((pages, why))
        said = [f"page {it.start} {why}" if len_of(it) == 1 else f"pages {it.start} to {it.stop - 1} {why.replace(' is ', ' are ')}" for it, why in runs[:MOST_SHOWN]]
        return f"it needs {counted(need, 'frame')}, {self.free_words()}: {', '.join(said)}{', ..' * (len(runs) > MOST_SHOWN)}"

    def wants_of(self, vmo, pages):
        """Yields pages, each range of them with why owning it takes a frame. The pages are a range or a list in order."""
        if not isinstance(pages, range):
            pages = iter(range(it, it + 1) for it in pages)
        else:
            ends = sorted({pages.start, pages.stop, *(end for it in vmo.held(pages) for end in (it, it + 1))})
            pages = (range(first, end) for first, end in zip(ends, ends[1:]))
        for it in pages:
            yield it, self.want_of(vmo, it.start)

    def lacks_words(self, vmo, pages):
        """Says that owning pages of a VMO takes too many frames, if it does. The pages are a range or a list in order."""
        if not self.lacks((vmo, it) for it in pages):
            return ""
        count = len_of(pages) if isinstance(pages, range) else len(pages)
        return self.needs_words(count - sum(it in pages and vmo.is_sole(it) for it in vmo.pages), self.wants_of(vmo, pages))

    def put(self, vmo, offset, written):
        """Writes bytes to pages, which it owns."""
        for page in touched(offset, len(written)):
            start, end = max(offset, page * PAGE), min(offset + len(written), (page + 1) * PAGE)
            self.own(vmo, page).data[start - page * PAGE : end - page * PAGE] = written[start - offset : end - offset]

    def is_pinned(self, vmo, page):
        """Returns whether a pin covers a page."""
        return any(it.vmo is vmo and page in it.pages for it in self.pins.values())

    def prune(self, *vmos):
        """Lets the VMOs go that nothing keeps."""
        kept = {it.vmo for it in [*self.names.values(), *self.pins.values()]}
        for vmo in set(vmos):
            if vmo in kept or vmo.mappings:
                continue
            for page in sorted(vmo.pages):
                self.give_up(vmo, page)
            self.vmos.remove(vmo)
            for other in self.vmos:
                if other.parent is vmo:
                    other.parent = vmo.parent

    # ---- commands on VMOs

    def name(self, name):
        """Returns what an open name stands for."""
        self.refuse(("BAD_HANDLE", name not in self.names and f"{name} is not open"))
        return self.names[name]

    def new_name_row(self, name):
        """Returns the row that refuses a name that is open."""
        return "NAME_IN_USE", name in self.names and f"{name} is open"

    def write_row(self, name):
        """Returns the row that refuses a name that may not write."""
        return "ACCESS_DENIED", not self.names[name].may_write and f"{name} may not write"

    def vmo_create(self, name, size, flags):
        """Makes a VMO."""
        rounded = pages_in(size) * PAGE
        self.refuse(self.new_name_row(name), ("OUT_OF_RANGE", past_most("SIZE, rounded up to whole pages,", rounded)))
        self.may_lack_host_memory()
        can_resize = "resizable" in flags
        self.names[name] = Name(self.new_vmo(pages_in(size), can_resize), "owner", True, can_resize)

    def vmo_create_child(self, name, parent, kind, offset, size, flags):
        """Makes a child of a VMO."""
        of = self.name(parent)
        self.refuse(self.new_name_row(name))
        self.names[name] = getattr(self, kind)(parent, of, offset, size, "resizable" in flags, "no_write" in flags)

    def snapshot(self, parent, of, offset, size, resizable, no_write):
        """Returns the name of a new snapshot."""
        first, count = of.first + offset // PAGE, pages_in(size)
        seen = range(first, min(first + count, of.first + of.size() // PAGE))
        pinned = [it for it in of.vmo.held(seen) if self.is_pinned(of.vmo, it)]
        both = resizable and no_write and "resizable and no_write are both given"
        lacks = len(pinned) > self.frames - self.used
        self.refuse(
            ("INVALID_ARGS", misplaced(OFFSET=offset) or both),
            ("OUT_OF_RANGE", past_most("OFFSET + SIZE, rounded up to whole pages,", (offset // PAGE + count) * PAGE)),
            ("NO_MEMORY", lacks and self.needs_words(len(pinned), ((range(it, it + 1), f"of {parent} is pinned") for it in pinned))),
        )
        self.may_lack_host_memory()
        child = self.new_vmo(count, resizable, of.vmo)
        for page in of.vmo.held(seen):
            frame = of.vmo.pages[page]
            child.pages[page - first] = frame
            frame.koids.add(child.koid)
            if page in pinned:
                self.own(child, page - first)
        for it in of.vmo.mappings:
            seen_here = [page for page in it.ready if page + it.ahead in seen and page + it.ahead not in pinned]
            it.ready.update(dict.fromkeys(seen_here, READY_TO_READ))
        return Name(child, "owner", not no_write, resizable)

    def slice(self, parent, of, offset, size, resizable, no_write):
        """Returns the name of a new slice."""
        limit = pages_in(size)
        end = offset + limit * PAGE
        self.refuse(
            ("INVALID_ARGS", misplaced(OFFSET=offset) or resizable and "a slice takes no resizable"),
            ("INVALID_ARGS", end > of.size() and f"OFFSET + SIZE, rounded up to whole pages, = {end}, {parent} has {of.size()} bytes"),
            ("NOT_SUPPORTED", of.vmo.resizable and f"the VMO of {parent} may change its size"),
        )
        self.may_lack_host_memory()
        return Name(of.vmo, "slice", of.may_write and not no_write, False, of.first + offset // PAGE, limit)

    def reference(self, parent, of, offset, size, resizable, no_write):
        """Returns the name of a new reference."""
        place = next((f"{name} = {it} is not 0" for name, it in (("OFFSET", offset), ("SIZE", size)) if it), "")
        both = resizable and no_write and "resizable and no_write are both given"
        fixed = resizable and not of.may_resize
        self.refuse(
            ("INVALID_ARGS", place or both),
            ("INVALID_ARGS", fixed and f"resizable is given, {parent} may not change the size"),
            ("NOT_SUPPORTED", of.kind == "slice" and f"{parent} is a slice"),
        )
        self.may_lack_host_memory()
        return Name(of.vmo, "reference", of.may_write and not no_write, resizable)

    def vmo_close(self, name):
        """Closes a name."""
        it = self.name(name)
        del self.names[name]
        self.prune(it.vmo)

    def vmo_size(self, name):
        """Returns the size of a name."""
        return self.name(name).size()

    def vmo_set_size(self, name, size):
        """Changes the size of a VMO."""
        it, count = self.name(name), pages_in(size)
        last = max((pin.pages.stop - 1 for pin in self.pins.values() if pin.vmo is it.vmo), default=-1)
        self.refuse(
            self.write_row(name),
            ("UNAVAILABLE", not it.may_resize and f"{name} may not change the size"),
            ("OUT_OF_RANGE", past_most("SIZE, rounded up to whole pages,", count * PAGE)),
            ("BAD_STATE", last >= count and f"page {last} is pinned, the VMO would have {counted(count, 'page')}"),
        )
        it.vmo.count = count
        for page in sorted(page for page in it.vmo.pages if page >= count):
            self.give_up(it.vmo, page)
        for mapping in it.vmo.mappings:
            mapping.ready = {page: ready for page, ready in mapping.ready.items() if page + mapping.ahead < count}

    def vmo_read(self, name, offset, length):
        """Returns bytes of a name."""
        it = self.name(name)
        self.refuse(
            ("INVALID_ARGS", length > MOST_READ and f"LEN = {length}, one read has at most {MOST_READ} bytes"),
            ("OUT_OF_RANGE", past_end(it, offset, length)),
        )
        start = it.first * PAGE + offset
        shown = b"".join(it.vmo.pages[page].data if page in it.vmo.pages else bytes(PAGE) for page in touched(start, length))
        return shown[start % PAGE : start % PAGE + length].hex() or "-"

    def to_change(self, name, offset, length):
        """Returns the VMO of a name, and where in it a range of the name begins that is to be changed."""
        it = self.name(name)
        self.refuse(self.write_row(name), ("OUT_OF_RANGE", past_end(it, offset, length)))
        return it.vmo, it.first * PAGE + offset

    def to_own(self, name, offset, length):
        """Returns the same of a range whose pages are to be owned."""
        vmo, start = self.to_change(name, offset, length)
        pages = touched(start, length)
        self.refuse(("NO_MEMORY", self.lacks_words(vmo, pages)))
        self.may_lack_host_memory(not all(vmo.is_sole(it) for it in pages))
        return vmo, start

    def vmo_write(self, name, offset, written):
        """Writes bytes by a name."""
        vmo, start = self.to_own(name, offset, len(written))
        self.put(vmo, start, written)

    def vmo_fill(self, name, offset, length, byte):
        """Writes one byte to a range."""
        vmo, start = self.to_own(name, offset, length)
        self.put(vmo, start, bytes([byte]) * length)

    def vmo_commit(self, name, offset, length):
        """Owns the pages of a range."""
        vmo, start = self.to_own(name, offset, length)
        for page in touched(start, length):
            self.own(vmo, page)

    def vmo_zero(self, name, offset, length):
        """Makes the bytes of a range zeros."""
        vmo, start = self.to_change(name, offset, length)
        held = vmo.held(touched(start, length))
        gone = [it for it in held if start <= it * PAGE and (it + 1) * PAGE <= start + length and not self.is_pinned(vmo, it)]
        kept = [it for it in held if it not in gone]
        self.refuse(("NO_MEMORY", self.lacks_words(vmo, kept)))
        self.may_lack_host_memory(held)
        for page in gone:
            self.give_up(vmo, page)
        for page in kept:
            begin = max(start, page * PAGE)
            self.put(vmo, begin, bytes(min(start + length, (page + 1) * PAGE) - begin))

    def family_of(self, vmo):
        """Says why the pages of a VMO may not be decommitted, if they may not."""
        child = next((it for it in self.vmos if it.parent is vmo), None)
        other = next((name for name, it in self.names.items() if it.vmo is vmo and it.kind == "reference"), None)
        return (vmo.is_snapshot and "the VMO is a snapshot" or child and f"the VMO with koid {child.koid} has it as parent"
                or other and f"the reference {other} is open")

    def vmo_decommit(self, name, offset, length):
        """Makes the pages of a range zero."""
        it = self.name(name)
        vmo, pages = it.vmo, touched(it.first * PAGE + offset, length)
        pinned = [pin for pin, its in self.pins.items() if its.vmo is vmo and pages and meet(its.pages, pages)]
        self.refuse(
            self.write_row(name),
            ("INVALID_ARGS", misplaced(OFFSET=offset, LEN=length)),
            ("NOT_SUPPORTED", self.family_of(vmo)),
            ("OUT_OF_RANGE", past_end(it, offset, length)),
            ("BAD_STATE", pinned and f"{pinned[0]} pins a page of the range"),
        )
        self.may_lack_host_memory(vmo.held(pages))
        for page in vmo.held(pages):
            self.give_up(vmo, page)

    def vmo_pin(self, pin, name, offset, length):
        """Pins the pages of a range, and returns their frames."""
        it = self.name(name)
        vmo, pages = it.vmo, touched(it.first * PAGE + offset, length)
        most = MOST_PINNED * PAGE
        bounds = not length and "LEN = 0" or length > most and f"LEN = {length}, a pin covers at most {most} bytes"
        self.refuse(
            ("NAME_IN_USE", pin in self.pins and f"the pin {pin} is there"),
            ("INVALID_ARGS", misplaced(OFFSET=offset, LEN=length) or bounds),
            ("OUT_OF_RANGE", past_end(it, offset, length)),
            ("NO_MEMORY", self.lacks_words(vmo, pages)),
        )
        self.may_lack_host_memory()
        told = self.numbers_told(vmo, pages)
        self.pins[pin] = Pin(vmo, pages)
        frames = [self.own(vmo, page) for page in pages]
        for frame, number in zip(frames, told):
            self.pool.renumber(frame, number)
        for it in frames:
            it.number = it.slot
        return " ".join(str(it.slot) for it in frames)

    def numbers_told(self, vmo, pages):
        """Returns the numbers of the frames of pages that are to be pinned as the reply has them, or none if they may not be these:
        a pinned page keeps its own, and each other one has a number that no pinned page has."""
        if not re.fullmatch("OK( (0|[1-9][0-9]{0,9}))+", self.told):
            return []
        told = [int(it) for it in self.told.split()[1:]]
        if len(told) != len(pages):
            return []
        taken = {it.vmo.pages[page].number for it in self.pins.values() for page in it.pages}
        for page, number in zip(pages, told):
            is_pinned = self.is_pinned(vmo, page)
            if is_pinned and vmo.pages[page].number != number or not is_pinned and (number in taken or number >= self.frames):
                return []
            taken.add(number)
        return told

    def vmo_unpin(self, pin):
        """Lets pinned pages go."""
        self.refuse(("BAD_HANDLE", pin not in self.pins and f"the pin {pin} is not there"))
        it = self.pins.pop(pin)
        for page in it.pages:
            if not self.is_pinned(it.vmo, page):
                it.vmo.pages[page].number = None
        self.prune(it.vmo)

    def vmo_info(self, name):
        """Returns what a VMO holds."""
        it = self.name(name)
        vmo = it.vmo
        sole = sum(vmo.is_sole(page) for page in vmo.pages)
        charged = sum(min(frame.koids) == vmo.koid for frame in vmo.pages.values())
        inner = sum(other.parent is vmo for other in self.vmos)
        inner += sum(other.vmo is vmo and other.kind != "owner" for other in self.names.values())
        return (f"koid={vmo.koid} size={it.size()} held={len(vmo.pages)} private={sole} shared={len(vmo.pages) - sole} "
                f"charged={charged} children={inner}")

    def stat(self):
        """Returns how many frames and VMOs there are."""
        return f"frames={self.frames} used={self.used} free={self.frames - self.used} vmos={len(self.vmos)}"
