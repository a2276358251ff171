"""The commands on regions, and the accesses of threads through their mappings."""
import re

from .answering import misplaced
from .grammar import RIGHTS, spelled
from .limits import MOST_PAGES, MOST_READ, PAGE, ROOT_END, ROOT_FIRST, is_inside, len_of, meet, pages_in, touched
from .objects import Mapping, Region

READY_TO_READ, READY_TO_WRITE = 1, 2
GIVEN_RIGHTS = {"can_read": "r", "can_write": "w", "can_execute": "x"}
DONE = {"r": "read", "w": "written"}


def address_of(page):
    """Returns the address of a page as it is spelled."""
    return f"{page * PAGE:#x}"


def none_first(length):
    """Says that a length is 0, if it is."""
    return "" if length else "LEN = 0"


def beyond_words(region, rights, what="PERM is"):
    """Says that rights are more than a region allows, if they are."""
    return not rights <= region.rights and f"{what} {spelled(rights)}, {region.name} allows {spelled(region.rights)}"


def unreadable_words(rights):
    """Says that rights have no reading beside others, if so."""
    return rights and "r" not in rights and f"PERM is {spelled(rights)}, without reading"


def place_words(ways, offset):
    """Says what is wrong with how a place is asked for, in two rows."""
    several = len(ways) > 1 and f"{' and '.join(sorted(ways))} are given together"
    return several, not ways and offset and f"OFFSET = {offset} is not 0, and no flag says what it is for"


def outside_words(region, offset, count):
    """Says that pages at an offset pass the end of a region, if they do."""
    end, size = offset // PAGE + count, len_of(region.pages)
    return end > size and f"OFFSET + SIZE = {end * PAGE}, {region.name} has {size * PAGE} bytes"


def child_words(region, pages, is_wrong):
    """Says which live child of a region stands in the way, if one does."""
    child = next((it for it in region.live() if is_wrong(it.pages)), None)
    return child and f"the live child {child.name} has pages from {address_of(child.pages.start)} to {address_of(child.pages.stop)}"


def taken_words(region, pages):
    """Says what stands in the way of a free place."""
    it = next(iter(region.taken_by(pages)))
    span = f"from {address_of(it.pages.start)} to {address_of(it.pages.stop)}"
    return f"the child {it.name} lies {span}" if isinstance(it, Region) else f"the VMO with koid {it.vmo.koid} is mapped {span}"


def nearest_words(region, page):
    """Says which mapping of a root region is the nearest to a page."""
    near = min(region.mappings, key=lambda it: max(it.pages.start - page, page - it.pages.stop + 1), default=None)
    return f"the nearest mapping is {address_of(near.pages.start)} to {address_of(near.pages.stop)}" if near else f"nothing is mapped in {region.name}"


class RegionCommands:
    """The commands on regions, as a part of a machine."""

    def region(self, name):
        """Returns the region of a name that was given."""
        self.refuse(("BAD_HANDLE", name not in self.regions and f"{name} was never given"))
        return self.regions[name]

    def live_region(self, name):
        """Returns a region that is not destroyed."""
        it = self.region(name)
        self.refuse(self.live_row(it))
        return it

    @staticmethod
    def live_row(region):
        """Returns the row that refuses a region that is destroyed."""
        return "BAD_STATE", not region.is_live and f"{region.name} is destroyed"

    def new_region_row(self, name):
        """Returns the row that refuses a name that was given."""
        return "NAME_IN_USE", name in self.regions and f"{name} was given"

    def root_create(self, name):
        """Makes an address space."""
        self.refuse(self.new_region_row(name))
        self.may_lack_host_memory()
        self.regions[name] = Region(name, None, range(ROOT_FIRST, ROOT_END), RIGHTS["rwx"])

    def place(self, region, offset, count, flags):
        """Returns where so many pages are placed: where the reply that was given has it, if that may be, and else at the lowest
        place."""
        at = region.pages.start + offset // PAGE
        is_fixed, is_limited = "specific" in flags, "upper_limit" in flags
        is_any = not flags & {"specific", "specific_overwrite", "upper_limit"}
        limit = at if is_limited else region.pages.stop
        wanted = range(at, at + count)
        lowest = region.first_free(count, limit) if is_limited or is_any else at
        needs = f"no free place of {count * PAGE} bytes"
        self.refuse(
            ("ALREADY_EXISTS", is_fixed and not region.is_free(wanted) and taken_words(region, wanted)),
            ("NO_RESOURCES", is_limited and lowest is None and f"{needs} ends at or below {address_of(at)}"),
            ("NO_RESOURCES", is_any and lowest is None and f"{region.name} has {needs}"),
        )
        if (is_limited or is_any) and re.fullmatch("OK 0x[1-9a-f][0-9a-f]*", self.told) and int(self.told[5:], 16) % PAGE == 0:
            told = int(self.told[5:], 16) // PAGE
            if told + count <= limit and region.is_free(range(told, told + count)):
                return told
        return lowest

    def vmar_allocate(self, name, parent, offset, length, flags):
        """Makes a region, and returns its address."""
        of = self.region(parent)
        rights = frozenset(right for flag, right in GIVEN_RIGHTS.items() if flag in flags)
        count, ways = pages_in(length), flags & {"specific", "upper_limit"}
        several, unasked = place_words(ways, offset)
        self.refuse(
            self.new_region_row(name),
            self.live_row(of),
            ("ACCESS_DENIED", beyond_words(of, rights, "the flags give")),
            ("INVALID_ARGS", misplaced(OFFSET=offset) or none_first(length)),
            ("INVALID_ARGS", several or unasked),
            ("INVALID_ARGS", "specific" in ways and outside_words(of, offset, count)),
        )
        first = self.place(of, offset, count, ways)
        self.may_lack_host_memory()
        self.regions[name] = Region(name, of.root, range(first, first + count), rights)
        of.inner.append(self.regions[name])
        return address_of(first)

    def mapped_rows(self, it, name, vmo_offset, count, flags):
        """Returns the rows that refuse what is to be mapped of a name."""
        end = vmo_offset + count * PAGE
        past = end > it.size() and f"VMO_OFFSET + SIZE = {end}, {name} has {it.size()} bytes"
        most = MOST_PAGES * PAGE
        return [
            ("OUT_OF_RANGE", end > most and f"VMO_OFFSET + SIZE = {end}, a VMO has at most {most} bytes"),
            ("BUFFER_TOO_SMALL", past and "allow_faults" not in flags and f"{past}, and allow_faults is not given"),
            ("BUFFER_TOO_SMALL", past and it.kind == "slice" and f"{past} and is a slice"),
        ]

    def vmar_map(self, region, offset, name, vmo_offset, length, rights, flags):
        """Maps a part of a name, and returns its address."""
        absent = region not in self.regions and f"{region} was never given" or name not in self.names and f"{name} is not open"
        self.refuse(("BAD_HANDLE", absent))
        of, it = self.regions[region], self.names[name]
        count, ways = pages_in(length), flags & {"specific", "specific_overwrite", "upper_limit"}
        at = of.pages.start + offset // PAGE
        pages = range(at, at + count)
        several, unasked = place_words(ways, offset)
        is_fixed = ways & {"specific", "specific_overwrite"}
        is_over = "specific_overwrite" in ways
        self.refuse(
            self.live_row(of),
            ("ACCESS_DENIED", beyond_words(of, rights)),
            ("ACCESS_DENIED", "w" in rights and not it.may_write and f"PERM is {spelled(rights)}, {name} may not write"),
            ("INVALID_ARGS", misplaced(OFFSET=offset, VMO_OFFSET=vmo_offset) or none_first(length)),
            ("INVALID_ARGS", several),
            ("INVALID_ARGS", unasked),
            ("INVALID_ARGS", is_fixed and outside_words(of, offset, count)),
            ("INVALID_ARGS", is_over and child_words(of, pages, lambda its: meet(its, pages))),
            ("INVALID_ARGS", unreadable_words(rights)),
            *self.mapped_rows(it, name, vmo_offset, count, flags),
        )
        first = self.place(of, offset, count, ways)
        self.may_lack_host_memory()
        pages = range(first, first + count)
        gone = [of.take_out(it) for it in of.cut(pages)]
        cap = of.rights if it.may_write else of.rights - {"w"}
        of.put_in(Mapping(pages, it.vmo, it.first + vmo_offset // PAGE - first, rights, cap, of))
        self.prune(*gone)
        return address_of(first)

    @staticmethod
    def end_region(region):
        """Destroys a region and all below it, and returns the VMOs of the mappings that go."""
        gone, waiting = [], [region]
        while waiting:
            it = waiting.pop()
            waiting += it.live()
            it.is_live = False
            gone += [it.take_out(mapping) for mapping in it.own_mappings()]
        return gone

    @staticmethod
    def range_rows(region, address, length):
        """Returns the pages of a range of addresses, and the rows that refuse one that is not in the region."""
        pages = range(address // PAGE, address // PAGE + pages_in(length))
        misplaced_words = address % PAGE and f"ADDR = {address:#x} is no multiple of {PAGE}"
        span = f"{address_of(region.pages.start)} to {address_of(region.pages.stop)}"
        outside = not is_inside(pages, region.pages) and f"the range ends at {address_of(pages.stop)}, {region.name} has {span}"
        if outside and pages.start < region.pages.start:
            outside = f"the range begins at {address_of(pages.start)}, {region.name} has {span}"
        return pages, [("INVALID_ARGS", misplaced_words or none_first(length)), ("INVALID_ARGS", outside)]

    def vmar_unmap(self, region, address, length):
        """Takes the entries of a range out."""
        of = self.live_region(region)
        pages, rows = self.range_rows(of, address, length)
        cut = child_words(of, pages, lambda its: meet(its, pages) and not is_inside(its, pages))
        self.refuse(*rows, ("INVALID_ARGS", cut and f"{cut}, and the range cuts it"))
        self.may_lack_host_memory(of.shown(pages))
        gone = [of.take_out(it) for it in of.cut(pages)]
        for it in of.live():
            if is_inside(it.pages, pages):
                gone += self.end_region(it)
        self.prune(*gone)

    @staticmethod
    def hole_words(region, pages, shown):
        """Says which page of a range has no entry that belongs to a region, if one has none."""
        page = pages.start
        for it in shown:
            if it.pages.start > page or it.region is not region:
                break
            page = it.pages.stop
        return page < pages.stop and f"{address_of(page)} has no entry that belongs to {region.name}"

    def vmar_protect(self, region, address, length, rights):
        """Changes the permissions of a range."""
        of = self.live_region(region)
        self.refuse(("ACCESS_DENIED", beyond_words(of, rights)))
        pages, rows = self.range_rows(of, address, length)
        self.refuse(*rows)
        shown = of.cut(pages)
        capped = next((it for it in shown if not rights <= it.cap), None)
        self.refuse(
            ("INVALID_ARGS", child_words(of, pages, lambda its: meet(its, pages))),
            ("INVALID_ARGS", unreadable_words(rights)),
            ("NOT_FOUND", self.hole_words(of, pages, shown)),
            ("ACCESS_DENIED", capped and f"PERM is {spelled(rights)}, the cap of {address_of(capped.pages.start)} is {spelled(capped.cap)}"),
        )
        self.may_lack_host_memory()
        for it in shown:
            it.rights = rights
            it.ready = {}

    def vmar_destroy(self, region):
        """Destroys a region and all in it."""
        self.prune(*self.end_region(self.live_region(region)))

    def maps(self, region):
        """Returns the runs of entries in a region."""
        of = self.live_region(region)
        shown = of.cut(of.pages)
        self.may_lack_host_memory(shown)
        runs = []
        for it in shown:
            like = (it.vmo.koid, it.ahead, it.rights, it.region.name)
            if runs and runs[-1][1] == it.pages.start and runs[-1][2] == like:
                runs[-1][1] = it.pages.stop
            else:
                runs.append([it.pages.start, it.pages.stop, like])
        lines = [str(len(runs))]
        for first, end, (koid, ahead, rights, name) in runs:
            lines.append(f"+ {address_of(first)} {(end - first) * PAGE} {spelled(rights)} vmo={koid} "
                         f"offset={(first + ahead) * PAGE} region={name}")
        return "\n".join(lines)

    # ---- accesses

    @staticmethod
    def refused_page(region, page, it, right):
        """Returns why a page refuses an access, by the name of the refusal and in words, or None."""
        if it is None:
            return "NOT_FOUND", f"{address_of(page)} has no entry; {nearest_words(region, page)}"
        if right not in it.rights:
            return "ACCESS_DENIED", f"{address_of(page)} may not be {DONE[right]}, its permissions are {spelled(it.rights)}"
        if page + it.ahead >= it.vmo.count:
            shows = f"{address_of(page)} shows page {page + it.ahead} of the VMO with koid {it.vmo.koid}"
            return "OUT_OF_RANGE", f"{shows}, which has {it.vmo.count}"
        return None

    def accessed(self, region, address, length, right):
        """Returns the pages that an access touches, each with its mapping and the page of the VMO that it shows."""
        inner = region.root is not region and f"{region.name} is no root region"
        long = right == "r" and length > MOST_READ and f"LEN = {length}, one read has at most {MOST_READ} bytes"
        self.refuse(("INVALID_ARGS", inner or long))
        pages = [(page, region.shown_at(page)) for page in touched(address, length)]
        name, why = next(filter(None, (self.refused_page(region, page, it, right) for page, it in pages)), ("", ""))
        self.refuse(*((it, name == it and why) for it in ("NOT_FOUND", "ACCESS_DENIED", "OUT_OF_RANGE")))
        return [(page, it, page + it.ahead) for page, it in pages]

    def lacks_there(self, pages):
        """Says that owning pages, each of a VMO, takes too many frames, if it does."""
        if not self.lacks(pages):
            return ""
        wants = [(range(page, page + 1), self.want_of(vmo, page)) for vmo, page in self.wanting(pages)]
        return self.needs_words(len(wants), wants)

    def mem_read(self, region, address, length):
        """Returns the faults of a read through entries, and the bytes."""
        pages = self.accessed(self.live_region(region), address, length, "r")
        faults = sum(page not in it.ready for page, it, _ in pages)
        self.may_lack_host_memory(faults)
        for page, it, _ in pages:
            it.ready.setdefault(page, READY_TO_READ)
        shown = b"".join(it.vmo.pages[of].data if of in it.vmo.pages else bytes(PAGE) for _, it, of in pages)
        return f"faults={faults} {shown[address % PAGE : address % PAGE + length].hex() or '-'}"

    def mem_write(self, region, address, written):
        """Writes bytes through entries, and returns the faults."""
        pages = self.accessed(self.live_region(region), address, len(written), "w")
        self.refuse(("NO_MEMORY", self.lacks_there([(it.vmo, of) for _, it, of in pages])))
        self.may_lack_host_memory(any(it.ready.get(page) != READY_TO_WRITE for page, it, _ in pages))
        faults, done = 0, 0
        for page, it, of in pages:
            faults += it.ready.get(page) != READY_TO_WRITE
            place = (address + done) % PAGE
            part = written[done : done + PAGE - place]
            self.own(it.vmo, of).data[place : place + len(part)] = part
            it.ready[page] = READY_TO_WRITE
            done += len(part)
        return f"faults={faults}"
