#!/usr/bin/env python3
"""A kernel with a planted bug that stands in for one that is hunted. It answers lines as `vmosim run` does, by the model in Python, of
which one thing is changed.

usage: tools/hunting/stand_ins.py NAME [--frames N]    answers the lines of the standard input
       tools/hunting/stand_ins.py --list               prints the names

Exit status: 0 the input was read to its end, 2 a wrong word.
"""
import os
import re
import sys
import time

sys.dont_write_bytecode = True
sys.path.insert(0, os.path.dirname(os.path.dirname(os.path.realpath(__file__))))

from machine_model import PAGE, Machine, Refusal
from machine_model.limits import pages_in
from machine_model.objects import Name
from machine_model.regions import READY_TO_READ, address_of

LONG = 3600


class MergeLosesPage(Machine):
    """When a VMO leaves, its first child loses the last page that it shares with it."""

    def prune(self, *vmos):
        heirs = {it: next((child for child in self.vmos if child.parent is it), None) for it in vmos}
        shared = {it: [page for page in child.pages if not child.is_sole(page)] for it, child in heirs.items() if child}
        super().prune(*vmos)
        for it, pages in shared.items():
            if it not in self.vmos and pages:
                self.give_up(heirs[it], max(pages))


class SnapshotPastEnd(Machine):
    """A snapshot of a slice shows the pages of the VMO past the end of the slice."""

    def snapshot(self, parent, of, offset, size, resizable, no_write):
        wide = Name(of.vmo, of.kind, of.may_write, of.may_resize, of.first, of.limit and of.vmo.count - of.first)
        return super().snapshot(parent, wide, offset, size, resizable, no_write)


class StaleAfterFork(Machine):
    """A snapshot leaves the translations of shared pages ready for writing."""

    def snapshot(self, parent, of, *arguments):
        before = {it: dict(it.ready) for it in of.vmo.mappings}
        name = super().snapshot(parent, of, *arguments)
        for it, ready in before.items():
            it.ready = ready
        return name


class UnpinForgetsOthers(Machine):
    """An unpin lets pages go that another pin covers as well."""

    def vmo_unpin(self, pin):
        it = self.pins.get(pin)
        super().vmo_unpin(pin)
        for other in list(self.pins.values()):
            if other.vmo is it.vmo and set(other.pages) & set(it.pages):
                for page in other.pages:
                    other.vmo.pages[page].number = None
                other.pages = range(0)


class GapAtLimit(Machine):
    """A gap that ends exactly at the limit that was asked for is not found."""

    def place(self, region, offset, count, flags):
        limit = region.pages.start + offset // PAGE
        if "upper_limit" in flags and region.first_free(count, limit) == limit - count:
            raise Refusal("NO_RESOURCES", "", 1)
        return super().place(region, offset, count, flags)


class FaultTooMany(Machine):
    """A page that is read as zeros takes a fault each time."""

    def mem_read(self, region, address, length):
        said = super().mem_read(region, address, length)
        for vmo in self.vmos:
            for it in vmo.mappings:
                it.ready = {page: ready for page, ready in it.ready.items() if page + it.ahead in vmo.pages}
        return said


class ChargedToYoungest(Machine):
    """A frame is charged to the VMO with the greatest koid of those that show it."""

    def vmo_info(self, name):
        said = super().vmo_info(name)
        vmo = self.names[name].vmo
        return re.sub(r"charged=\d+", f"charged={sum(max(it.koids) == vmo.koid for it in vmo.pages.values())}", said)


class DecommitsPinned(Machine):
    """A decommit of pinned pages is done, and leaves them out."""

    def vmo_decommit(self, name, offset, length):
        try:
            super().vmo_decommit(name, offset, length)
        except Refusal as refusal:
            if refusal.name != "BAD_STATE":
                raise


class ZeroRoundsUp(Machine):
    """Zeroing a part of a page zeroes the rest of the page as well."""

    def vmo_zero(self, name, offset, length):
        it = self.names.get(name)
        to_end = -(offset + length) % PAGE
        fits = it and offset + length + to_end <= it.size()
        super().vmo_zero(name, offset, length + to_end if fits and length else length)


class ShrinkKeepsBytes(Machine):
    """A VMO that shrinks and grows again shows its old bytes."""

    def __init__(self, frames):
        super().__init__(frames)
        self.old = {}

    def vmo_set_size(self, name, size):
        vmo = self.names[name].vmo if name in self.names else None
        before = {page: bytes(it.data) for page, it in vmo.pages.items()} if vmo else {}
        super().vmo_set_size(name, size)
        self.old.setdefault(vmo, {}).update({page: it for page, it in before.items() if page >= vmo.count})
        for page in [it for it in self.old[vmo] if it < vmo.count]:
            self.own(vmo, page).data[:] = self.old[vmo].pop(page)


class SliceOfSlice(Machine):
    """A slice of a slice begins as far into the VMO as it should into the slice."""

    def slice(self, *arguments):
        name = super().slice(*arguments)
        name.first -= arguments[1].first
        return name


class FillsReadOnly(Machine):
    """A fill does not ask whether the name may write."""

    def vmo_fill(self, name, offset, length, byte):
        it = self.names.get(name)
        may_write = it and it.may_write
        try:
            if it:
                it.may_write = True
            super().vmo_fill(name, offset, length, byte)
        finally:
            if it:
                it.may_write = may_write


class CommitLeavesStale(Machine):
    """A commit does not take back the translations of zero pages."""

    def vmo_commit(self, name, offset, length):
        before = {it: dict(it.ready) for vmo in self.vmos for it in vmo.mappings}
        super().vmo_commit(name, offset, length)
        for it, ready in before.items():
            it.ready = ready


class OverwriteLeavesStale(Machine):
    """What is mapped over another mapping takes over the translations of that."""

    def vmar_map(self, region, offset, name, vmo_offset, length, rights, flags):
        of = self.regions.get(region)
        before = {page for it in of.root.mappings for page in it.ready} if of and "specific_overwrite" in flags else set()
        said = super().vmar_map(region, offset, name, vmo_offset, length, rights, flags)
        first = int(said, 16) // PAGE
        pages = range(first, first + pages_in(length))
        of.shown_at(first).ready.update(dict.fromkeys(before & set(pages), READY_TO_READ))
        return said


class ProtectForgetsCap(Machine):
    """A change of permissions lets a mapping be written that came from a name that may not write."""

    def vmar_protect(self, region, address, length, rights):
        for it in self.regions[region].root.mappings if region in self.regions else ():
            it.cap = it.region.rights
        super().vmar_protect(region, address, length, rights)


class DestroyOneLevel(Machine):
    """A region that is destroyed leaves the regions below its children live."""

    @staticmethod
    def end_region(region):
        gone = []
        for it in [region, *region.live()]:
            it.is_live = False
            gone += [it.take_out(mapping) for mapping in it.own_mappings()]
        return gone


class UnmapCutsChild(Machine):
    """An unmap of a range that cuts a live child is done."""

    def vmar_unmap(self, region, address, length):
        try:
            super().vmar_unmap(region, address, length)
        except Refusal as refusal:
            if "the range cuts it" not in refusal.why:
                raise


class LastFrameKept(Machine):
    """The last free frame is never given."""

    def lacks(self, pages):
        self.used += 1
        try:
            return super().lacks(pages)
        finally:
            self.used -= 1


class FillHalfDone(Machine):
    """A fill that takes too many frames fills as many pages as there are frames, and is refused then."""

    def vmo_fill(self, name, offset, length, byte):
        try:
            super().vmo_fill(name, offset, length, byte)
        except Refusal as refusal:
            if refusal.name == "NO_MEMORY" and length > PAGE:
                self.vmo_fill(name, offset, length - PAGE, byte)
            raise


class CopyNeedsTwo(Machine):
    """A page that is shared is copied only if two frames are free."""

    def lacks(self, pages):
        pages = list(pages)
        more = self.used < self.frames and any(page in vmo.pages and not vmo.is_sole(page) for vmo, page in pages)
        self.used += more
        try:
            return super().lacks(pages)
        finally:
            self.used -= more


class CommitCountsHeld(Machine):
    """A commit needs a free frame for each page of its range, also for those that it has."""

    def vmo_commit(self, name, offset, length):
        it = self.names.get(name)
        if it and it.may_write and offset + length <= it.size() and pages_in(length) > self.frames - self.used:
            raise Refusal("NO_MEMORY", "", 1)
        super().vmo_commit(name, offset, length)


class PinLeavesShared(Machine):
    """A pin of a page that is shared with a snapshot does not copy it."""

    def own(self, vmo, page):
        if self.is_pinned(vmo, page) and page in vmo.pages:
            return vmo.pages[page]
        return super().own(vmo, page)


class ReferenceResizes(Machine):
    """A reference may change the size, whatever its flags."""

    def reference(self, *arguments):
        name = super().reference(*arguments)
        name.may_resize = name.vmo.resizable
        return name


class RefusedUsesKoid(Machine):
    """A VMO that is refused since its name is open uses a koid."""

    def vmo_create(self, name, size, flags):
        self.next += name in self.names
        super().vmo_create(name, size, flags)


class RunsNotJoined(Machine):
    """Mappings of the same region side by side are listed one by one, though they show one page after another."""

    def maps(self, region):
        of = self.live_region(region)
        shown = of.cut(of.pages)
        lines = [f"+ {address_of(it.pages.start)} {len(it.pages) * PAGE} {''.join(sorted(it.rights)) or 'none'} vmo={it.vmo.koid} "
                 f"offset={(it.pages.start + it.ahead) * PAGE} region={it.region.name}" for it in shown]
        return "\n".join([str(len(shown)), *lines])


class ParentIsLost(Machine):
    """The children of a VMO that leaves have no parent then."""

    def prune(self, *vmos):
        parents = {it: it.parent for it in self.vmos if it.parent in vmos}
        super().prune(*vmos)
        for it, parent in parents.items():
            if parent not in self.vmos:
                it.parent = None


class LeavesMapped(Machine):
    """A VMO leaves with its last name, though it is mapped: what shows it shows zeros."""

    def vmo_close(self, name):
        vmo = self.names[name].vmo if name in self.names else None
        super().vmo_close(name)
        if vmo in self.vmos and not any(it.vmo is vmo for it in [*self.names.values(), *self.pins.values()]):
            for page in list(vmo.pages):
                self.give_up(vmo, page)


class SnapshotSharesPinned(Machine):
    """A snapshot shares the frames of pinned pages."""

    def snapshot(self, *arguments):
        pins, self.pins = self.pins, {}
        try:
            return super().snapshot(*arguments)
        finally:
            self.pins = pins


class WriteReachesSnapshot(Machine):
    """A write of more than one page to a VMO with a snapshot is seen by the snapshot in the second page."""

    def put(self, vmo, offset, written):
        second = offset // PAGE + 1
        if offset + len(written) <= second * PAGE or second not in vmo.pages:
            return super().put(vmo, offset, written)
        frame = vmo.pages[second]
        super().put(vmo, offset, written)
        frame.data[:] = vmo.pages[second].data
        return None


class Hangs(Machine):
    """It hangs at the second pin."""

    def vmo_pin(self, pin, name, offset, length):
        said = super().vmo_pin(pin, name, offset, length)
        if len(self.pins) == 2:
            time.sleep(LONG)
        return said


class Dies(Machine):
    """It dies of a slice of a slice."""

    def slice(self, *arguments):
        name = super().slice(*arguments)
        if arguments[1].kind == "slice":
            sys.exit(7)
        return name


# The bugs, each with the theme of lines and the frames that it is hunted with, and a stand-in without one.
STAND_INS = {
    "sound": (Machine, "all", 1024),
    "a-merge-loses-a-page": (MergeLosesPage, "clones", 1024),
    "a-snapshot-shows-pages-past-the-end": (SnapshotPastEnd, "clones", 1024),
    "a-snapshot-shares-pinned-pages": (SnapshotSharesPinned, "pins", 1024),
    "a-slice-of-a-slice-begins-too-early": (SliceOfSlice, "clones", 1024),
    "a-reference-changes-the-size": (ReferenceResizes, "clones", 1024),
    "a-parent-is-lost": (ParentIsLost, "clones", 1024),
    "a-charge-to-the-wrong-koid": (ChargedToYoungest, "clones", 1024),
    "a-refused-name-uses-a-koid": (RefusedUsesKoid, "clones", 1024),
    "a-zero-takes-the-rest-of-a-page": (ZeroRoundsUp, "clones", 1024),
    "a-shrink-keeps-bytes": (ShrinkKeepsBytes, "clones", 1024),
    "a-fill-of-a-name-that-may-not-write": (FillsReadOnly, "clones", 1024),
    "a-fill-is-half-done": (FillHalfDone, "clones", 4),
    "a-write-reaches-a-snapshot": (WriteReachesSnapshot, "clones", 1024),
    "the-last-frame-is-kept": (LastFrameKept, "clones", 4),
    "a-copy-needs-two-frames": (CopyNeedsTwo, "clones", 1024),
    "a-commit-counts-what-it-has": (CommitCountsHeld, "clones", 1024),
    "a-pin-lets-its-frame-go": (UnpinForgetsOthers, "pins", 1024),
    "a-pin-leaves-a-page-shared": (PinLeavesShared, "pins", 1024),
    "a-decommit-of-a-pinned-page": (DecommitsPinned, "pins", 1024),
    "a-stale-translation-after-a-fork": (StaleAfterFork, "spaces", 1024),
    "a-stale-translation-after-a-commit": (CommitLeavesStale, "spaces", 1024),
    "a-stale-translation-after-an-overwrite": (OverwriteLeavesStale, "spaces", 1024),
    "a-fault-too-many": (FaultTooMany, "spaces", 1024),
    "a-gap-is-not-found": (GapAtLimit, "spaces", 1024),
    "a-protect-passes-the-cap": (ProtectForgetsCap, "spaces", 1024),
    "a-destroy-of-one-level": (DestroyOneLevel, "spaces", 1024),
    "an-unmap-cuts-a-child": (UnmapCutsChild, "spaces", 1024),
    "a-mapped-vmo-leaves": (LeavesMapped, "spaces", 1024),
    "runs-are-not-joined": (RunsNotJoined, "spaces", 1024),
    "it-hangs": (Hangs, "pins", 1024),
    "it-dies": (Dies, "all", 1024),
}


def main(words):
    if words == ["--list"]:
        print(*STAND_INS, sep="\n")
        return 0
    name, *options = words or [""]
    frames = options[1] if options[:1] == ["--frames"] and len(options) == 2 else "" if options else "1024"
    if name not in STAND_INS or not re.fullmatch("[0-9]{1,5}", frames):
        print(__doc__.strip(), file=sys.stderr)
        return 2
    machine = STAND_INS[name][0](int(frames))
    for line in sys.stdin:
        for reply in machine.answer(line.removesuffix("\n")):
            print(reply)
        sys.stdout.flush()
    return 0


if __name__ == "__main__":
    sys.exit(main(sys.argv[1:]))
