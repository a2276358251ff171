"""What there is behind a line, as JSON: VMOs and their pages, address spaces, pins and jobs."""
import hashlib
import json

from machine_model import PAGE, SourceMachine, spelled
from machine_model.regions import READY_TO_WRITE

from .paged import source_state

DEPTH = 1


def frame_name(frame, page_of):
    """Returns what names a frame: the VMO that is charged for it, and the page of that VMO that shows it."""
    koid = min(frame.koids)
    return f"koid {koid} page {page_of[koid, frame]}"


def places_of(vmos):
    """Returns the page at which each VMO shows each frame."""
    return {(vmo.koid, frame): page for vmo in vmos for page, frame in vmo.pages.items()}


def pages_of(vmo, page_of):
    """Returns the held pages of a VMO, each with its frame, the koids of those that show it, and the koid of that which is
    charged."""
    pages = []
    for page, frame in sorted(vmo.pages.items()):
        it = {"page": page, "frame": frame_name(frame, page_of), "charged": min(frame.koids), "shown_by": sorted(frame.koids)}
        it["sha256"] = hashlib.sha256(frame.data).hexdigest()[:16]
        pages.append(it | ({} if frame.number is None else {"number": frame.number}))
    return pages


def names_by_koid(machine):
    """Returns the names of each VMO in order, by its koid: each with what it stands for and what may be done by it."""
    names = {it.koid: [] for it in machine.vmos}
    for number, it in sorted((int(name[1:]), it) for name, it in machine.names.items()):
        names[it.vmo.koid].append({"name": f"v{number}", "kind": it.kind, "first_page": it.first, "bytes": it.size(), "may_write": it.may_write,
                                   "may_resize": it.may_resize})
    return names


def vmo_state(vmo, names, page_of):
    """Returns what a VMO with these names is."""
    charged = sum(min(frame.koids) == vmo.koid for frame in vmo.pages.values())
    return {"koid": vmo.koid, "parent": vmo.parent.koid if vmo.parent else None, "pages": vmo.count, "resizable": vmo.resizable,
            "names": names, "charged": charged, "held": pages_of(vmo, page_of)}


def pieces_of(root):
    """Returns the pieces of an address space in the order of their addresses, those together that go on with each other."""
    pieces = []
    for it in sorted(root.mappings, key=lambda it: it.pages.start):
        like = (it.vmo, it.ahead, it.rights, it.cap, it.region)
        ready = dict(it.ready)
        if pieces and pieces[-1][0].stop == it.pages.start and pieces[-1][1] == like:
            pieces[-1] = (range(pieces[-1][0].start, it.pages.stop), like, pieces[-1][2] | ready)
        else:
            pieces.append((it.pages, like, ready))
    return pieces


def address(page):
    """Returns the address of a page."""
    return f"{page * PAGE:#x}"


def piece_state(piece):
    """Returns what a piece is, with the pages that are ready."""
    pages, (vmo, ahead, rights, cap, region), ready = piece
    rows = [{"address": address(page), "ready": "rw" if it == READY_TO_WRITE else "r"} for page, it in sorted(ready.items())]
    return {"address": address(pages.start), "bytes": (pages.stop - pages.start) * PAGE, "koid": vmo.koid,
            "page": pages.start + ahead, "permissions": spelled(rights), "cap": spelled(cap), "region": region.name, "ready": rows}


def regions_below(root):
    """Yields a live region and all below it in the order of their addresses, each with its parent and how far down it is."""
    waiting = [(root, None, 0)]
    while waiting:
        region, parent, depth = waiting.pop()
        yield region, parent, depth
        inner = sorted(region.live(), key=lambda it: it.pages.start, reverse=True)
        waiting += [(it, region, depth + 1) for it in inner]


def region_state(region, parent):
    """Returns what a region is."""
    return {"region": region.name, "parent": parent.name if parent else None, "address": address(region.pages.start),
            "bytes": (region.pages.stop - region.pages.start) * PAGE, "allows": spelled(region.rights)}


def roots_of(machine):
    """Returns the live root regions in the order of their names."""
    roots = [it for it in machine.regions.values() if it.root is it and it.is_live]
    return sorted(roots, key=lambda it: int(it.name[1:]))


def space_state(root):
    """Returns what an address space is."""
    regions = [region_state(it, parent) for it, parent, _ in regions_below(root)]
    return {"root": root.name, "regions": regions, "pieces": [piece_state(it) for it in pieces_of(root)]}


def state_of(machine):
    """Returns what there is."""
    page_of, names = places_of(machine.vmos), names_by_koid(machine)
    gone = sorted((it.name for it in machine.regions.values() if not it.is_live), key=lambda it: int(it[1:]))
    pins = [{"pin": f"p{number}", "koid": it.vmo.koid, "page": it.pages.start, "pages": len(it.pages)}
            for number, it in sorted((int(name[1:]), it) for name, it in machine.pins.items())]
    jobs = [{"job": f"j{number}", "command": it.command, "name": it.name, "offset": it.next, "left": (it.end - it.next) // PAGE}
            for number, it in sorted((int(name[1:]), it) for name, it in getattr(machine, "jobs", {}).items())]
    vmos = [vmo_state(it, names[it.koid], page_of) for it in sorted(machine.vmos, key=lambda it: it.koid)]
    return {"frames": machine.frames, "used": machine.used, "next_koid": machine.next, "vmos": vmos, "pins": pins, "jobs": jobs,
            "spaces": [space_state(it) for it in roots_of(machine)], "destroyed_regions": gone}


def is_flat(value):
    """Returns whether a value has no object in it."""
    inner = value.values() if isinstance(value, dict) else value
    return not any(isinstance(it, dict) or isinstance(it, list) and not is_flat(it) for it in inner)


def lines_of(value, indent=0, before=""):
    """Yields a value as lines of JSON, an object or a list without objects in it on one line, with its keys in order."""
    blank = " " * indent
    if not isinstance(value, dict | list) or not value or is_flat(value):
        yield blank + before + json.dumps(value, sort_keys=True)
        return
    is_object = isinstance(value, dict)
    yield blank + before + ("{" if is_object else "[")
    items = sorted(value.items()) if is_object else [(None, it) for it in value]
    for at, (key, it) in enumerate(items, 1):
        *first, last = lines_of(it, indent + DEPTH, f"{json.dumps(key)}: " if is_object else "")
        yield from first
        yield last + ("," if at < len(items) else "")
    yield blank + ("}" if is_object else "]")


def state(turns, _):
    """Yields what there is behind the last turn, as lines of JSON."""
    machine = list(turns)[-1][1]
    yield from lines_of(source_state(machine) if isinstance(machine, SourceMachine) else state_of(machine))
