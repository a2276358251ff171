"""The same of the machine of page sources: its state, and the rows of its picture."""
import hashlib

from .cells import Look, runs_of
from .rows import Label, row_of, text_row, tree_of


def kind_of(vmo, page):
    """Returns what a page is: a held page is clean, changed or own, and any other is absent, zero or shown as the parent has it."""
    if page in vmo.held:
        return ("clean" if vmo.is_clean(page) else "changed") if vmo.backing else "own"
    if vmo.link:
        return "parent" if page < vmo.link.seen else "zero"
    return "absent" if vmo.is_absent(page) else "zero"


def vmo_state(vmo, name, page_of):
    """Returns what a VMO of this name is, which may be None."""
    held = []
    for page, frame in sorted(vmo.held.items()):
        koid = min(frame.koids)
        held.append({"page": page, "frame": f"koid {koid} page {page_of[koid, frame]}", "kind": kind_of(vmo, page),
                     "shown_by": sorted(frame.koids), "sha256": hashlib.sha256(vmo.text[page]).hexdigest()[:16]})
    comes = vmo.backing._asdict() if vmo.backing else {"parent": vmo.link.parent.koid, "base": vmo.link.base, "seen": vmo.link.seen}
    return {"koid": vmo.koid, "names": [name] if name else [], "pages": len(vmo.text), "comes_from": comes, "held": held}


def source_state(machine):
    """Returns what there is."""
    page_of = {(vmo.koid, frame): page for vmo in machine.vmos for page, frame in vmo.held.items()}
    labels = machine.labels()
    return {"frames": machine.frames, "used": machine.used, "next_koid": machine.next,
            "vmos": [vmo_state(it, labels.get(it.koid), page_of) for it in sorted(machine.vmos, key=lambda it: it.koid)]}


def source_marks(machine):
    """Returns what a picture shows, by its places: each held page, and each VMO."""
    marks = {("page", vmo.koid, page): (frame.slot, frame.payer(), len(frame.koids), kind_of(vmo, page))
             for vmo in machine.vmos for page, frame in vmo.held.items()}
    labels = machine.labels()
    return marks | {("vmo", vmo.koid): labels[vmo.koid] for vmo in machine.vmos}


def vmo_row(labels, vmo, depth, change):
    """Returns the row of a VMO."""

    def look_at(page):
        kind, is_new = kind_of(vmo, page), change.is_new("page", vmo.koid, page)
        if page not in vmo.held:
            return Look(kind, hint="no frame", is_new=is_new)
        frame = vmo.held[page]
        payer, others = frame.payer(), len(frame.koids) - 1
        tag = "" if not others else f"+{others}" if payer == vmo.koid else labels[payer]
        return Look("held", payer, tag, kind, f"{kind}, {labels[payer]} pays", is_new=is_new)

    seen = vmo.backing.seen if vmo.backing else vmo.link.seen
    marked = {*vmo.held, seen, *change.changed_pages(vmo.koid)}
    cells = runs_of(range(len(vmo.text)), sorted(marked), look_at)
    comes = f"source {vmo.backing.kind}, seed {vmo.backing.seed}" if vmo.backing else f"child of {labels[vmo.link.parent.koid]}"
    label = Label(depth, vmo.koid, labels[vmo.koid], f"{comes}, {len(vmo.held):,} held",
                  change.is_new("vmo", vmo.koid))
    return row_of(cells, label, lambda cell: tuple(vmo.held[it].slot for it in cell.pages) if cell.look.kind == "held" else ())


def source_rows(machine, change):
    """Returns the rows of a picture, each loose VMO under its parent."""
    tree = tree_of(machine.vmos, lambda it: it.link and it.link.parent.koid)
    labels = machine.labels()
    return [vmo_row(labels, vmo, depth, change) for vmo, depth in tree] or [text_row("no VMO")]
