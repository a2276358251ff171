"""Scripts of families of snapshots, which are made, written, read and closed in many ways, by how many VMOs or turns there are."""
import random

from machine_model import PAGE

# How many pages are written in a snapshot, or beside it.
WRITES = 4


def snapshot(name, of, pages):
    return f"vmo_create_child v{name} v{of} snapshot 0 {pages * PAGE}"


def write(name, page):
    return f"vmo_write v{name} {page * PAGE} 01"


def closes(names):
    return [f"vmo_close v{it}" for it in names]


def mixed(names):
    """Returns the names in an order that is mixed, and is the same in each run."""
    names = list(names)
    random.Random(1).shuffle(names)
    return names


def full(pages):
    """Returns the lines of a VMO of so many pages, all held."""
    return [f"vmo_create v0 {pages * PAGE}", f"vmo_fill v0 0 {pages * PAGE} 1"]


def chain(count, written):
    """Returns the lines of a chain of snapshots of a VMO of two pages, each with a page of its own where it is said so."""
    lines = ["vmo_create v0 8192", "vmo_fill v0 0 4096 1"]
    for name in range(1, count + 1):
        lines.append(snapshot(name, name - 1, 2))
        if written:
            lines.append(f"vmo_fill v{name} 4096 4096 2")
    return lines


def spread(name, turn, pages):
    """Returns the lines that write a few pages of a VMO, far apart, and other ones in each turn."""
    return [write(name, (turn * WRITES + it) * 1021 % pages) for it in range(WRITES)]


def siblings(count, pages, written):
    """Returns the lines of snapshots of one VMO, with some pages written in each where it is said so."""
    lines = full(pages)
    for name in range(1, count + 1):
        lines.append(snapshot(name, 0, pages))
        if written:
            lines += spread(name, name, pages)
    return lines


def wide(count):
    """Snapshots side by side, each with pages of its own, all closed in mixed order."""
    return siblings(count, 4096, True) + closes(mixed(range(count + 1)))


def checkpoint(count, pages=4096):
    """A snapshot is taken, the VMO is written, and the snapshot goes, so many times."""
    lines = full(pages)
    for turn in range(count):
        lines += [snapshot(1, 0, pages), *spread(0, turn, pages), *closes([1])]
    return lines


def roll_forward(count, pages=4096):
    """A snapshot is taken and written, and the VMO goes, so many times."""
    lines = full(pages)
    for turn in range(count):
        old, new = turn % 2, 1 - turn % 2
        lines += [snapshot(new, old, pages), *spread(new, turn, pages), *closes([old])]
    return lines


def oldest_first(count):
    return siblings(count, 16, False) + closes(range(1, count + 1))


def newest_first(count):
    return siblings(count, 16, False) + closes(range(count, 0, -1))


def tail(count):
    """A chain in which each wrote another page, closed from its end."""
    lines = [f"vmo_create v0 {(count + 1) * PAGE}", write(0, 0)]
    for name in range(1, count + 1):
        lines += [snapshot(name, name - 1, count + 1), write(name, name)]
    return lines + closes(range(count, -1, -1))


def sole(count):
    """Snapshots that all wrote the one page, and then writes to the VMO, which alone sees the row at the root."""
    lines = full(1)
    for name in range(1, count + 1):
        lines += [snapshot(name, 0, 1), write(name, 0)]
    return lines + [write(0, 0)] * (5 * count)


def infos(count):
    """Twenty times what is held, of VMOs all over the family."""
    return siblings(count, 16, False) + [f"vmo_info v{count * it // 20}" for it in range(20)]


def deep(count, written):
    """A chain: reads at its end, a write to the page of the root by each, and all closed in mixed order."""
    lines = chain(count, written) + [f"vmo_read v{count} 0 16"] * (10 * count)
    names = mixed(range(count + 1))
    return lines + [write(it, 0) for it in names] + closes(names)


def behind(count):
    """Returns the lines of a VMO of so many held pages, behind a chain of as many snapshots of which none is written."""
    return full(count) + [snapshot(name, name - 1, count) for name in range(1, count + 1)]


def reads_behind(count):
    """Each page is read at the end of the chain."""
    return behind(count) + [f"vmo_read v{count} {page * PAGE} 16" for page in range(count)]


def zero_behind(count):
    """All pages become zero at the end of the chain, by one command."""
    return behind(count) + [f"vmo_zero v{count} 0 {count * PAGE}"]


def infos_behind(count):
    """What is held, shared and charged at the end of the chain, ten times."""
    return behind(count) + [f"vmo_info v{count}"] * 10


def infos_before(count):
    """What is held, shared and charged at the front of the chain, where all pages are charged, ten times."""
    return behind(count) + ["vmo_info v0"] * 10


def beside(count):
    """Returns the lines of a VMO of so many held pages, of which as many snapshots are made and none is written, but the VMO is."""
    return full(count) + [snapshot(name, 0, count) for name in range(1, count + 1)] + [f"vmo_zero v0 0 {count * PAGE}"]


def infos_beside(count):
    """What is held, shared and charged by the oldest snapshot, to which all pages are charged, ten times."""
    return beside(count) + ["vmo_info v1"] * 10


def parted(count):
    """Returns the lines of snapshots of one page that all wrote it, and of one that did not."""
    return full(1) + [line for name in range(1, count + 1) for line in (snapshot(name, 0, 1), write(name, 0))] + [snapshot(count + 1, 0, 1)]


def reads_beside(count):
    """The page is read in the VMO that others wrote after they were made of it."""
    return parted(count) + ["vmo_read v0 0 16"] * (10 * count)


# What makes a script by its size, under the name of its shape.
SHAPES = {
    "siblings": wide,
    "checkpoints": checkpoint,
    "roll-forward": roll_forward,
    "oldest-first": oldest_first,
    "newest-first": newest_first,
    "tail": tail,
    "sole": sole,
    "infos": infos,
    "chain": lambda count: deep(count, False),
    "written-chain": lambda count: deep(count, True),
    "chain-reads": reads_behind,
    "chain-zero": zero_behind,
    "chain-infos": infos_behind,
    "parted-reads": reads_beside,
}
