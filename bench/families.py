"""The families that `bench/clones families` measures, each in three sizes. Their scripts are shapes of `tools/generating`."""
import sys
from typing import Callable, NamedTuple

from measuring import TOP

sys.path.insert(0, f"{TOP}/tools")

from generating.shapes import (WRITES, behind, beside, checkpoint, deep, full, infos, infos_before, infos_behind, infos_beside,
                               newest_first, oldest_first, parted, reads_behind, reads_beside, roll_forward, sole, tail, wide,
                               zero_behind)

# How many pages are held, up to as many as a machine of 65,536 frames has beside those that are written.
HELD = (1024, 16384, 65536 - WRITES)


class Family(NamedTuple):
    """What a family is called, its script by its size, its sizes, and by its size what stands at the front of the script and is
    not measured: the cost of that alone is taken off."""

    name: str
    script: Callable
    sizes: tuple
    before: Callable = None


FAMILIES = [
    Family("snapshots of 4,096 pages, 4 written, closed in mixed order", wide, (125, 250, 500)),
    Family("checkpoints of 4,096 pages, the snapshot goes", checkpoint, (500, 1000, 2000)),
    Family("5,000 checkpoints of so many pages, the snapshot goes", lambda it: checkpoint(5000, it), HELD, full),
    Family("checkpoints of 4,096 pages, the parent goes", roll_forward, (500, 1000, 2000)),
    Family("5,000 checkpoints of so many pages, the parent goes", lambda it: roll_forward(5000, it), HELD, full),
    Family("snapshots of 16 pages, the oldest closed first", oldest_first, (250, 500, 1000)),
    Family("snapshots of 16 pages, the newest closed first", newest_first, (250, 500, 1000)),
    Family("chain, each wrote another page, closed from its end", tail, (250, 500, 1000)),
    Family("snapshots that wrote a page, then writes to its sole row", sole, (250, 500, 1000)),
    Family("20 times vmo_info among snapshots of 16 pages", infos, (250, 500, 1000)),
    Family("chain, none written: reads at its end, writes, closes", lambda it: deep(it, False), (1000, 2000, 4000)),
    Family("chain, each written: reads at its end, writes, closes", lambda it: deep(it, True), (1000, 2000, 4000)),
    Family("chain over as many pages, each read at its end", reads_behind, (2000, 4000, 8000), behind),
    Family("chain over as many pages, all zeroed at its end", zero_behind, (2000, 4000, 8000), behind),
    Family("chain over as many pages, 10 times vmo_info at its end", infos_behind, (2000, 4000, 8000), behind),
    Family("chain over as many pages, 10 times vmo_info at its front", infos_before, (2000, 4000, 8000), behind),
    Family("snapshots of as many pages, 10 times vmo_info of the oldest", infos_beside, (2000, 4000, 8000), beside),
    Family("snapshots that wrote a page, then reads of it beside them", reads_beside, (2000, 4000, 8000), parted),
]
