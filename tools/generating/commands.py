"""Random commands, most of them on what there is. Only the replies tell what there is, so any kernel may give them."""
import random

from machine_model import PAGE
from wording import WRONG_WORD, Trouble

# How many lines are tried until there is one without what a kernel has not.
MOST_TRIES = 10_000
ROOT = 0x200000
# How many names of VMOs and of pins a script uses, and of how many places that were mapped last: a script of few is dense.
VMOS, PINS, PLACES = (3, 6, 12), 4, (2, 4, 12)
# How often each kind of line comes in the lines of a theme, beside the others.
CLONES = {"create": 5, "child": 10, "close": 6, "resize": 4, "read": 6, "write": 9, "fill": 4, "commit": 3, "decommit": 3, "zero": 5,
          "info": 6, "stat": 1}
SPACES = {"create": 5, "child": 4, "close": 2, "resize": 2, "write": 4, "fill": 2, "commit": 2, "zero": 2, "info": 2, "root": 2,
          "allocate": 6, "map": 10, "unmap": 4, "protect": 4, "destroy": 2, "maps": 4, "mem_read": 10, "mem_write": 8}
PINNED = {"create": 4, "child": 6, "close": 3, "resize": 4, "read": 2, "write": 4, "fill": 3, "commit": 2, "decommit": 5, "zero": 5,
          "pin": 10, "unpin": 6, "info": 5, "stat": 1}
ALL = {"create": 5, "child": 8, "close": 4, "resize": 3, "read": 5, "write": 8, "fill": 4, "commit": 3, "decommit": 3, "zero": 4, "pin": 4,
       "unpin": 4, "info": 4, "root": 2, "allocate": 4, "map": 8, "unmap": 3, "protect": 3, "destroy": 1, "maps": 3, "mem_read": 8,
       "mem_write": 8, "stat": 1, "other": 1}
# What the harness of examples/harness knows: no children, no pins, and one address space without regions in it.
HOST = {"create": 6, "close": 3, "resize": 3, "read": 5, "write": 5, "fill": 3, "commit": 3, "decommit": 3, "zero": 4, "info": 5,
        "first_root": 2, "map": 10, "unmap": 4, "protect": 4, "maps": 3, "mem_read": 10, "mem_write": 10, "stat": 1}
THEMES = {"clones": CLONES, "spaces": SPACES, "pins": PINNED, "all": ALL, "host": HOST}


class Commands:
    """Makes up the lines of a script, one after another. What comes by chance comes from `mixer`. No line with a word of
    `without`, which has those of commands, kinds and flags, is made. If places are fixed, no line lets the kernel choose one."""

    def __init__(self, mixer, theme="all", without=(), fixed=False):
        self.mixer = mixer
        self.kinds = THEMES[theme]
        self.without = frozenset(without)
        self.fixed = fixed
        self.vmos, self.near = mixer.choice(VMOS), mixer.choice(PLACES)
        self.sizes, self.pins, self.places = {}, set(), []
        # The live regions, each with its root region, and how many were made.
        self.regions, self.given = {}, 0

    def line(self):
        """Returns the next line."""
        for _ in range(MOST_TRIES):
            [kind] = self.mixer.choices(list(self.kinds), self.kinds.values())
            line = getattr(self, kind)()
            if self.without.isdisjoint(line.split(" ")):
                return line
        raise Trouble(WRONG_WORD, f"without {', '.join(sorted(self.without))} the theme has no line")

    # ---- what there is

    def chance(self, share):
        """Returns whether something comes that comes in this share of cases."""
        return self.mixer.random() < share

    def one_of(self, there, else_one):
        """Returns one of those that are there, most often."""
        return self.mixer.choice(sorted(there)) if there and self.chance(0.95) else else_one

    def name(self):
        """Returns the name of a VMO, most often of one that is open."""
        return self.one_of(self.sizes, f"v{self.mixer.randrange(self.vmos)}")

    def region(self):
        """Returns a region, most often one that is live."""
        return self.one_of(self.regions, f"r{self.mixer.randrange(40)}")

    def pages(self, name):
        """Returns how many pages a name has, and of no page one."""
        return max(1, self.sizes.get(name, 2 * PAGE) // PAGE)

    def offset(self, name):
        """Returns where a page of a name begins."""
        return self.mixer.randrange(self.pages(name)) * PAGE

    def data(self):
        """Returns up to six bytes, all the same."""
        return f"{self.mixer.randrange(256):02x}" * self.mixer.randint(1, 6)

    def place(self):
        """Returns a range that was mapped: the root region, the region, the address and the pages."""
        return self.mixer.choice(self.places) if self.places else ("r1", "r1", ROOT, 1)

    # ---- lines

    def create(self):
        return f"vmo_create v{self.mixer.randrange(self.vmos)} {self.mixer.randint(1, 8) * PAGE}" + self.mixer.choice(["", " resizable"])

    def child(self):
        parent = self.name()
        kind = self.mixer.choice(["snapshot", "snapshot", "slice", "reference"])
        offset, pages = self.offset(parent), self.mixer.randint(1, 4)
        if kind == "slice" and self.chance(0.8):
            pages = min(pages, self.pages(parent) - offset // PAGE)
        part = "0 0" if kind == "reference" else f"{offset} {pages * PAGE}"
        flag = self.mixer.choice(["", "", "", " no_write", " no_write", " resizable"])
        return f"vmo_create_child v{self.mixer.randrange(self.vmos)} {parent} {kind} {part}{flag}"

    def close(self):
        return f"vmo_close {self.name()}"

    def resize(self):
        return f"vmo_set_size {self.name()} {self.mixer.randint(0, 8) * PAGE}"

    def read(self):
        name = self.name()
        return f"vmo_read {name} {self.offset(name) + self.mixer.choice([0, 0, 5, self.mixer.randrange(PAGE)])} {self.mixer.randint(0, 16)}"

    def write(self):
        name = self.name()
        return f"vmo_write {name} {self.offset(name) + self.mixer.choice([0, 5, 4094])} {self.data()}"

    def fill(self):
        name = self.name()
        return f"vmo_fill {name} {self.offset(name)} {self.mixer.choice([100, 4096, 5000])} {self.mixer.randrange(256)}"

    def commit(self):
        name = self.name()
        return f"vmo_commit {name} {self.offset(name)} {self.mixer.choice([1, PAGE])}"

    def decommit(self):
        name = self.name()
        return f"vmo_decommit {name} {self.offset(name)} {PAGE}"

    def zero(self):
        name = self.name()
        return f"vmo_zero {name} {self.offset(name) + self.mixer.choice([0, 0, 9])} {self.mixer.choice([100, PAGE, 2 * PAGE])}"

    def pin(self):
        name = self.name()
        return f"vmo_pin p{self.mixer.randrange(PINS)} {name} {self.offset(name)} {self.mixer.choice([1, 2]) * PAGE}"

    def unpin(self):
        return f"vmo_unpin {self.one_of(self.pins, 'p1')}"

    def info(self):
        return f"{self.mixer.choice(['vmo_info', 'vmo_info', 'vmo_size'])} {self.name()}"

    def root(self):
        return f"root_create r{self.given + 1}"

    def first_root(self):
        return "root_create r1"

    def allocate(self):
        size = self.mixer.randint(1, 4) * PAGE
        where = self.mixer.choice([f"{self.mixer.randint(0, 8) * PAGE} {size} specific", f"0 {size}",
                                   f"{self.mixer.randint(1, 16) * PAGE} {size} upper_limit"][: 1 if self.fixed else 3])
        return f"vmar_allocate r{self.given + 1} {self.region()} {where} can_read can_write"

    def map(self):
        name = self.name()
        ways = ["specific", "specific", "specific_overwrite", "specific_overwrite", "", "", "upper_limit"]
        how = self.mixer.choice(ways[: 4 if self.fixed else 7])
        at = self.mixer.randint(0, 8) * PAGE if how else 0
        size = min(self.mixer.randint(1, 4), self.pages(name)) * PAGE
        faults = " allow_faults" if self.chance(0.3) else ""
        of = self.mixer.choice(["0", "0", "0", str(self.offset(name))])
        return f"vmar_map {self.region()} {at} {name} {of} {size} {self.mixer.choice(['r', 'rw', 'rw'])} {how}".rstrip() + faults

    def unmap(self):
        root, region, address, pages = self.place()
        return f"vmar_unmap {self.mixer.choice([root, region])} {address:#x} {self.mixer.choice([1, pages]) * PAGE}"

    def protect(self):
        _, region, address, _ = self.place()
        return f"vmar_protect {region} {address:#x} {PAGE} {self.mixer.choice(['r', 'rw', 'none'])}"

    def destroy(self):
        return f"vmar_destroy {self.region()}"

    def maps(self):
        return f"maps {self.region()}"

    def mem_read(self):
        root, _, address, pages = self.place()
        return f"mem_read {root} {address + self.mixer.choice([0, self.mixer.randrange(pages * PAGE)]):#x} {self.mixer.choice([0, 1, 4])}"

    def mem_write(self):
        root, _, address, pages = self.place()
        return f"mem_write {root} {address + self.mixer.randrange(pages) * PAGE + self.mixer.choice([0, 1, 4094]):#x} {self.data()}"

    def stat(self):
        return "stat"

    def other(self):
        return self.mixer.choice(["# a comment", "", "no command", "vmo_size v01"])

    # ---- replies

    def note(self, line, replies):
        """Notes what a line made or took away by its reply."""
        if not replies or not replies[0].startswith("OK"):
            return
        match line.split():
            case ["vmo_create", name, size, *_] | ["vmo_set_size", name, size]:
                self.sizes[name] = int(size)
            case ["vmo_create_child", name, parent, _, _, size, *_]:
                self.sizes[name] = int(size) or self.sizes.get(parent, PAGE)
            case ["vmo_close", name]:
                self.sizes.pop(name, None)
            case ["vmo_pin", pin, *_]:
                self.pins.add(pin)
            case ["vmo_unpin", pin]:
                self.pins.discard(pin)
            case ["root_create", region]:
                self.given += 1
                self.regions[region] = region
            case ["vmar_allocate", region, parent, *_]:
                self.given += 1
                self.regions[region] = self.regions.get(parent, "r1")
            case ["vmar_map", region, _, _, _, size, *_]:
                self.note_place(region, replies[0].split()[1:], int(size) // PAGE)
            case ["vmar_destroy", region]:
                self.regions.pop(region, None)

    def note_place(self, region, words, pages):
        """Notes where pages were mapped in a region, if the reply has an address."""
        try:
            address = int(words[0], 16)
        except (IndexError, ValueError):
            return
        self.places = [*self.places[1 - self.near :], (self.regions.get(region, "r1"), region, address, pages)]


def seeded(seed, number=0):
    """Returns what makes up lines by chance, the same for the same seed and number."""
    return random.Random(f"{seed} {number}".encode(errors="surrogateescape"))


def script_of(machine, commands, length):
    """Yields lines, each with the reply that a machine gives to it."""
    for _ in range(length):
        line = commands.line()
        replies = machine.answer(line)
        commands.note(line, replies)
        yield line, replies

