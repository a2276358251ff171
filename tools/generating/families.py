"""Scripts of random commands on families of snapshots, on jobs on them, and on page sources. A model answers beside them, so that
most commands are on what there is."""
import random

from machine_model import PAGE, BatchMachine, Machine, SourceMachine


class Family:
    """A kind of family: how many VMOs there are at most, how many pages they have, how many frames there are, which VMO a snapshot
    is made of, the word that the script is run under, the model, and what makes up the commands."""

    def __init__(self, name, vmos, pages, frames, parent, word="run"):
        self.name = name
        self.vmos = vmos
        self.pages = pages
        self.frames = frames
        self.parent = parent
        self.word = word
        self.model, self.writer = WORDS[word]


def oldest(names, mixer):
    """Most snapshots are of one of the three oldest VMOs: the family is wide."""
    return names[min(int(mixer.expovariate(1)), len(names) - 1)]


def newest(names, mixer):
    """Most snapshots are of one of the three newest VMOs: the family is deep."""
    return names[-1 - min(int(mixer.expovariate(1)), len(names) - 1)]


def anyone(names, mixer):
    return mixer.choice(names)


# How often each command comes, beside the others.
WEIGHTS = {
    "vmo_create": 1,
    "vmo_create_child": 14,
    "vmo_close": 8,
    "vmo_set_size": 4,
    "vmo_read": 12,
    "vmo_write": 22,
    "vmo_fill": 6,
    "vmo_commit": 3,
    "vmo_zero": 6,
    "vmo_decommit": 2,
    "vmo_info": 12,
    "stat": 2,
}
JOB_WEIGHTS = {"begin": 6, "step": 12, "drop": 2, "plain": 14}
JOB_KINDS = ("commit", "commit", "commit", "zero", "zero", "zero", "decommit")
SOURCE_WEIGHTS = {
    "source_create": 3,
    "snapshot": 6,
    "snapshot_at_least_on_write": 9,
    "vmo_close": 6,
    "vmo_read": 20,
    "vmo_write": 18,
    "supply": 7,
    "evict": 9,
    "stat": 8,
    "outside": 1,
}


class Writer:
    """Makes up commands on a family, one after another."""

    def __init__(self, family, seed):
        self.family = family
        self.mixer = random.Random(f"{family.name} {seed}".encode(errors="surrogateescape"))

    def weighted(self, weights):
        return self.mixer.choices(list(weights), weights.values())[0]

    def place(self):
        """Returns where a range of some pages begins, and its length: often whole pages, and now and then past the end."""
        mixer, pages = self.mixer, self.family.pages
        first = mixer.randrange(pages)
        count = mixer.choice((1, 1, 1, 2, 3, mixer.randrange(pages)))
        cut = mixer.choice((0, 0, mixer.randrange(PAGE)))
        return first * PAGE + cut, max(count * PAGE - mixer.choice((0, cut)), 0)

    def window(self):
        """Returns which part of its parent a snapshot shows: most often all of it."""
        mixer, pages = self.mixer, self.family.pages
        if mixer.random() < 0.8:
            return 0, pages * PAGE
        return mixer.choice((0, mixer.randrange(pages))) * PAGE, mixer.randrange(pages + 2) * PAGE

    def data(self):
        return self.mixer.randbytes(self.mixer.choice((0, 1, 2, 20)))

    def new_name(self, names):
        """Returns the name of a VMO that is to come: one that is not open, most often."""
        name = f"v{self.mixer.randrange(self.family.vmos)}"
        while name in names and len(names) < self.family.vmos and self.mixer.random() < 0.9:
            name = f"v{self.mixer.randrange(self.family.vmos)}"
        return name

    def command(self, machine):
        """Returns the next command, by the names that are open, the oldest first."""
        mixer, family, names = self.mixer, self.family, list(machine.names)
        if not names:
            return ("vmo_create", "v0", family.pages * PAGE, "resizable")
        new = self.new_name(names)
        name = mixer.choice(names) if mixer.random() < 0.98 else new
        offset, length = self.place()
        kind = self.weighted(WEIGHTS)
        flag = mixer.choice(((), ("resizable",)))
        arguments = {
            "vmo_create": (new, family.pages * PAGE, *flag),
            "vmo_create_child": (new, family.parent(names, mixer), "snapshot", *self.window(), *flag),
            "vmo_set_size": (name, mixer.choice((offset, family.pages * PAGE))),
            "vmo_read": (name, offset, mixer.randrange(40)),
            "vmo_write": (name, offset, self.data()),
            "vmo_fill": (name, offset, length, mixer.randrange(256)),
            "stat": (),
        }
        ranges = ("vmo_commit", "vmo_zero", "vmo_decommit")
        return (kind, *arguments.get(kind, (name, offset, length) if kind in ranges else (name,)))


class JobWriter(Writer):
    """Makes up commands on a family and on jobs, one after another."""

    def command(self, machine):
        mixer, names, jobs = self.mixer, list(machine.names), list(machine.jobs)
        kind = self.weighted(JOB_WEIGHTS)
        if kind == "plain" or not names:
            return super().command(machine)
        job = mixer.choice(jobs) if jobs and kind != "begin" and mixer.random() < 0.95 else f"j{mixer.randrange(6)}"
        if kind == "begin":
            offset, length = self.place()
            if mixer.random() < 0.9:
                offset, length = offset // PAGE * PAGE, length // PAGE * PAGE
            return (kind, job, mixer.choice(JOB_KINDS), mixer.choice(names), offset, length)
        return (kind, job, mixer.choice((0, 1, 1, 2, 3, 2**64 - 1))) if kind == "step" else (kind, job)


class SourceWriter(Writer):
    """Makes up commands on page sources, one after another."""

    def source(self, new):
        """Returns a command that makes a source, now and then one that is refused."""
        mixer = self.mixer
        size = mixer.choice((self.family.pages * PAGE, mixer.randrange(self.family.pages * PAGE), 0, 1 << 24))
        size = (1 << 24) + 1 if mixer.random() < 0.02 else size
        return ("source_create", new, size, mixer.choice((0, 1, 2, 2, 3)), mixer.choice((0, 7, 250, 2**64 - 1)))

    def range_for(self, kind):
        """Returns a range, most often of whole pages where these are wanted."""
        offset, length = self.place()
        if kind in ("supply", "evict") and self.mixer.random() < 0.9:
            return offset // PAGE * PAGE, length // PAGE * PAGE
        return offset, length

    def child(self, kind, new, names):
        """Returns a command that makes a child of one of these."""
        offset, size = self.window()
        offset += self.mixer.choice((0,) * 20 + (1, 1 << 24))
        parent = self.family.parent(names, self.mixer) if self.mixer.random() < 0.98 else new
        return ("vmo_create_child", new, parent, kind, offset, size)

    def command(self, machine):
        mixer, names = self.mixer, list(machine.names)
        new = self.new_name(names)
        kind = self.weighted(SOURCE_WEIGHTS)
        if kind == "source_create" or not names:
            return self.source(new)
        whole = [it for it in names if not machine.names[it].link] if kind in ("supply", "evict", "snapshot") else []
        name = mixer.choice(whole if whole and mixer.random() < 0.8 else names) if mixer.random() < 0.98 else new
        offset, length = self.range_for(kind)
        arguments = {
            "vmo_close": (name,),
            "vmo_read": (name, offset, mixer.choice((0, 1, 4, 16, 40, 40, 5000, 4096))),
            "vmo_write": (name, offset, self.data()),
            "stat": (),
        }
        if kind in ("snapshot", "snapshot_at_least_on_write"):
            return self.child(kind, new, whole if whole and mixer.random() < 0.8 else names)
        if kind == "outside":
            return mixer.choice((("vmo_size", name), ("supply", name, 0), ("vmo_create_child", new, name, "slice", 0, 0), ("stat", "stat")))
        return (kind, *arguments.get(kind, (name, offset, length)))


WORDS = {"run": (Machine, Writer), "batch": (BatchMachine, JobWriter), "sources": (SourceMachine, SourceWriter)}

FAMILIES = [
    Family("wide", 200, 16, 4096, oldest),
    Family("wide, many pages", 40, 300, 16384, oldest),
    Family("wide, few frames", 200, 16, 150, oldest),
    Family("deep", 200, 16, 4096, newest),
    Family("deep, many pages", 40, 300, 16384, newest),
    Family("deep, few frames", 200, 16, 150, newest),
    Family("mixed", 100, 70, 8192, anyone),
    Family("mixed, few frames", 100, 70, 200, anyone),
    Family("jobs", 40, 40, 4096, anyone, "batch"),
    Family("jobs, few frames", 40, 40, 100, anyone, "batch"),
    Family("sources", 12, 6, 1024, anyone, "sources"),
    Family("sources, few frames", 12, 6, 12, anyone, "sources"),
    Family("sources, deep", 60, 5, 200, newest, "sources"),
    Family("sources, wide, few frames", 60, 5, 30, oldest, "sources"),
]


def spelled(word):
    return (word.hex() or "-") if isinstance(word, bytes) else str(word)


def script_of(family, commands, seed):
    """Returns the lines of a script, and the replies of the model."""
    writer, machine = family.writer(family, seed), family.model(family.frames)
    lines, replies = [], []
    for _ in range(commands):
        lines.append(" ".join(map(spelled, writer.command(machine))))
        replies += machine.answer(lines[-1])
    return lines, replies
