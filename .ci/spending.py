"""Tells what the runs of the prover below a process have spent, by what they were called with, as /proc has it."""
import os

TICKS = os.sysconf("SC_CLK_TCK")
PARTS = ("proofs", "tests", "wrong bodies")


def words_of(number, proc):
    """Returns the words that a process was called with."""
    with open(f"{proc}/{number}/cmdline", encoding="utf-8", errors="replace") as it:
        return it.read().split("\0")


def part_of(number, proc="/proc"):
    """Returns which part of the gate a process is, and of which crate, or None where it is no run of the prover."""
    words = words_of(number, proc)
    if os.path.basename(words[0]) != "rattle" or words[1] not in ("check", "build"):
        return None
    crate = words[words.index("--crate-name") + 1] if "--crate-name" in words[:-1] else ""
    # A wrong body, and the check that wrong bodies begin with, is tried in a copy of its crate.
    if os.path.basename(os.readlink(f"{proc}/{number}/cwd")).startswith("rt-edit-"):
        return "wrong bodies", crate
    return "tests" if "--test" in words else "proofs", crate


def fields_of(number, proc="/proc"):
    """Returns the fields of a process that follow its name in /proc: its state is the first."""
    with open(f"{proc}/{number}/stat", encoding="utf-8", errors="replace") as it:
        return it.read().rpartition(")")[2].split()


def look(spent, above, proc="/proc"):
    """Notes what each run of the prover below the process `above` has spent by now, in ticks, with its part and its crate."""
    parents, found = {}, {}
    for number in filter(str.isdigit, os.listdir(proc)):
        try:
            fields = fields_of(number, proc)
            parents[number] = fields[1]
            part = part_of(number, proc)
        except (OSError, IndexError):
            # It has ended meanwhile, or is another user's.
            continue
        if part:
            found[number] = part, fields
    for number, (part, fields) in found.items():
        it = number
        while it in parents and it != above:
            it = parents[it]
        if it == above:
            spent[number, fields[19]] = *part, int(fields[11]) + int(fields[12])


def seconds_by_part(spent):
    """Returns the processor seconds of each part."""
    return {part: sum(ticks for of, _, ticks in spent.values() if of == part) / TICKS for part in PARTS}


def seconds_by_crate(spent):
    """Returns the processor seconds that the proof of each crate took, which was proved in this run."""
    found = {}
    for part, crate, ticks in spent.values():
        if part == "proofs" and crate:
            found[crate] = found.get(crate, 0) + ticks / TICKS
    return found


def longest_chain(seconds, libraries, program):
    """Returns the crates below a program that have to be proved one after another and take the longest, lowest first, with their
    seconds together. `libraries` has the crates that each one names."""
    best = {}

    def chain_to(crate):
        if crate not in best:
            below = max((chain_to(it) for it in libraries[crate] if it in libraries), default=(0, []))
            best[crate] = below[0] + seconds[crate], [*below[1], crate]
        return best[crate]

    return chain_to(program)
