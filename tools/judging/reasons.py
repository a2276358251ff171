"""What stands behind an illegal reply: what the model answers, why, and the states of all that has to do with the command."""
import re
from typing import NamedTuple

from machine_model import PAGE, Machine
from machine_model.answering import are, counted
from machine_model.grammar import NoCommand, read_line, seen
from machine_model.limits import pages_in, touched
from machine_model.regions import READY_TO_READ, READY_TO_WRITE, address_of, outside_words, taken_words

from .replies import LINE_BYTES, command_of

# When a command that is done may answer `HOST_MEMORY`, if it depends. The others may at any time, or never.
NOT_SOLE = "some page that the range touches is not sole"
HOST_CONDITIONS = {
    "vmo_write": NOT_SOLE,
    "vmo_fill": NOT_SOLE,
    "vmo_commit": NOT_SOLE,
    "vmo_zero": "some page that the range touches is held",
    "vmo_decommit": "some page of the range is held",
    "vmar_unmap": "some page of the range is mapped",
    "maps": "some page of the region is mapped",
    "mem_read": "some page that the range touches is not ready",
    "mem_write": "some page that the range touches is not ready for writing",
}
ADDRESS = "OK 0x[1-9a-f][0-9a-f]*"
NAMES = r"\b[vrp](?:0|[1-9][0-9]*)\b"
EARLIER, MOST_STATES, MOST_PAGES = 12, 24, 4


def vmos_of(machine, names):
    """Returns the VMOs that names of VMOs and of pins stand for."""
    places = (machine.names.get(it) or machine.pins.get(it) for it in names)
    return {it.vmo for it in places if it}


class Followed(NamedTuple):
    """A model that did turns, the koid of the VMO that each VMO comes from, by its koid, and of each turn those of the VMOs that it
    speaks of."""

    machine: Machine
    origins: dict
    spoken_of: list


def follow(turns, frames):
    """Follows turns with the choices that their replies tell."""
    machine, origins, spoken_of = Machine(frames), {}, []
    for line, replies in turns:
        names = re.findall(NAMES, line)
        vmos = vmos_of(machine, names)
        machine.answer(line, replies[0] if replies else "")
        for it in machine.vmos[-1:]:
            origins.setdefault(it.koid, origins[it.parent.koid] if it.parent else it.koid)
        spoken_of.append({origins[it.koid] for it in vmos | vmos_of(machine, names)})
    return Followed(machine, origins, spoken_of)


def shown(line):
    """Returns a line, in quotes if there is something in it that can't be seen."""
    return line if line and line.isprintable() and line == line.strip() else f"'{seen(line)}'"


# ---- what is no transcript


def why_malformed(lines, at):
    """Yields why the line `at` of a file, counted from 1, is none of a transcript, and what one is."""
    size = len(lines[at - 1])
    long = f"has {size:,} bytes, and a line of a transcript has at most {LINE_BYTES:,}"
    yield f"why:      line {at} {long if size > LINE_BYTES else 'begins with neither `> ` nor `< `'}"
    yield "          A transcript has each line of a script after `> `, and below it each line of the reply after `< `."
    yield "          `tools/transcript SCRIPT REPLIES` joins a script and its replies."


# ---- why


def why_place(machine, command, told):
    """Says why the place that was told can't be."""
    if not re.fullmatch(ADDRESS, told):
        return f"{shown(told[3:])} is no address: 0x and hexadecimal digits in lower case, without leading zeros"
    word, values, flags = read_line(command)
    name, offset, length = (values[0], values[1], values[4]) if word == "vmar_map" else values[1:]
    address, region = int(told[3:], 16), machine.regions[name]
    count, at = pages_in(length), region.pages.start + offset // PAGE
    if address % PAGE:
        return f"{told[3:]} is no multiple of {PAGE}"
    if {"specific", "specific_overwrite"} & flags:
        return f"the place is fixed: {region.name} begins at {address_of(region.pages.start)}, and OFFSET = {offset}"
    pages = range(address // PAGE, address // PAGE + count)
    if pages.start < region.pages.start:
        return f"{told[3:]} lies before {region.name}, which begins at {address_of(region.pages.start)}"
    if "upper_limit" in flags and pages.stop > at:
        return f"the place ends at {address_of(pages.stop)}, which is above the limit {address_of(at)}"
    outside = outside_words(region, address - region.pages.start * PAGE, count)
    return outside or taken_words(region, pages)


def why_pin(machine, command, told):
    """Says why the frames that were told can't be."""
    _, (_, of, offset, length), _ = read_line(command)
    name = machine.names[of]
    pages = touched(name.first * PAGE + offset, length)
    numbers = told.split(" ")[1:]
    if not re.fullmatch("OK( (0|[1-9][0-9]{0,9}))+", told) or len(numbers) != len(pages):
        return f"a number is expected for each of {counted(len(pages), 'page')}"
    owners = {it.vmo.pages[page].number: (pin, it, page) for pin, it in machine.pins.items() for page in it.pages}
    for at, (page, number) in enumerate(zip(pages, map(int, numbers))):
        own = name.vmo.pages[page].number if page in name.vmo.pages else None
        if own is not None and own != number:
            return f"page {page} of the VMO is pinned, and has the frame {own}"
        if own is None and number in owners:
            pin, it, its_page = owners[number]
            return f"the frame {number} is that of page {its_page} of the VMO with koid {it.vmo.koid}, which {pin} pins"
        if number >= machine.frames:
            return f"the frames have the numbers 0 to {machine.frames - 1}"
        if number in map(int, numbers[:at]):
            return f"the frame {number} is told of two pages"
    return ""


def why_host_memory(machine, word):
    """Says when HOST_MEMORY may come, by a model that answered the command otherwise."""
    if machine.refusal:
        return f"HOST_MEMORY may come only if no other refusal does: {machine.refusal.name}, {machine.refusal.why}"
    if word not in HOST_CONDITIONS:
        return f"{word} never answers HOST_MEMORY"
    return f"HOST_MEMORY may come only if {HOST_CONDITIONS[word]}"


def fault_rows(machine, command):
    """Returns of each page that an access touches its address, its mapping, and whether it takes a fault and why, by the model before
    it."""
    word, (name, address, of), _ = read_line(command)
    length = len(of) if word == "mem_write" else of
    rows = []
    for page in touched(address, length):
        it = machine.regions[name].shown_at(page)
        ready = it.ready.get(page, 0)
        is_fault = ready < (READY_TO_WRITE if word == "mem_write" else READY_TO_READ)
        how = "is ready to read alone" if is_fault and ready else "is not ready" if is_fault else "is ready"
        rows.append((page, it, is_fault, f"{address_of(page)} {how}"))
    return rows


def why_faults(machine, command, told):
    """Says which pages of an access take a fault, if other faults were told; or nothing."""
    rows = fault_rows(machine, command)
    count = sum(is_fault for _, _, is_fault, _ in rows)
    if not re.match(r"OK faults=\d+( |$)", told) or told.split(" ")[1] == f"faults={count}":
        return ""
    return f"it takes {counted(count, 'fault')}: {', '.join(words for _, _, _, words in rows[:MOST_PAGES])}{', ..' * (len(rows) > MOST_PAGES)}"


def difference(told, answer):
    """Says what differs between a reply line that was told and that of the model, if both say that the command is done; or nothing."""
    words = told.split(" "), answer.split(" ")
    if len(words[0]) != len(words[1]) or words[0][:1] != words[1][:1]:
        return ""
    found = [(its, it) for its, it in zip(*words) if its != it]
    if len(found) == 1 and all(re.fullmatch("([0-9a-f]{2})+", it) for it in found[0]) and len(found[0][0]) == len(found[0][1]) > 2:
        pairs = [(its, it) for its, it in zip(*(re.findall("..", it) for it in found[0]))]
        at = next(at for at, (its, it) in enumerate(pairs) if its != it)
        return f"byte {at} is {pairs[at][0]}, and not {pairs[at][1]}; {counted(sum(its != it for its, it in pairs), 'byte')} of {len(pairs)} differ"
    return ", ".join(f"{shown(its)} in place of {it}" for its, it in found)


def frames_words(before, after, told):
    """Says how many frames a command needs and how many are free, if it takes any or none was said to be free; or nothing, if the
    reason of the refusal says it."""
    need = after.taken - before.taken
    if after.refusal or not need and told != "NO_MEMORY":
        return ""
    free = before.frames - before.used
    return f"it needs {counted(need, 'frame')}, and {free:,} of {before.frames:,} {are(free)} free"


def why(before, after, command, told):
    """Says why a reply is not as it was told, by the models before and after the command; or nothing."""
    word = command_of(command)
    if told == "HOST_MEMORY":
        return why_host_memory(after, word)
    if after.refusal:
        return f"{after.refusal.name}: {after.refusal.why}"
    if word in ("vmar_map", "vmar_allocate") and told.startswith("OK "):
        return why_place(before, command, told)
    if word == "vmo_pin" and told.startswith("OK "):
        return why_pin(before, command, told)
    if told == "NO_MEMORY":
        return frames_words(before, after, told)
    if word in ("mem_read", "mem_write") and told.startswith("OK "):
        return why_faults(before, command, told)
    if re.fullmatch("[A-Z_]+", told) and told in after.tried:
        return f"no condition of {told} holds"
    return ""


# ---- what has to do with a command


def named(machine, command):
    """Returns the VMOs and the root regions that a command speaks of."""
    names = re.findall(NAMES, command)
    vmos = vmos_of(machine, names)
    roots = {machine.regions[it].root for it in names if it in machine.regions}
    try:
        word, values, _ = read_line(command)
    except NoCommand:
        return vmos, roots
    if word in ("mem_read", "mem_write", "vmar_unmap", "vmar_protect"):
        _, address, length, *_ = values
        length = len(length) if word == "mem_write" else length
        pages = touched(address, min(max(length, 1), 1 << 20))
        vmos.update(mapping.vmo for root in roots for mapping in root.shown(pages))
    return vmos, roots


def family(machine, vmos):
    """Returns VMOs with all of their families, and those that show their frames."""
    found, waiting = set(), list(vmos)
    while waiting:
        vmo = waiting.pop()
        if vmo in found or vmo not in machine.vmos:
            continue
        found.add(vmo)
        koids = {koid for frame in vmo.pages.values() for koid in frame.koids}
        waiting += [it for it in machine.vmos if it.parent is vmo or it is vmo.parent or it.koid in koids]
    return found


def related(machine, command):
    """Returns what has to do with a command: the names of VMOs, the pins, and the root regions."""
    vmos, roots = named(machine, command)
    vmos = family(machine, vmos)
    roots |= {mapping.region.root for vmo in vmos for mapping in vmo.mappings}
    names = [it for it, name in machine.names.items() if name.vmo in vmos]
    pins = [it for it, pin in machine.pins.items() if pin.vmo in vmos]
    regions = [it for it, region in machine.regions.items() if region in roots and region.is_live]
    return names, pins, regions


def states(machine, command):
    """Returns what there was before a command of all that has to do with it."""
    names, pins, regions = related(machine, command)
    lines = [f"{it}: {line}" for it in sorted(names) for line in machine.answer(f"vmo_info {it}")]
    for it in sorted(pins):
        pin = machine.pins[it]
        frames = " ".join(str(pin.vmo.pages[page].number) for page in pin.pages)
        lines.append(f"{it}: pages {pin.pages.start} to {pin.pages.stop - 1} of koid {pin.vmo.koid}, frames {frames}")
    lines += [f"{it}: {line}" for it in sorted(regions) for line in machine.answer(f"maps {it}")]
    more = len(lines) - MOST_STATES
    return lines[:MOST_STATES] + ([f"and {counted(more, 'line')} more"] if more > 0 else [])


def made_unready(turns, frames, command):
    """Returns the address of the first page of an access that takes a fault though it was ready before, and the turn, by its index, that
    left it so; or None. The machine has done the turns and not the access."""
    machine = follow(turns, frames).machine
    faults = [(page, it) for page, it, is_fault, _ in fault_rows(machine, command) if is_fault]
    roots = {page: it.region.root.name for page, it in faults}
    machine, was, lost = Machine(frames), {}, {}
    for at, (line, replies) in enumerate(turns):
        machine.answer(line, replies[0] if replies else "")
        for page, root in roots.items():
            it = machine.regions[root].shown_at(page) if root in machine.regions else None
            ready = it.ready.get(page, 0) if it else 0
            if ready < was.get(page, 0):
                lost[page] = at
            was[page] = ready
    return next(((address_of(page), lost[page]) for page in roots if page in lost), None)


def earlier(followed, done, command):
    """Returns the last turns, by their index, on something that has to do with a command."""
    machine = followed.machine
    origins = {followed.origins[it.koid] for it in family(machine, named(machine, command)[0])}
    names = {*re.findall(NAMES, command), *related(machine, command)[2]}
    found = [at for at, (line, _) in enumerate(done)
             if command_of(line) and (names & set(re.findall(NAMES, line)) or origins & followed.spoken_of[at])]
    return found[-EARLIER:]
