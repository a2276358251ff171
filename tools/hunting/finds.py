"""What hunts find: the files of a find, a folder of scripts that are played again, and the kinds of several finds."""
import hashlib
import pathlib
import re
import subprocess
from typing import NamedTuple

from directives import FRAMES, MARK
from expecting.scripts import MARK as WANTED
from judging.replies import bytes_of, command_of, transcript_of, turns_of
from machine_model import Machine
from machine_model.answering import counted
from wording import UNREADABLE, Trouble, read_file, write_file

HERE = pathlib.Path(__file__).resolve().parent.parent


def directive(frames):
    """Returns the first line of a script on so many frames, or nothing if it needs none."""
    return [f"{MARK}run --frames {frames}"] if frames != FRAMES else []


def explained(path, program):
    """Returns what `tools/explain` says of a transcript."""
    words = [HERE / "explain", *(["--program", program] if program else []), "--", path]
    ran = subprocess.run(words, stdout=subprocess.PIPE, stderr=subprocess.DEVNULL, check=False)
    return ran.stdout


def write_find(name, trial, frames, program):
    """Writes the script, the transcript, and what `tools/explain` says of it, and returns that and the names of the files."""
    lines = [line for line, _ in trial.turns]
    files = [f"{name}{end}" for end in (".vms", ".transcript", ".txt")]
    write_file(files[0], bytes_of([*directive(frames), *lines]))
    write_file(files[1], bytes_of([*(f"> {it}" for it in directive(frames)), *transcript_of(trial.turns)]))
    reasons = (f"the kernel {trial.lost}\n".encode() if trial.lost else b"") + explained(files[1], program)
    write_file(files[2], reasons)
    return reasons, files


def wanted_of(line, answer):
    """Returns the lines of an answer as they are expected of any kernel: the frames of a pin are left open."""
    return [re.sub(" [0-9]+", " ?", it) for it in answer] if command_of(line) == "vmo_pin" else answer


def keep(folder, trial, frames, words):
    """Keeps the script of a find in a folder, with the replies that are expected, and returns the name of the file. The place of a
    mapping is the one that the kernel told, if it may be."""
    machine, lines = Machine(frames), [*directive(frames), f"# {words}"]
    for line, replies in trial.turns:
        lines += [line, *(f"{WANTED} {it}" for it in wanted_of(line, machine.answer(line, replies[0] if replies else "")))]
    data = bytes_of(lines)
    name = hashlib.sha256(bytes_of(line for line, _ in trial.turns)).hexdigest()[:8]
    try:
        pathlib.Path(folder).mkdir(parents=True, exist_ok=True)
    except OSError as error:
        raise Trouble(UNREADABLE, f"cannot make the folder {folder!r}: {error.strerror}") from None
    path = f"{folder}/found-{name}.vms"
    write_file(path, data)
    return path


class Find(NamedTuple):
    """A find in a file: of what kind it is, how many lines its script has, and the file of its script."""

    kind: str
    lines: int
    path: str


def kind_of(reasons):
    """Returns the kind of a find by what `tools/explain` says: the command, and the first words that it got and that were expected."""
    found = dict(reversed(re.findall(r"^(command|got|expected): +(\S+)", reasons, re.MULTILINE)))
    if "got" not in found:
        return reasons.split("\n")[0]
    return f"{found.get('command', 'a line')} got {found['got']}, expected {found.get('expected', 'nothing')}"


def finds_in(places):
    """Yields the finds in folders and files."""
    for place in map(pathlib.Path, places):
        for path in sorted(place.rglob("*.transcript")) if place.is_dir() else [place.with_suffix(".transcript")]:
            lines = read_file(path).decode("ascii", "surrogateescape").splitlines()
            count = sum(not it.startswith(MARK) for it, _ in turns_of(lines)) if lines[:1] and lines[0].startswith("> ") else 0
            text = read_file(path.with_suffix(".txt")).decode(errors="replace")
            yield Find(kind_of(text), count, str(path.with_suffix(".vms")))


def joined(places):
    """Returns a line for each kind of what was found in folders and files, those with the shortest scripts first, and how many finds
    there are."""
    kinds = {}
    for it in finds_in(places):
        kinds.setdefault(it.kind, []).append(it)
    rows = sorted(((min((it.lines, it.path) for it in finds), kind, len(finds)) for kind, finds in kinds.items()))
    return [f"{path}, {counted(lines, 'line')}, found {counted(count, 'time')}: {kind}" for (lines, path), kind, count in rows], sum(map(len, kinds.values()))
