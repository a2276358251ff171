"""Replies as a kernel spells them, and transcripts of scripts and replies. Lines are text with a character for each byte: a surrogate
for a byte that is not ASCII."""
import itertools
import re

from machine_model.grammar import NoCommand, read_line, spell_line

# The longest line of a transcript, and the longest script line in one.
LINE_BYTES, SCRIPT_LINE_BYTES = 16_384, 16_382
# The reply to what a kernel has not.
UNSUPPORTED = "UNSUPPORTED"
# The number of each status, as docs/ZIRCON.md lists them.
STATUSES = {
    0: "OK", -2: "NOT_SUPPORTED", -3: "NO_RESOURCES", -4: "NO_MEMORY", -10: "INVALID_ARGS", -11: "BAD_HANDLE", -14: "OUT_OF_RANGE",
    -15: "BUFFER_TOO_SMALL", -20: "BAD_STATE", -25: "NOT_FOUND", -26: "ALREADY_EXISTS", -28: "UNAVAILABLE", -30: "ACCESS_DENIED",
}


def text_of(data):
    """Returns bytes as text."""
    return data.decode("ascii", "surrogateescape")


def lines_of(data):
    """Returns the lines of a file. Its last piece is a line too, unless it is empty."""
    lines = text_of(data).split("\n")
    return lines[:-1] if lines[-1] == "" else lines


def bytes_of(lines):
    """Returns the bytes of lines."""
    return "".join(f"{it}\n" for it in lines).encode("ascii", "surrogateescape")


def command_of(line):
    """Returns the first word of a line that has a reply, or None of a blank line and of a comment. A line that is too long for any
    command has a reply."""
    word = next(iter(re.findall("[^ \t\r]+", line[: LINE_BYTES + 1])), "")
    return (word or "blanks") if len(line) > LINE_BYTES else None if word.startswith("#") else word or None


def more_lines(line, reply):
    """Returns how many lines follow the first line of a reply: as many as a reply of `maps` says."""
    runs = re.fullmatch("OK ([0-9]{1,9})", reply)
    return int(runs[1]) if runs and command_of(line) == "maps" else 0


def normalised(reply):
    """Returns a reply line in the machine's spelling: without one CR at its end, and the status, if it begins with one, by its name
    without `ZX_` and `ZX_ERR_`."""
    reply = reply.removesuffix("\r")
    status, blank, more = reply.partition(" ")
    if re.fullmatch("0|-[1-9][0-9]{0,8}", status):
        status = STATUSES.get(int(status), status)
    return re.sub("^ZX_(ERR_)?", "", status) + blank + more


def fitted(line):
    """Returns a line of a script as it stands in a transcript. One that is too long for that is spelled shorter: a command without the
    blanks and zeros that it does not need, and any other line by words that the machine takes for the same."""
    if len(line) <= SCRIPT_LINE_BYTES:
        return line
    try:
        read = read_line(line)
    except NoCommand:
        return f"? a line of {len(line):,} bytes"
    return spell_line(*read) if read else f"# a line of {len(line):,} bytes"


def transcript_of(turns):
    """Returns the lines of a transcript: of turns, each a line of a script with the lines of its reply."""
    return [it for line, replies in turns for it in (f"> {fitted(line)}", *(f"< {reply}" for reply in replies))]


def supported(turns):
    """Returns turns without those that a kernel has not, as its reply says."""
    return [it for it in turns if it[1] != [UNSUPPORTED]]


def turns_of(lines):
    """Returns the turns of the lines of a transcript. Each begins with `> ` or `< `, and the first with `> `."""
    turns = []
    for it in lines:
        if it.startswith("> "):
            turns.append((it[2:], []))
        else:
            turns[-1][1].append(it[2:])
    return turns


def join(script, replies):
    """Returns the turns of a script and of the reply lines to it, and the reply lines that are left over."""
    left = iter(replies)
    turns = []
    for line in script:
        told = list(itertools.islice(left, 1)) if command_of(line) else []
        turns.append((line, told + [it for first in told for it in itertools.islice(left, more_lines(line, first))]))
    return turns, list(left)
