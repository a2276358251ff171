"""The grammar of scripts, and why a line is outside it."""
import difflib
import functools
import re

from .limits import LINE_BYTES, MOST_DATA

KINDS = ("snapshot", "slice", "reference")
SOURCE_KINDS = ("snapshot", "snapshot_at_least_on_write")
JOB_KINDS = ("commit", "zero", "decommit")
RIGHTS = {it or "none": frozenset(it) for it in ("", "r", "w", "rw", "x", "rx", "wx", "rwx")}
SHOWN_LETTERS = 40


class NoCommand(Exception):
    """Says why a line is outside the grammar."""


class NoArgument(Exception):
    """Tells that a word is not what an argument takes."""


def wants(holds):
    """Raises NoArgument unless the condition holds."""
    if not holds:
        raise NoArgument


def number(word, end=1 << 64):
    """Reads a number below an end."""
    wants(re.fullmatch("[0-9]+|0x[0-9a-fA-F]+", word))
    digits = word.removeprefix("0x").lstrip("0") or "0"
    wants(len(digits) <= 20)
    value = int(digits, 16 if word.startswith("0x") else 10)
    wants(value < end)
    return value


def name_after(letter):
    """Returns what reads a name that begins with the letter."""

    def read(word):
        wants(re.fullmatch(f"{letter}(0|[1-9][0-9]{{0,9}})", word) and int(word[1:]) < 1 << 32)
        return word

    return read


def data(word):
    """Reads bytes."""
    wants(word == "-" or re.fullmatch("([0-9a-fA-F]{2})+", word) and len(word) <= 2 * MOST_DATA)
    return b"" if word == "-" else bytes.fromhex(word)


def one_of(words):
    """Returns what reads one of the words."""

    def read(word):
        wants(word in words)
        return word

    return read


def rights(word):
    """Reads permissions."""
    wants(word in RIGHTS)
    return RIGHTS[word]


def spelled(given):
    """Returns how permissions are spelled."""
    return next(word for word, it in RIGHTS.items() if it == given)


# What reads an argument of each type, and what it expects.
TYPES = {
    "NUM": (number, "a number below 2^64, in decimal or as 0x and hexadecimal digits"),
    "BYTE": (lambda word: number(word, 256), "a number of at most 255, in decimal or as 0x and hexadecimal digits"),
    "VMO": (name_after("v"), "a VMO (v0, v1, ..) below v4294967296, without leading zeros"),
    "REGION": (name_after("r"), "a region (r0, r1, ..) below r4294967296, without leading zeros"),
    "PIN": (name_after("p"), "a pin (p0, p1, ..) below p4294967296, without leading zeros"),
    "JOB": (name_after("j"), "a job (j0, j1, ..) below j4294967296, without leading zeros"),
    "DATA": (data, "two hexadecimal digits for each of 1 to 4,096 bytes, without 0x, or - for none"),
    "KIND": (one_of(KINDS), "snapshot, slice or reference"),
    "SOURCE_KIND": (one_of(SOURCE_KINDS), "snapshot or snapshot_at_least_on_write"),
    "JOB_KIND": (one_of(JOB_KINDS), "commit, zero or decommit"),
    "PERM": (rights, "none, r, w, rw, x, rx, wx or rwx"),
}

# The arguments of each command, each with its type unless that is NUM or has its name, and the flags.
FORMS = {
    "vmo_create": ("VMO SIZE", "resizable"),
    "vmo_create_child": ("VMO PARENT:VMO KIND OFFSET SIZE", "resizable no_write"),
    "vmo_close": ("VMO", ""),
    "vmo_size": ("VMO", ""),
    "vmo_set_size": ("VMO SIZE", ""),
    "vmo_read": ("VMO OFFSET LEN", ""),
    "vmo_write": ("VMO OFFSET DATA", ""),
    "vmo_fill": ("VMO OFFSET LEN BYTE", ""),
    "vmo_commit": ("VMO OFFSET LEN", ""),
    "vmo_decommit": ("VMO OFFSET LEN", ""),
    "vmo_zero": ("VMO OFFSET LEN", ""),
    "vmo_pin": ("PIN VMO OFFSET LEN", ""),
    "vmo_unpin": ("PIN", ""),
    "vmo_info": ("VMO", ""),
    "root_create": ("REGION", ""),
    "vmar_allocate": ("REGION PARENT:REGION OFFSET LEN", "specific upper_limit can_read can_write can_execute"),
    "vmar_map": ("REGION OFFSET VMO VMO_OFFSET LEN PERM", "specific specific_overwrite upper_limit allow_faults"),
    "vmar_unmap": ("REGION ADDR LEN", ""),
    "vmar_protect": ("REGION ADDR LEN PERM", ""),
    "vmar_destroy": ("REGION", ""),
    "maps": ("REGION", ""),
    "mem_read": ("REGION ADDR LEN", ""),
    "mem_write": ("REGION ADDR DATA", ""),
    "stat": ("", ""),
}

# The forms of each word of the command line that answers lines. The machines of the other words add theirs.
FORMS_OF = {"run": FORMS}


def spell_line(command, values, flags):
    """Returns the line of a command with its arguments and flags: numbers in decimal, and one blank between words."""

    def word_of(value):
        return value.hex() or "-" if isinstance(value, bytes) else spelled(value) if isinstance(value, frozenset) else str(value)

    return " ".join([command, *map(word_of, values), *sorted(flags)])


def words_of(line):
    """Returns the words of a line, each with its column, counted from 1."""
    return [(it.group(), it.start() + 1) for it in re.finditer("[^ \t\r]+", line)]


def seen(text):
    """Returns a text with what can't be seen spelled out. A byte that is no text stands as a surrogate."""

    def spell(letter):
        byte = ord(letter) - 0xDC00
        return letter if letter.isprintable() else f"\\x{byte:02x}" if 0x80 <= byte < 0x100 else ascii(letter)[1:-1]

    return "".join(map(spell, text))


def shown(word):
    """Returns a word in quotes, cut if it is long, with what can't be seen spelled out."""
    cut = word if len(word) <= SHOWN_LETTERS else word[:SHOWN_LETTERS] + ".."
    return f"`{seen(cut)}`"


def listed(words, last="and"):
    """Returns words as a list in a sentence."""
    return words[0] if len(words) == 1 else f"{', '.join(words[:-1])} {last} {words[-1]}"


@functools.cache
def arguments_in(form):
    """Returns the arguments of a form, each with what reads it and what it expects."""
    pairs = [(it.split(":") * 2)[:2] for it in form.split()]
    return [(name, *TYPES.get(of, TYPES["NUM"])) for name, of in pairs]


def arguments_of(command, forms):
    """Returns the same of a command."""
    return arguments_in(forms[command][0])


def nearest(word, words):
    """Returns a hint at the nearest of some words, if one is near: the shortest that it begins, or else the most similar."""
    word = word[:SHOWN_LETTERS].lower()
    begun = sorted((it for it in words if len(word) > 1 and it.startswith(word)), key=len)
    near = begun or difflib.get_close_matches(word, words, 1)
    return f"; the nearest is `{near[0]}`" if near else ""


def read_command(word, column, forms):
    """Reads the word of a command."""
    if word in forms:
        return word
    if word.startswith("\ufeff"):
        raise NoCommand("column 1: the line begins with a byte order mark, which is part of its first word")
    other = next((it for it, its in FORMS_OF.items() if word in its), None)
    raise NoCommand(f"column {column}: {shown(word)} is {f'a command of `{other}`' if other else f'no command{nearest(word, list(forms))}'}")


def read_arguments(command, words, end, forms):
    """Reads the arguments of a command. The last of the words ends before the column `end`."""
    values = []
    for at, (name, read, expected) in enumerate(arguments_of(command, forms)):
        if at >= len(words):
            raise NoCommand(f"column {end}: {name} is missing; expected {expected}")
        word, column = words[at]
        try:
            values.append(read(word))
        except NoArgument:
            raise NoCommand(f"column {column}: {shown(word)} is no {name}; expected {expected}") from None
    return values


def read_flags(command, words, forms):
    """Reads the flags of a command."""
    flags = forms[command][1].split()
    found = set()
    for word, column in words:
        if word.startswith("#"):
            raise NoCommand(f"column {column}: {shown(word)}; a comment stands on a line of its own")
        if word not in flags:
            takes = f"its flags are {listed(flags)}" if len(flags) > 1 else f"its flag is {flags[0]}" if flags else "it takes none"
            raise NoCommand(f"column {column}: {shown(word)} is no flag of {command}; {takes}{nearest(word, flags)}")
        if word in found:
            raise NoCommand(f"column {column}: the flag {word} stands twice")
        found.add(word)
    return found


def read_line(line, forms=None):
    """Returns the command of a line, its arguments and its flags; or None of a line without a reply. `forms` are those of the
    machine if none are given. Raises NoCommand for a line outside the grammar."""
    forms = forms or FORMS
    # A byte that is no text stands as a surrogate.
    length = len(line.encode(errors="surrogateescape"))
    if length > LINE_BYTES:
        raise NoCommand(f"the line has {length} bytes, expected at most {LINE_BYTES}")
    words = words_of(line)
    if not words or words[0][0].startswith("#"):
        return None
    command = read_command(*words[0], forms)
    count = len(forms[command][0].split())
    end = words[-1][1] + len(words[-1][0]) + 1
    values = read_arguments(command, words[1 : 1 + count], end, forms)
    return command, values, read_flags(command, words[1 + count :], forms)
