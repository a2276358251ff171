"""The commands of the shell that begin with a dot. Each yields the lines that it shows."""
from looking.drawing import all_rows, heading_of, picture
from looking.paged import source_state
from looking.states import state_of
from looking.turns import Turn
from machine_model import Machine, SourceMachine
from machine_model.answering import counted
from machine_model.grammar import arguments_of, nearest
from machine_model.tables import refusals_of
from wording import WRONG_WORD, Trouble, write_file

from .completing import DOT_COMMANDS

MEANINGS = {
    ".help": "shows the words of a command, what each argument takes, and the refusals in their order",
    ".vmos": "lists the VMOs: koid, names, parent, pages, held pages, charged pages",
    ".map": "lists the address spaces, or that of a region: what is mapped, and which pages are ready",
    ".draw": "writes a picture of what there is (SVG)",
    ".save": "writes the lines so far as a script",
    ".undo": "takes back the last command",
}


def wrong(words):
    """Returns the trouble of a wrong word."""
    return Trouble(WRONG_WORD, words)


def form_of(command, forms):
    """Returns how a command is spelled, with its flags in brackets."""
    arguments, flags = forms[command]
    names = [it.partition(":")[0] for it in arguments.split()]
    return " ".join([command, *names, *(f"[{it}]" for it in flags.split())])


def meaning_of(command):
    """Returns how a command of the shell is spelled, and what it does."""
    return f"{command} {DOT_COMMANDS[command]}".rstrip() + f": {MEANINGS[command]}"


def refusals_in(session):
    """Returns the refusals of each command of a machine. That of jobs has those of the plain machine too."""
    plain = refusals_of(Machine) if session.word == "batch" else {}
    return plain | refusals_of(type(session.machine))


def help_of(session, words):
    """Shows all commands, or what there is to say of one."""
    forms = session.machine.forms
    if not words:
        yield from (form_of(it, forms) for it in forms)
        yield from (meaning_of(it) for it in MEANINGS)
        return
    word = words[0]
    if word in MEANINGS:
        yield meaning_of(word)
        return
    if word not in forms:
        raise wrong(f"{word!r} is no command{nearest(word, [*forms, *MEANINGS])}")
    yield form_of(word, forms)
    yield from (f"  {name}: {expected}" for name, _, expected in arguments_of(word, forms))
    for key, refusals in refusals_in(session).items():
        if key.split()[0] == word:
            kind = f" of a {key.split()[1]}" if " " in key else ""
            yield f"  refusals{kind}, in their order: {', '.join(refusals) or 'none'}"


def vmos(session, _):
    """Lists the VMOs."""
    is_paged = isinstance(session.machine, SourceMachine)
    state = source_state(session.machine) if is_paged else state_of(session.machine)
    if not state["vmos"]:
        yield "no VMO"
        return
    yield f"{'koid':>5}  {'parent':>6}  {'pages':>12}  {'held':>6}  {'charged':>7}  names"
    for it in state["vmos"]:
        names = it["names"] if is_paged else [f"{of['name']} ({of['kind']})" if of["kind"] != "owner" else of["name"] for of in it["names"]]
        parent = it["comes_from"].get("parent") if is_paged else it["parent"]
        charged = sum(min(of["shown_by"]) == it["koid"] for of in it["held"])
        yield f"{it['koid']:5}  {parent or '-':>6}  {it['pages']:12,}  {len(it['held']):6,}  {charged:7,}  {' '.join(names) or '(none)'}"


def maps_of(session, words):
    """Lists the address spaces, or that of a region."""
    machine = session.machine
    if isinstance(machine, SourceMachine):
        raise wrong("the machine of page sources has no address space")
    if words and words[0] not in machine.regions:
        raise wrong(f"{words[0]!r} is no region")
    spaces = [it for it in state_of(machine)["spaces"] if not words or any(of["region"] == words[0] for of in it["regions"])]
    if not spaces:
        yield f"{words[0]} is destroyed" if words else "no address space"
    for space in spaces:
        for it in space["regions"]:
            what = f"region of {it['parent']}" if it["parent"] else "address space"
            yield f"{it['region']}: {what}, from {it['address']}, {it['bytes']} bytes, allows {it['allows']}"
        for it in space["pieces"]:
            ready = ", ".join(f"{of['address']} {of['ready']}" for of in it["ready"]) or "none"
            yield (f"  {it['address']} {it['bytes']} {it['permissions']} vmo={it['koid']} offset={it['page'] * 4096} region={it['region']} "
                   f"ready: {ready}")


def draw(session, words):
    """Writes a picture."""
    number = len(session.done)
    turn = Turn(number, session.done[-1] if session.done else "", [], 0, 0, 0, 0, None)
    text = picture(all_rows(session.machine), heading_of(turn, session.machine), f"after line {number}")
    write_file(words[0], f"{text}\n".encode())
    yield f"{words[0]}: written"


def save(session, words):
    """Writes the lines so far."""
    write_file(words[0], "".join(f"{it}\n" for it in session.done).encode(errors="surrogateescape"))
    yield f"{words[0]}: {counted(len(session.done), 'line')}"


def undo(session, _):
    """Takes back the last command."""
    line = session.undo()
    yield "no command to take back" if line is None else f"taken back: {line}"


ASKED = {".help": help_of, ".vmos": vmos, ".map": maps_of, ".draw": draw, ".save": save, ".undo": undo}


def ask(session, line):
    """Yields what a command shows that begins with a dot."""
    command, *words = line.split()
    if command not in ASKED:
        raise wrong(f"{command!r} is no command of the shell{nearest(command, list(ASKED))}; .help lists them")
    what = DOT_COMMANDS[command]
    if len(words) > (what != ""):
        raise wrong(f"{words[what != '']!r} is one word too many")
    if what == "FILE" and not words:
        raise wrong(f"{command} takes the name of a file")
    yield from ASKED[command](session, words)
