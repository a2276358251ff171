"""What a word of a line may go on with: by the grammar, and by the names that are there."""
import glob
import os

from machine_model.grammar import JOB_KINDS, KINDS, RIGHTS, SOURCE_KINDS

# The commands that begin with a dot, and what may stand behind each.
DOT_COMMANDS = {".help": "WORD", ".vmos": "", ".map": "REGION", ".draw": "FILE", ".save": "FILE", ".undo": ""}
# The commands whose first argument is a new name.
GIVING = {"vmo_create", "vmo_create_child", "vmo_pin", "root_create", "vmar_allocate", "source_create", "begin"}
LETTERS = {"VMO": "v", "REGION": "r", "PIN": "p", "JOB": "j"}
WORDS = {"KIND": KINDS, "SOURCE_KIND": SOURCE_KINDS, "JOB_KIND": JOB_KINDS, "PERM": tuple(RIGHTS)}


def numbered(names):
    """Returns names in the order of their numbers."""
    return sorted(names, key=lambda it: int(it[1:]))


def names_there(machine, kind):
    """Returns the names of a kind that are there: open names of VMOs, live regions, pins or jobs."""
    if kind == "VMO":
        return numbered(machine.names)
    if kind == "REGION":
        return numbered(name for name, it in getattr(machine, "regions", {}).items() if it.is_live)
    return numbered(getattr(machine, {"PIN": "pins", "JOB": "jobs"}[kind], {}))


def new_name(machine, kind):
    """Returns a name of a kind that was not given: the one behind the greatest."""
    given = getattr(machine, "regions", {}) if kind == "REGION" else names_there(machine, kind)
    return f"{LETTERS[kind]}{max((int(it[1:]) for it in given), default=0) + 1}"


def files(word):
    """Returns the files whose names begin with a word."""
    return sorted(it + "/" * os.path.isdir(it) for it in glob.glob(f"{glob.escape(word)}*"))


def argument_words(machine, command, at):
    """Returns the words that may stand as the argument of a number, from 0 on, or None if there are no more arguments."""
    form = machine.forms[command][0].split()
    if at >= len(form):
        return None
    kind = form[at].rpartition(":")[2]
    if kind in LETTERS:
        return [new_name(machine, kind)] if at == 0 and command in GIVING else names_there(machine, kind)
    return list(WORDS.get(kind, ()))


def words_behind(machine, before, word):
    """Returns the words that may stand behind others, where a word was begun."""
    if not before:
        return [*machine.forms, *DOT_COMMANDS]
    command, *arguments = before
    if command in DOT_COMMANDS:
        if arguments:
            return []
        of = {"WORD": [*machine.forms, *DOT_COMMANDS], "REGION": names_there(machine, "REGION"), "FILE": files(word)}
        return of.get(DOT_COMMANDS[command], [])
    if command not in machine.forms:
        return []
    found = argument_words(machine, command, len(arguments))
    return [it for it in machine.forms[command][1].split() if it not in arguments] if found is None else found


def candidates(machine, line, word):
    """Returns the words that a line may go on with, which ends with a word that was begun."""
    before = line[: len(line) - len(word)].split()
    return [it for it in words_behind(machine, before, word) if it.startswith(word)]
