"""How a line is answered, and how a command is refused."""
from .grammar import FORMS, NoCommand, read_line
from .limits import PAGE


class Refusal(Exception):
    """A refusal: its name, the condition that held, and its rank among the refusals of the command, from 1. A line outside the
    grammar has the rank 0. A command that is refused changes nothing."""

    def __init__(self, name, why, rank):
        super().__init__(name)
        self.name = name
        self.why = why
        self.rank = rank


def plural(number, noun):
    """Returns a noun in the singular or the plural, as it goes with a number."""
    return noun if number == 1 else f"{noun[:-1]}ies" if noun.endswith("y") else f"{noun}s"


def counted(number, noun):
    """Returns a number with what it counts."""
    return f"{number:,} {plural(number, noun)}"


def are(number):
    """Returns the verb that goes with a number."""
    return "is" if number == 1 else "are"


def misplaced(**arguments):
    """Says which argument is no multiple of a page. A row of refusals takes such words, and nothing if its condition does not
    hold."""
    return next((f"{name} = {value} is no multiple of {PAGE}" for name, value in arguments.items() if value % PAGE), "")


class Answering:
    """Answers lines by a method for each command of its forms."""

    forms = FORMS

    def __init__(self):
        # The reply that was given elsewhere, the refusals that were tried of the last line, and the one that came.
        self.told = ""
        self.tried = []
        self.refusal = None

    def answer(self, line, told=""):
        """Does a line of a script, and returns the lines of its reply. If the machine may choose, it chooses the reply whose
        first line is `told`, if it may."""
        self.told, self.tried, self.refusal = told, [], None
        try:
            command = read_line(line, self.forms)
            if command is None:
                return []
            word, arguments, flags = command
            said = getattr(self, word)(*arguments, *([flags] if self.forms[word][1] else []))
        except NoCommand as wrong:
            self.refusal = Refusal("SYNTAX", str(wrong), 0)
        except Refusal as refusal:
            self.refusal = refusal
        if self.refusal:
            return [self.refusal.name]
        return ("OK" if said is None else f"OK {said}").split("\n")

    def refuse(self, *rows):
        """Tries refusals in their order, each a name and the words of its condition, and raises the first that has words."""
        for name, why in rows:
            self.tried.append(name)
            if why:
                raise Refusal(name, why, len(self.tried))

    def may_lack_host_memory(self, holds=True):
        """Refuses for the host's memory if the command may be, and the reply that was given says so."""
        is_told = holds and self.told == "HOST_MEMORY"
        self.refuse(("HOST_MEMORY", is_told and "the host had too little memory for the tables of the simulator"))
