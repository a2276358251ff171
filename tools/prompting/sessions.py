"""The machine behind a prompt: the program and the model side by side, one line after another."""
import signal
import subprocess
from contextlib import contextmanager

from judging.replies import more_lines
from looking.turns import MACHINES, MOST_ANSWER, Turn, answered, cut, visible
from machine_model.grammar import NoCommand, read_line
from wording import WRONG_WORD, Trouble

DIFFERENT = 1


@contextmanager
def uninterrupted():
    """Lets no interrupt come between a line and its reply."""
    before = signal.signal(signal.SIGINT, signal.SIG_IGN)
    try:
        yield
    finally:
        signal.signal(signal.SIGINT, before)


def command_in(line, forms):
    """Returns the command of a line, an empty word of a line outside the grammar, and None of a line without a reply."""
    try:
        command = read_line(line, forms)
        return command and command[0]
    except NoCommand:
        return ""


class Session:
    """A machine with so many frames that does lines of a word. Without a program the model answers alone."""

    def __init__(self, word, frames, program):
        self.word, self.frames, self.program = word, frames, program
        self.done = []
        self.process = None
        self.begin()

    def begin(self):
        """Begins with an empty machine."""
        self.end()
        self.machine = MACHINES[self.word](self.frames)
        if self.program:
            words = [self.program, self.word, "--frames", str(self.frames)]
            try:
                # In a session of its own it gets no interrupt of the terminal.
                self.process = subprocess.Popen(words, stdin=subprocess.PIPE, stdout=subprocess.PIPE, start_new_session=True)
            except OSError as error:
                raise Trouble(WRONG_WORD, f"cannot run {str(self.program)!r}: {error.strerror}") from None

    def end(self):
        """Ends the program."""
        if self.process:
            try:
                self.process.stdin.close()
            except BrokenPipeError:
                pass
            self.process.stdout.close()
            self.process.wait()
            self.process = None

    def read(self):
        """Returns a line of the program."""
        line = self.process.stdout.readline()
        if not line.endswith(b"\n"):
            raise Trouble(DIFFERENT, f"the program {str(self.program)!r} has ended")
        return line.decode(errors="replace").rstrip("\n")

    def ask(self, line):
        """Returns the lines that the program answers to a line."""
        try:
            self.process.stdin.write(line.encode(errors="surrogateescape") + b"\n")
            self.process.stdin.flush()
        except BrokenPipeError:
            raise Trouble(DIFFERENT, f"the program {str(self.program)!r} has ended") from None
        first = self.read()
        return [first, *(self.read() for _ in range(more_lines(line, first)))]

    def do(self, line):
        """Does a line, and returns what happened, or None if it has no reply."""
        self.done.append(line)
        if command_in(line, self.machine.forms) is None:
            return None
        with uninterrupted():
            said = self.ask(line) if self.process else None
            taken, given = self.machine.taken, self.machine.given
            replies = self.machine.answer(line, said[0] if said else "")
        if said is not None and said != replies:
            both = f"the program answers {answered(said)}\nshell: the model answers   {answered(replies)}"
            raise Trouble(DIFFERENT, f"{cut(visible(line), MOST_ANSWER)!r}: the answers differ\nshell: {both}")
        return Turn(len(self.done), line, replies, self.machine.taken - taken, self.machine.given - given, self.machine.used, 0,
                    self.machine.refusal)

    def undo(self):
        """Takes back the last command, and returns it, or None if there is none: does all other lines on an empty machine."""
        commands = [at for at, it in enumerate(self.done) if command_in(it, self.machine.forms)]
        if not commands:
            return None
        lines, self.done = self.done, []
        line = lines.pop(commands[-1])
        self.begin()
        for it in lines:
            self.do(it)
        return line
