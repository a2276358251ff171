"""A kernel behind a command: it is started, answers line by line, and may hang or die."""
import os
import select
import signal
import subprocess
import time

from judging.replies import bytes_of, command_of, more_lines, normalised, text_of
from machine_model.answering import counted
from wording import WRONG_WORD, Trouble

# The most bytes of a line that are waited for. The rest is a line of its own.
MOST_BYTES = 1 << 20
PIECE = 1 << 16
# How many seconds a kernel that says nothing is given to write at the end of its input.
MOST_WAIT = 2


class Lost(Exception):
    """Says that a kernel hangs or is dead."""


class Kernel:
    """A process that reads lines and writes replies. Each reply, and its end, may take so many seconds."""

    def __init__(self, command, seconds):
        self.seconds = seconds
        self.rest = b""
        self.has_said = False
        try:
            # A session of its own lets all processes of the command be ended at once.
            self.process = subprocess.Popen(command, stdin=subprocess.PIPE, stdout=subprocess.PIPE, bufsize=0, start_new_session=True)
        except (OSError, ValueError) as error:
            raise Trouble(WRONG_WORD, f"cannot start {command[0]!r}: {getattr(error, 'strerror', None) or error}") from None
        os.set_blocking(self.process.stdin.fileno(), False)

    def __enter__(self):
        return self

    def __exit__(self, *_):
        """Ends what is left of the kernel."""
        try:
            os.killpg(self.process.pid, signal.SIGKILL)
        except (ProcessLookupError, PermissionError):
            self.process.kill()
        self.process.stdin.close()
        self.process.stdout.close()
        self.process.wait()

    def wait(self, deadline, reading=(), writing=()):
        """Waits until a stream is ready."""
        ready = select.select(reading, writing, [], max(deadline - time.monotonic(), 0))
        if not any(ready):
            raise Lost(f"does not answer within {counted(self.seconds, 'second')}")

    def send(self, data, deadline):
        """Sends bytes."""
        while data:
            self.wait(deadline, writing=[self.process.stdin])
            try:
                data = data[os.write(self.process.stdin.fileno(), data) :]
            except BrokenPipeError:
                # What it wrote before can still be read.
                return

    def read_line(self, deadline):
        """Returns the next line that it wrote, or None if it ended."""
        while b"\n" not in self.rest and len(self.rest) < MOST_BYTES:
            self.wait(deadline, reading=[self.process.stdout])
            piece = os.read(self.process.stdout.fileno(), PIECE)
            if not piece:
                break
            self.has_said = True
            self.rest += piece
        if not self.rest:
            return None
        line, _, self.rest = self.rest.partition(b"\n")
        return text_of(line)

    def died(self):
        """Returns how it ended, in words."""
        try:
            status = self.process.wait(self.seconds)
        except subprocess.TimeoutExpired:
            return "closes its output before the script ends"
        return f"is ended by signal {-status}" if status < 0 else f"ends with status {status}"

    def flush_words(self):
        """Asks of a kernel that never wrote a byte whether it flushes, if it writes at the end of its input."""
        if self.has_said:
            return ""
        self.process.stdin.close()
        is_late = select.select([self.process.stdout], [], [], MOST_WAIT)[0] and os.read(self.process.stdout.fileno(), PIECE)
        return "; it writes its replies when its input ends: did it flush?" if is_late else ""

    def answer(self, line, replies):
        """Gives it a line, and adds the lines of its reply to those that are given."""
        deadline = time.monotonic() + self.seconds
        self.send(bytes_of([line]), deadline)
        left = 1 if command_of(line) else 0
        while left:
            try:
                said = self.read_line(deadline)
            except Lost as lost:
                raise Lost(f"{lost}{self.flush_words()}") from None
            if said is None:
                raise Lost(self.died())
            replies.append(normalised(said))
            left += more_lines(line, replies[0]) * (len(replies) == 1) - 1

    def end(self, replies):
        """Ends the script, and adds what is still written to the lines that are given. It must end then, with the status 0."""
        self.process.stdin.close()
        deadline = time.monotonic() + self.seconds
        try:
            while (said := self.read_line(deadline)) is not None:
                replies.append(normalised(said))
            status = self.process.wait(max(deadline - time.monotonic(), 0))
        except (Lost, subprocess.TimeoutExpired):
            raise Lost(f"does not end within {counted(self.seconds, 'second')} of the end of the script") from None
        if status:
            raise Lost(self.died())
