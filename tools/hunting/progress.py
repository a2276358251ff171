"""How far a hunt is, on a terminal."""
import sys
import time

from machine_model.answering import counted

SHOWN_SECONDS = 0.2


def progress_words(done, most, seconds):
    """Says how many trials of those asked for are done, their rate, and how long the rest takes."""
    rate = done / max(seconds, 0.001)
    left = f", some {counted(round((most - done) / rate), 'second')} left" if 0 < done < most else ""
    return f"{done:,} of {counted(most, 'trial')}, {rate:.1f} a second{left}"


class Progress:
    """A line of progress on a terminal, in the place of the one before."""

    def __init__(self):
        self.is_shown = sys.stderr is not None and sys.stderr.isatty()
        self.next = 0
        self.width = 0
        self.begun = time.monotonic()

    def trials(self, done, most):
        """Shows how many trials of those asked for are done, their rate, and how long the rest takes."""
        self.show(progress_words(done, most, time.monotonic() - self.begun))

    def show(self, words, always=False):
        """Shows words, unless others were shown just now."""
        now = time.monotonic()
        if self.is_shown and (always or now >= self.next):
            self.next = now + SHOWN_SECONDS
            print(f"\r{words:<{self.width}}", end="", file=sys.stderr, flush=True)
            self.width = len(words)

    def end(self):
        """Takes the line away."""
        self.show("", True)
        self.show("", True)
