"""What is to be said of a transcript."""
import os

from .machine import Machine


def verdict(turns, frames):
    """Returns what is to be said of a transcript: `turns` are lines of a script, each with the lines of a reply."""
    machine, line_number = Machine(frames), 0
    for line, told in turns:
        wanted = machine.answer(line, told[0] if told else "")
        if told != wanted:
            return f"ILLEGAL {line_number + 2 + len(os.path.commonprefix([told, wanted]))}"
        line_number += 1 + len(told)
    return f"LEGAL {len(turns)}"
