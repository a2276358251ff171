"""How a script is played: by the program, by the model, or by a kernel behind a command."""
import argparse
import subprocess

from judging.filling import fill
from judging.replies import bytes_of, join, lines_of, normalised, supported
from looking.turns import MACHINES
from machine_model.answering import counted
from machine_model.grammar import FORMS, KINDS, nearest
from programs import run
from wording import WRONG_WORD, Trouble

from .scripts import Wrong

# What a kernel may be without: commands, kinds of children, and flags.
LACKING = (*FORMS, *KINDS, *dict.fromkeys(it for _, flags in FORMS.values() for it in flags.split()))


def read_without(text):
    """Returns the words of commands, kinds and flags in a list."""
    words = tuple(text.split(","))
    for it in words:
        if it not in LACKING:
            raise argparse.ArgumentTypeError(f"{it!r} is no command, kind or flag{nearest(it, LACKING)}")
    return words


def by_model(script):
    """Returns the turns of a script as the model answers."""
    machine = MACHINES[script.word](script.frames)
    return [(it, machine.answer(it)) for it in script.lines], []


def by_program(script, program):
    """Returns the turns of a script as a program answers, and the reply lines that are left over."""
    ran = run(program, [script.word, "--frames", str(script.frames)], bytes_of(script.lines))
    if ran.returncode:
        raise Wrong(f"the program {str(program)!r} ends with status {ran.returncode}")
    return join(script.lines, lines_of(ran.stdout))


def by_command(script, command, seconds):
    """Returns the same of a kernel behind a command. What it can't tell is filled in."""
    try:
        ran = subprocess.run(command, input=bytes_of(script.lines), stdout=subprocess.PIPE, timeout=seconds, check=False)
    except subprocess.TimeoutExpired:
        raise Wrong(f"{command[0]!r} does not end within {counted(seconds, 'second')}") from None
    except (OSError, ValueError) as error:
        raise Trouble(WRONG_WORD, f"cannot run {command[0]!r}: {getattr(error, 'strerror', None) or error}") from None
    if ran.returncode:
        how = f"with status {ran.returncode}" if ran.returncode > 0 else f"by signal {-ran.returncode}"
        raise Wrong(f"{command[0]!r} ends {how}")
    turns, left = join(script.lines, [normalised(it) for it in lines_of(ran.stdout)])
    return fill(turns, script.frames) if script.word == "run" else turns, left


def why_left_out(script, frames, without):
    """Says why a script is not played on a kernel that has so many frames and not everything, or nothing if it is."""
    if script.word != "run":
        return f"it is run under {script.word}"
    if script.frames != frames:
        return f"it needs a machine of {script.frames} frames"
    lacking = next((word for line in script.lines for word in line.split() if not line.startswith("#") and word in without), "")
    return f"the kernel is without {lacking}" if lacking else ""


def is_unsupported(turns):
    """Returns whether a kernel has not all that a script asks for."""
    return len(supported(turns)) < len(turns)
