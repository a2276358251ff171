"""The verdict on a transcript: that of the program's word `check`, or of the model in Python."""
import re

from machine_model import verdict
from programs import run
from wording import WRONG_WORD, Trouble

from .replies import LINE_BYTES, bytes_of, turns_of


def by_model(lines, frames):
    """Returns the verdict of the model on the lines of a transcript."""
    wrong = (at for at, it in enumerate(lines) if not it.startswith(("> ", "< ")) or len(it) > LINE_BYTES)
    end = next(wrong, len(lines))
    if lines[:end] and lines[0].startswith("< "):
        return "ILLEGAL 1"
    said = verdict(turns_of(lines[:end]), frames)
    # A reply line that is missing is missing where the line stands that is none.
    if end < len(lines) and (said.startswith("LEGAL") or int(said.split()[1]) > end):
        return f"MALFORMED {end + 1}"
    return said


def by_program(program, lines, frames):
    """Returns the verdict of a program on the lines of a transcript."""
    ran = run(program, ["check", "--frames", str(frames)], bytes_of(lines))
    said = ran.stdout.decode("latin-1").strip()
    form = re.fullmatch("LEGAL [0-9]+|(?:ILLEGAL|MALFORMED) ([1-9][0-9]{0,17})", said)
    if ran.returncode or not form or int(form[1] or 1) > len(lines) + 1:
        raise Trouble(WRONG_WORD, f"{str(program)!r} gives no verdict and ends with status {ran.returncode}")
    return said


def judge(program, lines, frames):
    """Returns the verdict on the lines of a transcript, by a program or, without one, by the model."""
    return by_program(program, lines, frames) if program else by_model(lines, frames)
