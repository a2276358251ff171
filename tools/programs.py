"""The program that a tool asks: the file that its words name, or else what `./vmosim` has built from the sources as they stand."""
import functools
import os
import pathlib
import subprocess

from wording import WRONG_WORD, Trouble, say

DOOR = pathlib.Path(__file__).resolve().parent.parent / "vmosim"
VARIABLE = "VMOSIM"


def program_file(word):
    """Returns the path of a file that may be run. A name without a slash is that of a file in the current folder, as it is for every
    other file that a tool takes: PATH is not searched."""
    path = os.path.abspath(word)
    if not os.path.isfile(path) or not os.access(path, os.X_OK):
        raise Trouble(WRONG_WORD, f"{word!r} is not a file that may be run")
    return path


def add_program_word(parser, does="asks"):
    """Adds the option that names the program to a command line."""
    parser.add_argument("--program", metavar="PROGRAM", type=program_file, default=os.environ.get(VARIABLE) or None,
                        help=f"{does} this file in place of what ./vmosim has built; so does the environment variable {VARIABLE}")


@functools.cache
def built(*words):
    """Returns the file of the program that `./vmosim` prints for words, or None if it is not built from the sources as they stand."""
    try:
        ran = subprocess.run([DOOR, *words], stdin=subprocess.DEVNULL, stdout=subprocess.PIPE, stderr=subprocess.DEVNULL, check=False)
    except OSError:
        return None
    return os.fsdecode(ran.stdout.removesuffix(b"\n")) or None


def program_for(asked, tool):
    """Returns the program that a tool asks: the one that its words name, the proved one, or else the one that was compiled without its
    proof. None is the model in Python, which answers if there is no program. What is not proved is said on standard error."""
    program = asked.program or built("--path")
    if program:
        return program
    program = built("--try", "--path")
    says = "the same code compiled without its proof" if program else "the model in Python"
    say(tool, f"the proved program is not built; {says} answers in its place")
    return program


def run(program, words, data, seconds=None):
    """Runs a program on words and on bytes, and returns what it did. It is ended if it takes more than so many seconds."""
    try:
        return subprocess.run([program, *words], input=data, stdout=subprocess.PIPE, check=False, timeout=seconds)
    except subprocess.TimeoutExpired:
        raise Trouble(1, f"the program {str(program)!r} takes more than {seconds} seconds") from None
    except OSError as error:
        raise Trouble(WRONG_WORD, f"cannot run {str(program)!r}: {error.strerror}") from None
