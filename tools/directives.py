#!/usr/bin/env python3
"""How a script asks to be run: by a first line such as `# vmosim: run --frames 10`. The words of a command line win over it.

usage: tools/directives.py [--] FILE..    prints a line for each script: the words that it is run under

Exit status: 0 all was printed, 2 a wrong word, 4 a file cannot be read.
"""
import re
import sys

sys.dont_write_bytecode = True

from wording import MOST_FRAMES, UNREADABLE, WRONG_WORD, Trouble, number_up_to, run_tool, write_out

MARK = "# vmosim: "
# How much of the first line is read, as the script ./vmosim does.
MOST_BYTES = 80
WORDS = ("run", "batch", "sources", "actors", "check", "work")
FRAMES = 1024
# The option of a tool that gives the machine its frames.
FRAMES_WORD = {"metavar": "N", "type": number_up_to(MOST_FRAMES),
               "help": "how many page frames, not those of the script's first line, as in '# vmosim: run --frames 10', or else 1,024"}


def asked_words(first):
    """Returns the words by which the first line of a script, or of a transcript, asks to be run, or none."""
    line = first[:MOST_BYTES]
    asked = line.removeprefix("> ")
    if not asked.startswith(MARK):
        return []
    # The line may end with a carriage return.
    words = re.sub("[^a-z0-9]$", "", asked[len(MARK) :]).split()
    # The transcript of a script is judged on as many frames as the script asks for.
    return ["check", *words[1:]] if asked != line and words[:1] == ["run"] else words


def read_first(path):
    """Returns the first line of a file."""
    try:
        with open(path, "rb") as file:
            return file.read(MOST_BYTES).split(b"\n")[0].decode("ascii", "surrogateescape")
    except (OSError, ValueError) as error:
        raise Trouble(UNREADABLE, f"cannot read {str(path)!r}: {getattr(error, 'strerror', None) or error}") from None


def words_for(path):
    """Returns the words that the script in a file is run under."""
    return asked_words(read_first(path)) or ["run"]


def wrong(words, why):
    """Returns the trouble of words that a first line asks for."""
    return Trouble(WRONG_WORD, f"line 1 asks for {' '.join(words)!r}: {why}")


def read_asked(words, known):
    """Returns the word and the frames that a first line asks for, the first word that a tool knows and
    1,024 where it leaves them open. The word must be one that the tool knows."""
    word, *options = words or [known[0]]
    if word not in WORDS:
        raise wrong(words, f"{word!r} is none of {', '.join(WORDS)}")
    if word not in known:
        raise wrong(words, f"this tool plays {', '.join(known[:-1])} and {known[-1]}" if len(known) > 1 else f"this tool plays {known[0]}")
    if not options:
        return word, FRAMES
    if len(options) != 2 or options[0] != "--frames" or not re.fullmatch("[0-9]{1,5}", options[1]) or not 1 <= int(options[1]) <= MOST_FRAMES:
        raise wrong(words, f"behind {word} may stand --frames and a number from 1 to {MOST_FRAMES}")
    return word, int(options[1])


def settle(asked, lines, known):
    """Sets the word and the frames that the words of a tool leave open to those that the first line of a script asks for. Another word
    on the command line than in the script has 1,024 frames."""
    words = asked_words(lines[0]) if lines else []
    given = getattr(asked, "word", None)
    if given and words[:1] != [given]:
        words = [given]
    word, frames = read_asked(words, known) if not given or asked.frames is None else (given, asked.frames)
    asked.word = given or word
    asked.frames = asked.frames or frames


def main(files):
    files = files[files[:1] == ["--"] :]
    if not files:
        raise Trouble(WRONG_WORD, "name the files of scripts")
    write_out(f"{' '.join(words_for(it))}\n" for it in files)
    return 0


if __name__ == "__main__":
    run_tool("directives", main)
