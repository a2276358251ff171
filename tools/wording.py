"""Words of a command line, files that are read and written, and what stops a tool. Each trouble is said in one line."""
import argparse
import os
import pathlib
import re
import sys

OUTPUT, ERRORS = 1, 2
WRONG_WORD, UNREADABLE, UNWRITABLE, BROKEN_OFF = 2, 4, 5, 130
MOST_FRAMES = 65_536


class Trouble(Exception):
    """What stops a tool: the exit status, and what it says."""

    def __init__(self, status, words):
        # Both are what it is made of again, if it comes from another process.
        super().__init__(status, words)
        self.status = status

    def __str__(self):
        return str(self.args[1])


def called(tool):
    """Returns what a tool is called: by its name on PATH if it is installed, and else by that in tools/."""
    return f"vmosim-{tool}" if os.path.basename(sys.argv[0]).startswith("vmosim-") else f"tools/{tool}"


class Words(argparse.ArgumentParser):
    """The words of a command line of a tool, which stands in tools/ unless it names another folder, or is installed. The help ends with the
    text given, as it is laid out."""

    def __init__(self, tool, **more):
        name = tool if "/" in tool else called(tool)
        if "usage" in more:
            more["usage"] = more["usage"].replace(f"tools/{tool} ", f"{name} ")
        super().__init__(prog=name, allow_abbrev=False, formatter_class=argparse.RawDescriptionHelpFormatter, **more)

    def print_help(self, file=None):
        write_out([self.format_help()])

    def error(self, message):
        raise Trouble(WRONG_WORD, f"{message}; '{self.prog} --help' lists the words")


def words_before(words):
    """Returns the words of a command line before the first `--`, and those behind it."""
    at = words.index("--") if "--" in words else len(words)
    return words[:at], words[at + 1 :]


def number_up_to(most):
    """Returns what reads a number from 1 to another."""

    def read(word):
        if not re.fullmatch("[0-9]{1,9}", word) or not 1 <= int(word) <= most:
            raise argparse.ArgumentTypeError(f"{word!r} is no number from 1 to {most}")
        return int(word)

    return read


def read_file(path):
    """Returns the bytes of a file."""
    try:
        return pathlib.Path(path).read_bytes()
    except (OSError, ValueError) as error:
        raise Trouble(UNREADABLE, f"cannot read {str(path)!r}: {getattr(error, 'strerror', None) or error}") from None


def write_file(path, data):
    """Writes bytes to a file."""
    try:
        pathlib.Path(path).write_bytes(data)
    except (OSError, ValueError) as error:
        raise Trouble(UNWRITABLE, f"cannot write {str(path)!r}: {getattr(error, 'strerror', None) or error}") from None


def silence(stream):
    """Sends what is left in the buffer of a stream, and all that follows, to nowhere."""
    os.dup2(os.open(os.devnull, os.O_WRONLY), stream)


def is_written(write, *piece):
    """Writes to the standard output, and returns whether its reader takes more."""
    try:
        write(*piece)
    except OSError as error:
        silence(OUTPUT)
        if not isinstance(error, BrokenPipeError):
            raise Trouble(UNWRITABLE, f"cannot write the output: {error.strerror}") from None
        return False
    return True


def write_out(pieces):
    """Writes pieces, of bytes or of text, to the standard output, and returns whether its reader takes more. One that does not is no
    trouble."""
    if sys.stdout is None:
        raise Trouble(UNWRITABLE, "cannot write the output: the stream is closed")
    # The name of a file may have bytes that are no text.
    data = (it if isinstance(it, bytes) else it.encode(errors="backslashreplace") for it in pieces)
    stream = sys.stdout.buffer
    return all(is_written(stream.write, it) for it in data) and is_written(stream.flush)


def say(tool, words):
    """Says something on standard error, if that can be written."""
    if sys.stderr is None:
        return
    try:
        print(f"{tool}: {words}", file=sys.stderr, flush=True)
    except OSError:
        silence(ERRORS)


def stop_of(error):
    """Returns what stopped a test, in one line, with the last line of the test's file at which that was."""
    last = error.__traceback__.tb_next or error.__traceback__
    while last.tb_next and last.tb_next.tb_frame.f_code.co_filename == last.tb_frame.f_code.co_filename:
        last = last.tb_next
    return f"line {last.tb_lineno}, {type(error).__name__}: {str(error).splitlines()[0] if str(error) else 'no words'}"


def tried(failures, test, *words):
    """Runs a test, and returns what it returns. What stops it goes to the failures, so that those before are told too, and the next
    test runs."""
    try:
        return test(*words)
    except Exception as error:
        failures.append(f"{test.__name__} is stopped: {stop_of(error)}")
        return None


def run_tool(tool, main):
    """Runs a tool on the words of its command line, and ends with the status that it returns, or with that of a trouble."""
    try:
        sys.exit(main(sys.argv[1:]))
    except Trouble as trouble:
        say(tool, trouble)
        sys.exit(trouble.status)
    except KeyboardInterrupt:
        sys.exit(BROKEN_OFF)
