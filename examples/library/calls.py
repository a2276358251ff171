#!/usr/bin/env python3
"""Answers the lines on standard input over the shared library, and writes the replies.

usage: calls.py [--whole] [--frames N] LIBRARY <SCRIPT

LIBRARY is the file of the shared library, and N the number of page frames, 1,024 where it is left out. Each line is one call, and its
reply is written before the next line is read, so that `tools/hunt` can hunt the library: its option --library starts this file. With
--whole the script is answered by one call.
"""
import ctypes
import sys

FRAMES = "1024"
DONE, OUT_OF_ROOM = 0, 1
REPLY = 8300


class Vmosim(ctypes.Structure):
    """What a caller keeps of a machine. All zeros are a closed one."""

    _fields_ = [("at", ctypes.c_void_p), ("is_open", ctypes.c_bool)]


class Answered(ctypes.Structure):
    """What a call tells."""

    _fields_ = [("len", ctypes.c_size_t), ("status", ctypes.c_uint8)]


def call_of(library, name, result, *arguments):
    """Returns a call of the library, with its types."""
    call = getattr(library, name)
    call.restype, call.argtypes = result, arguments
    return call


def in_room(call, room, may_grow):
    """Returns the text that a call writes into its room, which grows as long as it is too small if it may."""
    while True:
        out = ctypes.create_string_buffer(room)
        told = call(out, room)
        if told.status != OUT_OF_ROOM or not may_grow:
            break
        room *= 2
    if told.status != DONE:
        sys.exit(f"calls.py: a call has the status {told.status}")
    return out.raw[: told.len]


def replies(library, frames, lines):
    """Yields the reply to each line."""
    machine, text, size = ctypes.POINTER(Vmosim), ctypes.c_char_p, ctypes.c_size_t
    open_machine = call_of(library, "vmosim_open", ctypes.c_uint8, machine, ctypes.c_uint32)
    answer = call_of(library, "vmosim_line", Answered, machine, text, size, text, size)
    close = call_of(library, "vmosim_close", None, machine)
    kept = Vmosim()
    if open_machine(kept, frames) != DONE:
        sys.exit("calls.py: a machine is not opened")
    for line in lines:
        line = line.removesuffix(b"\n")
        yield in_room(lambda out, room: answer(kept, line, len(line), out, room), REPLY, line.split()[:1] == [b"maps"])
    close(kept)


def whole_reply(library, frames, script):
    """Returns the text of all replies to a script."""
    text, size = ctypes.c_char_p, ctypes.c_size_t
    answer = call_of(library, "vmosim_script", Answered, ctypes.c_uint32, text, size, text, size)
    return in_room(lambda out, room: answer(frames, script, len(script), out, room), REPLY, True)


def main(words):
    if words in (["-h"], ["--help"]):
        print(__doc__.strip())
        return 0
    is_whole = words[:1] == ["--whole"]
    words = words[is_whole:]
    frames = words[1] if words[:1] == ["--frames"] and len(words) > 1 else FRAMES
    words = words[2:] if words[:1] == ["--frames"] else words
    if len(words) != 1 or words[0].startswith("-") or not frames.isdecimal():
        print(__doc__.strip(), file=sys.stderr)
        return 2
    try:
        library = ctypes.CDLL(words[0])
        texts = [whole_reply(library, int(frames), sys.stdin.buffer.read())] if is_whole else replies(library, int(frames), sys.stdin.buffer)
        for it in texts:
            sys.stdout.buffer.write(it)
            sys.stdout.buffer.flush()
    except (OSError, AttributeError) as error:
        sys.exit(f"calls.py: {error}")
    return 0


if __name__ == "__main__":
    sys.exit(main(sys.argv[1:]))
