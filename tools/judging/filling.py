"""Fills in what a kernel can't tell: `?` in a reply."""
import bisect
import math
import re

from machine_model import Machine

from .replies import command_of

FRAMES = "OK( ([?]|0|[1-9][0-9]{0,9}))+"


def filled_line(told, answer):
    """Returns a reply line in which each value `?`, as in `charged=?`, is that of the answer, if the line is like the answer otherwise.
    A word `?` alone is that of the answer too."""
    words, wanted = told.split(" "), answer.split(" ")
    if len(words) != len(wanted):
        return told
    return " ".join(its if re.fullmatch(r"([a-z]+=)?\?", it) and its.startswith(it[:-1]) else it for it, its in zip(words, wanted))


class Stay:
    """The turns from the first pin of a page to the last unpin, between which the page keeps its frame, and that frame if it is known."""

    def __init__(self, begin):
        self.begin, self.end, self.frame = begin, math.inf, None


def stays_of(turns, frames):
    """Returns the stays of all pages that turns pin, in the order of their first turns, and by each turn those of its pages."""
    machine, stays, open_stays, of_turn = Machine(frames), [], {}, {}
    for at, (line, replies) in enumerate(turns):
        told = command_of(line) == "vmo_pin" and replies and re.fullmatch(FRAMES, replies[0])
        # The model has numbers of its own for the frames of pinned pages.
        answer = machine.answer(line, replies[0] if replies and not told else "")
        if told and not machine.refusal:
            own = answer[0].split(" ")[1:]
            stays += [open_stays.setdefault(it, Stay(at)) for it in own if it not in open_stays]
            of_turn[at] = [open_stays[it] for it in own]
            for stay, word in zip(of_turn[at], replies[0].split(" ")[1:]):
                stay.frame = int(word) if stay.frame is None and word != "?" else stay.frame
        elif command_of(line) == "vmo_unpin":
            pinned = {str(pin.vmo.pages[page].number) for pin in machine.pins.values() for page in pin.pages}
            for it in open_stays.keys() - pinned:
                open_stays.pop(it).end = at
    return stays, of_turn


def choose_frames(stays, frames):
    """Gives each stay whose frame is not known one that no other stay has meanwhile, if there is one."""
    begins, ends = {}, {}
    for stay in stays:
        if stay.frame is not None:
            begins.setdefault(stay.frame, []).append(stay.begin)
    for stay in stays:

        def is_free(frame):
            known = begins.get(frame, [])
            following = bisect.bisect_left(known, stay.begin)
            return ends.get(frame, 0) <= stay.begin and (following == len(known) or known[following] >= stay.end)

        if stay.frame is None:
            stay.frame = next(filter(is_free, range(frames)), None)
        ends[stay.frame] = max(ends.get(stay.frame, 0), stay.end)


def fill_frames(turns, frames):
    """Returns turns in which each `?` of a pin is a frame that fits what the other replies tell, if there is one."""
    if not any(re.fullmatch(FRAMES, replies[0]) and "?" in replies[0] for _, replies in turns if replies):
        return turns
    stays, of_turn = stays_of(turns, frames)
    choose_frames(stays, frames)
    filled = list(turns)
    for at, pages in of_turn.items():
        line, (reply, *others) = turns[at]
        words = reply.split(" ")
        if len(words) == 1 + len(pages):
            numbers = [it if it != "?" or stay.frame is None else str(stay.frame) for it, stay in zip(words[1:], pages)]
            filled[at] = line, [" ".join(["OK", *numbers]), *others]
    return filled


def fill(turns, frames):
    """Returns turns in which each `?` in a reply is what the model answers, as it follows them. A reply that is nothing but `?` is any
    refusal. What can't be filled in stays."""
    if not any("?" in it for _, replies in turns for it in replies):
        return turns
    machine, filled = Machine(frames), []
    for line, replies in fill_frames(turns, frames):
        answer = machine.answer(line, replies[0] if replies else "")
        if replies == ["?"]:
            replies = answer if machine.refusal else replies
        else:
            replies = [filled_line(it, its) for it, its in zip(replies, answer)] + replies[len(answer) :]
        filled.append((line, replies))
    return filled
