"""What is told of scripts that were played: as text, as TAP and as JUnit has it."""
from typing import NamedTuple
from xml.sax.saxutils import escape, quoteattr

from judging.reasons import shown
from machine_model.answering import counted


class Outcome(NamedTuple):
    """What came of a script: its name, what is wrong with it in lines of text, why it is left out, and how many seconds it took."""

    name: str
    wrong: list
    left_out: str
    seconds: float


def pointed(name, differences):
    """Returns what is told of the first difference of a script, as a compiler tells it, and how many there are more."""
    first, *more = differences
    if not first.number:
        return [f"error: {counted(len(first.got), 'reply line')} too many", f"  --> {name}", f"   = got:    {shown(first.got[0])}"]
    width = len(str(first.number))
    blank = " " * width
    lines = ["error: the reply is not as expected", f"{blank}--> {name}:{first.number}", f"{blank} |", f"{first.number} | {shown(first.line)}"]
    for word, replies in (("wanted", first.wanted), ("got", first.got or ["nothing"])):
        lines += [f"{blank} | {f'{word}:' if at == 0 else '':7} {shown(it)}" for at, it in enumerate(replies)]
    lines += [f"{blank} = why:   {first.why}"] if first.why else []
    lines += [f"{blank} = and the replies to {counted(len(more), 'more line')} differ"] if len(more) > 1 else []
    lines += [f"{blank} = and the reply to 1 more line differs"] if len(more) == 1 else []
    return lines


def counts(outcomes):
    """Returns how many scripts passed, failed and were left out."""
    failed, left_out = sum(bool(it.wrong) for it in outcomes), sum(bool(it.left_out) for it in outcomes)
    return len(outcomes) - failed - left_out, failed, left_out


def summary(tool, outcomes):
    """Returns the same as a line."""
    passed, failed, left_out = counts(outcomes)
    return f"{tool}: {passed} passed, {failed} failed" + (f", {left_out} left out" if left_out else "")


def tap(outcomes):
    """Yields the lines of TAP."""
    yield "TAP version 14"
    yield f"1..{len(outcomes)}"
    for number, it in enumerate(outcomes, 1):
        name = it.name.replace("\\", "\\\\").replace("#", "\\#")
        yield f"{'not ' if it.wrong else ''}ok {number} - {name}" + (f" # SKIP {it.left_out}" if it.left_out else "")
        if it.wrong:
            yield from ("  ---", "  message: |", *(f"    {line}" for line in it.wrong), "  ...")


def junit(outcomes):
    """Yields the lines of a JUnit report."""
    _, failed, left_out = counts(outcomes)
    yield '<?xml version="1.0" encoding="UTF-8"?>'
    yield f'<testsuite name="vmosim" tests="{len(outcomes)}" failures="{failed}" skipped="{left_out}" time="{sum(it.seconds for it in outcomes):.3f}">'
    for it in outcomes:
        text = f"<failure message={quoteattr(it.wrong[0])}>{escape(chr(10).join(it.wrong))}</failure>" if it.wrong else ""
        text += f"<skipped message={quoteattr(it.left_out)}/>" if it.left_out else ""
        yield f'  <testcase classname="vmosim" name={quoteattr(it.name)} time="{it.seconds:.3f}">{text}</testcase>'
    yield "</testsuite>"
