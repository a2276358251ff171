"""Runs inside gdb: runs the program again and again, and lets one call for memory fail in each run, the first in the first.

It reads from the environment: SCRIPT, the file of the script; WORDS, the words of the command line, with blanks between; ROOM, a
folder for what the runs write. For run N it writes ROOM/N, and tells the exit status on a line of ROOM/statuses. It ends where a
run makes fewer calls than N. A program may have several threads: the call that fails is the Nth of all.
"""
import os

import gdb

SCRIPT, WORDS, ROOM = (os.environ[it] for it in ("SCRIPT", "WORDS", "ROOM"))
MOST = 100_000


class Asking(gdb.Breakpoint):
    """A breakpoint at one of the program's calls for memory. It counts those of all, and stops at the one that is to fail."""

    count = 0
    failing = 0

    def stop(self):
        Asking.count += 1
        return Asking.count == Asking.failing


def end_run():
    """Goes on to the end of the program, and returns its exit status, or why it ended."""
    while True:
        try:
            return int(gdb.parse_and_eval("$_exitcode"))
        except (gdb.error, TypeError, ValueError):
            pass
        if not gdb.selected_inferior().pid:
            return "signal"
        if Asking.count != Asking.failing:
            return "stopped"
        # The call returns a null pointer.
        gdb.execute("set $rax = 0")
        gdb.execute("set $pc = *(long *) $rsp")
        gdb.execute("set $rsp = $rsp + 8")
        gdb.execute("continue", to_string=True)


def main():
    for line in ("set pagination off", "set confirm off", "set debuginfod enabled off", "set startup-with-shell on"):
        gdb.execute(line)
    for name in ("rattle_alloc", "rattle_realloc"):
        Asking(f"*{name}")
    with open(f"{ROOM}/statuses", "w", encoding="ascii") as statuses:
        for failing in range(1, MOST):
            Asking.count, Asking.failing = 0, failing
            gdb.execute("set $_exitcode = (void) 0")
            gdb.execute(f"run {WORDS} <{SCRIPT} >{ROOM}/{failing}", to_string=True)
            statuses.write(f"{failing} {end_run()} {Asking.count}\n")
            if Asking.count < failing:
                return


main()
