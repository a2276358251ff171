"""Runs scripts on the built program, and measures them: nanoseconds and instructions."""
import os
import re
import resource
import shutil
import subprocess
import sys
import tempfile
import time

TOP = os.path.dirname(os.path.dirname(os.path.realpath(__file__)))
# The file of the proved program, or nothing if it is not built from the sources as they stand.
PROGRAM = subprocess.run([f"{TOP}/vmosim", "--path"], stdout=subprocess.PIPE, stderr=subprocess.DEVNULL, text=True, check=False).stdout.strip()
RUNS = 3
# A run that takes more seconds than these is not repeated.
LONG = 5


def check_built():
    """Ends where the program is not built from the sources as they stand."""
    if not PROGRAM:
        sys.exit("bench: the program is not built, or is older than its sources; `./vmosim --build` at the top builds it")


def script(before, lines, count):
    """Returns the text of a script: the lines before, and then `count` lines, which are repeated."""
    repeated = "".join(f"{it}\n" for it in lines)
    return ("".join(f"{it}\n" for it in before) + repeated * (count // max(len(lines), 1))).encode()


def replies(text, words=("run",), seconds=None):
    """Returns the lines that the program answers to a script. A run of more than so many seconds raises
    `subprocess.TimeoutExpired`."""
    said = subprocess.run([PROGRAM, *words], input=text, stdout=subprocess.PIPE, check=True, timeout=seconds).stdout
    return said.decode().splitlines()


def stop_on_refusals(name, text, words=("run",), seconds=None):
    """Ends where a line of the script is refused, since the figures would then be of something else. A run that takes
    more than so many seconds raises `subprocess.TimeoutExpired`."""
    wrong = [it for it in replies(text, words, seconds) if it.split()[0] != "OK"]
    if wrong:
        sys.exit(f"bench: {name}: the program answers {wrong[0]}")


def on_script(words, text):
    """Runs the words with the script on standard input, and returns the nanoseconds and what went to standard error."""
    with tempfile.TemporaryFile() as file:
        file.write(text)
        file.seek(0)
        start = time.perf_counter_ns()
        ran = subprocess.run(words, stdin=file, stdout=subprocess.DEVNULL, stderr=subprocess.PIPE, check=True)
        return time.perf_counter_ns() - start, ran.stderr.decode()


def best_time(text, words=("run",)):
    """Returns the nanoseconds of the shortest of some runs."""
    return min(on_script([PROGRAM, *words], text)[0] for _ in range(RUNS))


def used_by_programs():
    """Returns the processor seconds of all programs that were run so far."""
    used = resource.getrusage(resource.RUSAGE_CHILDREN)
    return used.ru_utime + used.ru_stime


def processor_seconds(text, words=("run",)):
    """Returns the processor seconds of the shortest of some runs. Other work on the machine changes them little."""
    best = None
    for _ in range(RUNS):
        before = used_by_programs()
        on_script([PROGRAM, *words], text)
        now = used_by_programs() - before
        best = min(now, best or now)
        if best > LONG:
            break
    return best


# How instructions are counted: the command, and how its number is found in what it writes.
COUNTERS = [
    (["valgrind", "--tool=callgrind", "--callgrind-out-file=/dev/null"], r"Collected : (\d+)"),
    (["perf", "stat", "-x", ",", "-e", "instructions:u"], r"(?m)^(\d+),"),
]


def instructions(counter, text, words=("run",)):
    """Returns how many instructions a run takes, or None where the counter does not tell."""
    command, pattern = counter
    try:
        found = re.search(pattern, on_script([*command, PROGRAM, *words], text)[1])
    except (OSError, subprocess.CalledProcessError):
        return None
    return int(found[1]) if found else None


def first_counter():
    """Returns the first of the counters that works here, or None."""
    here = [it for it in COUNTERS if shutil.which(it[0][0])]
    return next((it for it in here if instructions(it, b"stat\n") is not None), None)
