"""The processes that answer: each a Python beside the server, which is ended when it takes long or when nobody waits for it."""
import json
import os
import select
import signal
import subprocess
import sys
import threading
import time

MOST_SECONDS = 30
MOST_IDLE = 2


class Ended(Exception):
    """Says why a request has no answer."""


class Worker:
    """A process that takes a request a line, and answers each in a line."""

    def __init__(self, command):
        # In a session of its own, so that all that it runs ends with it.
        self.process = subprocess.Popen(command, stdin=subprocess.PIPE, stdout=subprocess.PIPE, start_new_session=True)
        self.is_ended = False

    def ask(self, request):
        """Returns the answer to a request, as bytes."""
        until = time.monotonic() + MOST_SECONDS
        try:
            self.process.stdin.write(json.dumps(request).encode() + b"\n")
            self.process.stdin.flush()
            parts = [b""]
            while not parts[-1].endswith(b"\n"):
                ready, _, _ = select.select([self.process.stdout], [], [], max(until - time.monotonic(), 0))
                if not ready:
                    raise Ended(f"the script took more than {MOST_SECONDS} seconds, and was ended")
                parts.append(os.read(self.process.stdout.fileno(), 1 << 16))
                if not parts[-1]:
                    raise Ended("a later request took its place" if self.is_ended else "the script needs too much memory, or its process failed")
        except OSError:
            raise Ended("its process has ended") from None
        return b"".join(parts)

    def end(self):
        """Ends the process and all that it runs."""
        self.is_ended = True
        try:
            os.killpg(self.process.pid, signal.SIGKILL)
        except ProcessLookupError:
            pass
        self.process.wait()


class Workers:
    """Workers that wait for a request, and those that answer one. Of the requests of one kind the last one wins."""

    def __init__(self, command):
        self.command = command
        self.lock = threading.Lock()
        self.idle, self.busy = [Worker(command)], {}

    def ask(self, kind, request):
        """Returns the answer to a request, and ends what answers an earlier one of this kind."""
        with self.lock:
            earlier = self.busy.pop(kind, None)
            worker = self.idle.pop() if self.idle else Worker(self.command)
            self.busy[kind] = worker
        if earlier:
            earlier.end()
        try:
            answered = worker.ask(request)
        except Ended:
            self.leave(kind, worker)
            worker.end()
            raise
        is_kept = self.leave(kind, worker)
        if not is_kept:
            worker.end()
        return answered

    def leave(self, kind, worker):
        """Takes a worker from those that answer, and returns whether it may wait for another request."""
        with self.lock:
            was_last = self.busy.get(kind) is worker
            if was_last:
                del self.busy[kind]
            is_kept = was_last and not worker.is_ended and len(self.idle) < MOST_IDLE
            if is_kept:
                self.idle.append(worker)
            return is_kept

    def end(self):
        """Ends all of them."""
        with self.lock:
            for it in [*self.idle, *self.busy.values()]:
                it.end()


def work(answer):
    """Answers the requests that come on standard input, each a line of JSON."""
    for line in sys.stdin.buffer:
        sys.stdout.buffer.write(json.dumps(answer(json.loads(line))).encode() + b"\n")
        sys.stdout.buffer.flush()
