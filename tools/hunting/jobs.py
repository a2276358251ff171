"""Trials by several processes at once."""
import itertools
import multiprocessing
import signal

from .trials import try_number


class Worker:
    """What the processes of several jobs have: the hunt, and whether it is over."""

    hunt = None
    over = None

    @classmethod
    def begin(cls, hunt, over):
        """Begins a process of a job. An interrupt is left to the process that began it."""
        signal.signal(signal.SIGINT, signal.SIG_IGN)
        cls.hunt, cls.over = hunt, over

    @classmethod
    def trial(cls, number):
        """Returns the trial of a number if it is found. None is begun once the hunt is over."""
        trial = None if cls.over.is_set() else try_number(cls.hunt, number, cls.over.is_set)
        return trial if trial and trial.is_found() else None


def trials_of(hunt, asked):
    """Yields what is found by each trial, in order: a trial, or None."""
    if min(asked.jobs, asked.trials) == 1:
        for number in range(asked.trials):
            trial = try_number(hunt, number)
            yield trial if trial.is_found() else None
        return
    over = multiprocessing.Event()
    numbers = itertools.takewhile(lambda _: not over.is_set(), range(asked.trials))
    with multiprocessing.Pool(min(asked.jobs, asked.trials), Worker.begin, (hunt, over)) as pool:
        try:
            yield from pool.imap(Worker.trial, numbers)
        finally:
            # What still runs ends by itself, so that each job ends its kernel.
            over.set()
            pool.close()
            pool.join()
