"""The machine with jobs: the plain machine, and range operations that are done a piece at a time."""
from typing import NamedTuple

from .answering import misplaced
from .grammar import FORMS, FORMS_OF
from .limits import PAGE
from .machine import Machine, past_end

# The plain command of each kind of job.
PLAIN = {"commit": "vmo_commit", "zero": "vmo_zero", "decommit": "vmo_decommit"}


class Job(NamedTuple):
    """A job: its plain command, the name of its VMO, and the bytes of the range that are left."""

    command: str
    name: str
    next: int
    end: int


class BatchMachine(Machine):
    """A machine with so many frames, and no jobs."""

    forms = {
        **FORMS,
        "begin": ("JOB KIND:JOB_KIND VMO OFFSET LEN", ""),
        "step": ("JOB PAGES", ""),
        "drop": ("JOB", ""),
    }

    def __init__(self, frames):
        super().__init__(frames)
        self.jobs = {}

    def job(self, job):
        """Returns a job that is there."""
        self.refuse(("BAD_HANDLE", job not in self.jobs and f"there is no job {job}"))
        return self.jobs[job]

    def begin(self, job, kind, name, offset, length):
        """Begins a job, and returns how many pages are left."""
        it = self.name(name)
        self.refuse(
            ("NAME_IN_USE", job in self.jobs and f"the job {job} is there"),
            ("INVALID_ARGS", misplaced(OFFSET=offset, LEN=length) or ("" if length else "LEN = 0")),
            ("OUT_OF_RANGE", past_end(it, offset, length)),
        )
        self.may_lack_host_memory()
        return self.left(job, Job(PLAIN[kind], name, offset, offset + length))

    def step(self, job, pages):
        """Does pages of a job, and returns how many are left."""
        it = self.job(job)
        self.refuse(("INVALID_ARGS", not pages and "PAGES = 0"))
        length = min(pages * PAGE, it.end - it.next)
        getattr(self, it.command)(it.name, it.next, length)
        return self.left(job, it._replace(next=it.next + length))

    def drop(self, job):
        """Lets a job go."""
        self.job(job)
        del self.jobs[job]

    def left(self, job, it):
        """Notes how far a job got, and returns how many of its pages are left. It goes if none is."""
        self.jobs[job] = it
        if it.next == it.end:
            del self.jobs[job]
        return f"left={(it.end - it.next) // PAGE}"


FORMS_OF["batch"] = BatchMachine.forms
