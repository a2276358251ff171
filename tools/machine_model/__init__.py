"""Independent models of the machines in Python, which share no code and no data structure with the program.

What they answer is what docs/MACHINE.md says. If that leaves a choice (a place, the frames of a pin, whether the host's memory is
enough), they take the choice of the reply that they are given, if it is allowed. `Machine` answers the lines of `run`,
`BatchMachine` those of `batch` and `SourceMachine` those of `sources`. Each refusal comes with the condition that held, in
words, and with its rank among the refusals of the command.
"""
from .answering import Refusal
from .grammar import FORMS, spelled
from .jobs import BatchMachine
from .limits import PAGE
from .machine import Machine
from .sources import SourceMachine
from .transcripts import verdict

__all__ = ["FORMS", "PAGE", "BatchMachine", "Machine", "Refusal", "SourceMachine", "spelled", "verdict"]
