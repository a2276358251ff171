"""The refusals of each command in their order, as the models try them: a command that is done tries all of its own."""
from .grammar import words_of
from .jobs import BatchMachine
from .machine import Machine
from .sources import SourceMachine

# Of each machine a script that does each command that it has beside those of the plain one.
PLAIN = """
vmo_create v1 8192
vmo_create_child v2 v1 snapshot 0 4096
vmo_create_child v3 v1 slice 0 4096
vmo_create_child v4 v1 reference 0 0
vmo_create v5 8192 resizable
vmo_set_size v5 4096
vmo_size v5
vmo_write v5 0 aa
vmo_read v5 0 1
vmo_fill v5 0 9 7
vmo_commit v5 0 4096
vmo_zero v5 0 9
vmo_decommit v5 0 4096
vmo_pin p1 v5 0 4096
vmo_unpin p1
vmo_info v5
root_create r1
vmar_allocate r2 r1 0 4096 specific can_read
vmar_map r1 8192 v1 0 4096 rw specific
vmar_protect r1 0x202000 4096 rw
mem_write r1 0x202000 aa
mem_read r1 0x202000 1
maps r1
vmar_unmap r1 0x202000 4096
vmar_destroy r2
vmo_close v5
stat
"""
JOBS = """
vmo_create v1 8192
begin j1 commit v1 0 8192
step j1 1
drop j1
"""
SOURCES = """
source_create v1 8192 1 0
vmo_create_child v2 v1 snapshot 0 4096
vmo_create_child v3 v1 snapshot_at_least_on_write 0 4096
vmo_read v1 0 1
vmo_write v1 0 aa
supply v1 0 8192
evict v1 0 8192
vmo_close v3
stat
"""
SCRIPTS = ((Machine, PLAIN), (BatchMachine, JOBS), (SourceMachine, SOURCES))


def key_of(line):
    """Returns what names the refusals of a line: the command, and the kind of a child."""
    words = [word for word, _ in words_of(line)]
    return " ".join((words[0], words[3])) if words[0] == "vmo_create_child" else words[0]


def refusals_of(machine_type):
    """Returns of each command that a script of this machine does its refusals in order."""
    machine, table = machine_type(16), {}
    for line in dict(SCRIPTS)[machine_type].strip().splitlines():
        reply = machine.answer(line)[0]
        if not reply.startswith("OK"):
            raise ValueError(f"{line} is refused: {reply}")
        table[key_of(line)] = machine.tried
    return table
