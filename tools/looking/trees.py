"""The clone tree behind lines of a script, with its hidden nodes, as `vmotree` draws it."""
from machine_model.answering import counted
from programs import built, run
from wording import Trouble

from .clone_tree import nodes_of, tree_picture
MOST_NODES = 200


def built_tree():
    """Returns the file of vmotree, as `rt ci` built it or `./vmosim --tree` compiled it, or None if there is none."""
    return built("--tree", "--path")


def tree_program(asked):
    """Returns the file of vmotree, or None if there is none, or if the script is no script of `run`."""
    if asked.word != "run":
        return None
    return asked.tree or built_tree()


def tree_after(lines, asked, seconds=None):
    """Returns the tree after lines of a script, which is to be drawn in so many seconds. None without vmotree."""
    program = tree_program(asked)
    if not program:
        return None
    ran = run(program, ["--frames", str(asked.frames)], "".join(f"{it}\n" for it in lines).encode(), seconds)
    if ran.returncode:
        raise Trouble(1, f"the program {program!r} ends with status {ran.returncode}")
    return "\n".join(ran.stdout.decode(errors="replace").splitlines())


def renumber(machine, tree):
    """Gives the frames of a model the numbers that they have in a tree."""
    vmos = {it.koid: it for it in machine.vmos}
    for node in nodes_of(tree):
        pages = vmos[node.koid].pages if node.koid in vmos else {}
        for page, frame in pages.items():
            number = node.holder(page)[1]
            if number is not None:
                machine.pool.renumber(frame, number)


def tree_shown(tree, machine, least=460):
    """Returns what is shown of a tree: its picture, or its lines if it has more nodes than a picture, cut if they are many."""
    picture = tree_picture(tree, machine.labels(), least=least)
    lines = tree.splitlines()
    more = len(lines) - 1 - MOST_NODES
    return picture or "\n".join(lines if more <= 0 else [*lines[: MOST_NODES + 1], f"# .. and {counted(more, 'node')} more"])


def has_tree(turn):
    """Returns whether a tree is drawn behind a turn: its line is a command."""
    return bool(turn.replies) and turn.replies[0] != "SYNTAX"


def draw_tree(turns, asked):
    """Yields the picture of the clone tree after the last turn."""
    tree = tree_after(asked.lines, asked)
    if not tree:
        raise Trouble(1, "the program vmotree is not built, and no --tree names it" if asked.word == "run" else f"{asked.word} has no clone tree")
    machine = list(turns)[-1][1]
    yield tree_picture(tree, machine.labels(), asked.scheme) or tree
