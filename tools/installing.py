"""Installs what is built into a prefix, and takes it away again. `./vmosim --install` calls it, and tools/package asks it what a package has.

A prefix has bin/, include/, lib/ and share/. What the tools need stands in lib/vmosim as it does in a checkout, beside a list of all that
was installed."""
import argparse
import os
import pathlib
import re
import shutil
import subprocess
import sys
from typing import NamedTuple

sys.dont_write_bytecode = True

from wording import UNWRITABLE, WRONG_WORD, Trouble, run_tool, say

TOP = pathlib.Path(__file__).resolve().parent.parent
# The tools that are installed, each as vmosim-NAME.
TOOLS = ("expect", "explain", "generate", "hunt", "look", "play", "shell", "transcript")
# What helps to make and test the program alone.
UNNEEDED = ("browsing.py",)
HOME, DOCUMENTS = "lib/vmosim", "share/doc/vmosim"
LIST, FACTS = f"{HOME}/files", f"{HOME}/installed"
# As tools/build_library names it.
SONAME = "libvmosim.so.1"
FILE, PROGRAM = 0o644, 0o755
FAILED = 1
PKG_CONFIG = """prefix=${{pcfiledir}}/../..

Name: vmosim
Description: A verified model of Zircon's virtual memory, in process
Version: {version}
Cflags: -I${{prefix}}/include
Libs: -L${{prefix}}/lib -lvmosim
"""


class Built(NamedTuple):
    """What there is to install: the program with its kind, proved or unproved, the program vmotree, the libraries for C, and of what these
    were made. What is not built is None, and the kind is none then."""

    program: str | None
    kind: str
    tree: str | None
    archive: str | None
    shared: str | None
    version: str
    commit: str
    kit: str


class Entry(NamedTuple):
    """A file that is installed: the file that it is a copy of, its bytes, or what a link leads to, and its mode."""

    source: pathlib.Path | None = None
    data: bytes | None = None
    target: str | None = None
    mode: int = FILE

    def write(self, path):
        """Writes it to a path."""
        new = path.with_name(f"{path.name}.new")
        new.unlink(missing_ok=True)
        if self.target is not None:
            new.symlink_to(self.target)
        else:
            new.write_bytes(self.data if self.data is not None else self.source.read_bytes())
            new.chmod(self.mode)
        os.replace(new, path)


def copied(folder, to, unneeded=()):
    """Yields the files below a folder of the checkout as they are installed."""
    for path in sorted((TOP / folder).rglob("*")):
        if path.is_file() and "__pycache__" not in path.parts and path.name not in unneeded:
            yield f"{to}/{path.relative_to(TOP / folder)}", Entry(path, mode=PROGRAM if os.access(path, os.X_OK) else FILE)


def help_of(tool):
    """Returns what a tool says of itself when it is installed."""
    said = ("import sys; file, name = sys.argv[1:]; sys.path.insert(0, file.rpartition('/')[0]); sys.argv = [name, '--help']; "
            "exec(compile(open(file).read(), file, 'exec'), {'__name__': '__main__', '__file__': file})")
    words = [sys.executable, "-B", "-c", said, str(TOP / "tools" / tool), f"vmosim-{tool}"]
    ran = subprocess.run(words, stdout=subprocess.PIPE, text=True, check=True, env={**os.environ, "COLUMNS": "80"})
    return re.sub(rf"\btools/({'|'.join(TOOLS)})\b", r"vmosim-\1", ran.stdout)


def manual_of(tool, version):
    """Returns the manual page of a tool, from its help."""
    usage, _, rest = help_of(tool).partition("\n\n")
    said = rest.strip().split("\n\n")[0].replace("\n", " ")
    first = re.split(r"(?<=[a-z])[.:;] ", f"{said} ")[0].strip().removesuffix(".")

    def plain(text):
        return re.sub(r"(?m)^([.'])", r"\\&\1", text.replace("\\", "\\e").replace("-", "\\-"))

    parts = [f'.TH VMOSIM\\-{tool.upper()} 1 "" "vmosim {version}"', ".SH NAME", f"vmosim\\-{tool} \\- {plain(first[0].lower() + first[1:])}",
             ".SH SYNOPSIS", ".nf", plain(usage.removeprefix("usage: ").replace("\n       ", "\n")), ".fi", ".SH DESCRIPTION", ".nf", plain(rest.rstrip()), ".fi",
             ".SH SEE ALSO", ".BR vmosim (1)"]
    return ("\n".join(parts) + "\n").encode()


def program_entries(built):
    """Yields the programs, and what says what they are."""
    facts = f"built={built.kind}\nversion={built.version}\ncommit='{built.commit}'\nkit='{built.kit}'\n"
    yield FACTS, Entry(data=facts.encode())
    yield f"{HOME}/vmosim", Entry(TOP / "vmosim", mode=PROGRAM)
    yield "bin/vmosim", Entry(target="../lib/vmosim/vmosim")
    if built.program:
        yield f"{HOME}/{built.kind}/vmosim", Entry(pathlib.Path(built.program), mode=PROGRAM)
    if built.tree:
        yield f"{HOME}/vmotree", Entry(pathlib.Path(built.tree), mode=PROGRAM)
        yield "bin/vmotree", Entry(target="../lib/vmosim/vmotree")


def tool_entries(built):
    """Yields the tools with their manual pages, and what they need."""
    for tool in TOOLS:
        yield f"{HOME}/tools/{tool}", Entry(TOP / "tools" / tool, mode=PROGRAM)
        yield f"bin/vmosim-{tool}", Entry(target=f"../lib/vmosim/tools/{tool}")
        yield f"share/man/man1/vmosim-{tool}.1", Entry(data=manual_of(tool, built.version))
    for path in sorted((TOP / "tools").glob("*.py")):
        if path.name not in UNNEEDED:
            yield f"{HOME}/tools/{path.name}", Entry(path)
    for path in sorted((TOP / "tools").glob("*/__init__.py")):
        yield from copied(f"tools/{path.parent.name}", f"{HOME}/tools/{path.parent.name}")


def page_entries():
    """Yields the documents, the examples, and what helps to type."""
    yield from copied("examples", f"{HOME}/examples")
    yield from copied("conformance", f"{HOME}/conformance")
    yield from copied("docs", f"{DOCUMENTS}/docs", ("vmosim.1",))
    for name in ("README.md", "CHANGELOG.md"):
        yield f"{DOCUMENTS}/{name}", Entry(TOP / name)
    yield f"{DOCUMENTS}/copyright", Entry(TOP / "LICENSE")
    yield "share/man/man1/vmosim.1", Entry(TOP / "docs" / "vmosim.1")
    yield "share/bash-completion/completions/vmosim", Entry(TOP / "tools" / "completion.bash")
    for tool in re.findall(r"complete .*\bvmosim-(\w+)", (TOP / "tools" / "completion.bash").read_text()):
        yield f"share/bash-completion/completions/vmosim-{tool}", Entry(target="vmosim")
    yield "share/vim/vimfiles/syntax/vmosim.vim", Entry(TOP / "tools" / "vmosim.vim")
    yield "share/vim/vimfiles/ftdetect/vmosim.vim", Entry(data=b"au BufRead,BufNewFile *.vms set filetype=vmosim\n")


def library_entries(built):
    """Yields the libraries for C with their header."""
    if not built.archive:
        return
    yield "include/vmosim.h", Entry(TOP / "include" / "vmosim.h")
    yield "lib/libvmosim.a", Entry(pathlib.Path(built.archive))
    if built.shared:
        yield f"lib/{SONAME}", Entry(pathlib.Path(built.shared))
        yield "lib/libvmosim.so", Entry(target=SONAME)
    yield "lib/pkgconfig/vmosim.pc", Entry(data=PKG_CONFIG.format(version=built.version).encode())


def entries_of(built):
    """Returns all that is installed, by its path below the prefix."""
    return {**dict(program_entries(built)), **dict(tool_entries(built)), **dict(page_entries()), **dict(library_entries(built))}


def left_out(built):
    """Yields what is not built, and so not installed."""
    if built.kind != "proved":
        yield "the proved program is not built" + ("; the same code compiled without its proof is installed" if built.program else ", nor the same code without its proof")
    if not built.tree:
        yield "the program vmotree is not built ('./vmosim --tree' compiles it); no tool draws clone trees"
    elif pathlib.Path(built.tree).parent.name == "tree":
        yield "the program vmotree is installed as it was compiled without its proof"
    if not built.archive:
        yield "the library for C is not built (tools/build_library), so its header is left out too"
    elif not built.shared:
        yield "the shared library is not built"


# ---- a prefix


def listed(prefix):
    """Returns what is installed in a prefix by its list: files by their paths, and folders that were made, with a slash behind."""
    try:
        return (prefix / LIST).read_text(encoding="utf-8").splitlines()
    except FileNotFoundError:
        return []
    except OSError as error:
        raise Trouble(FAILED, f"cannot read {str(prefix / LIST)!r}: {error.strerror}") from None


def folders_of(prefix, paths):
    """Returns the folders that are to be made below a prefix, the outer ones first."""
    return sorted({f"{folder}/" for path in paths for folder in pathlib.PurePath(path).parents if str(folder) != "." and not (prefix / folder).is_dir()})


def install(prefix, built):
    """Installs what is built into a prefix, in the place of what was installed there."""
    entries = entries_of(built)
    before = listed(prefix)
    for path in entries:
        if path not in before and os.path.lexists(prefix / path):
            raise Trouble(FAILED, f"{str(prefix / path)!r} is there, and was not installed by this; nothing is installed")
    try:
        if before:
            uninstall(prefix)
        prefix.mkdir(parents=True, exist_ok=True)
        made = folders_of(prefix, [*entries, LIST])
        for folder in made:
            (prefix / folder).mkdir(exist_ok=True)
        Entry(data="".join(f"{it}\n" for it in [*made, *sorted([*entries, LIST])]).encode()).write(prefix / LIST)
        for path, entry in entries.items():
            entry.write(prefix / path)
    except OSError as error:
        raise Trouble(UNWRITABLE, f"cannot write {error.filename!r}: {error.strerror}") from None


def uninstall(prefix):
    """Takes away what is installed in a prefix, and nothing else: a folder only if it was made for it and is empty."""
    there = listed(prefix)
    if not there:
        raise Trouble(FAILED, f"nothing is installed in {str(prefix)!r}")
    if any(pathlib.PurePath(it).is_absolute() or ".." in pathlib.PurePath(it).parts for it in there):
        raise Trouble(FAILED, f"{str(prefix / LIST)!r} is no list of what is installed")
    try:
        for it in there:
            if not it.endswith("/") and it != LIST:
                (prefix / it).unlink(missing_ok=True)
        (prefix / LIST).unlink()
        for it in sorted((it for it in there if it.endswith("/")), reverse=True):
            if (prefix / it).is_dir() and not any((prefix / it).iterdir()):
                (prefix / it).rmdir()
    except OSError as error:
        raise Trouble(UNWRITABLE, f"cannot remove {error.filename!r}: {error.strerror}") from None


def existing(path):
    """Returns a path as a text if there is such a file, or None."""
    return str(path) if path and os.path.isfile(path) else None


def version_of():
    """Returns the version, which stands in the script vmosim."""
    return re.search(r"(?m)^version=(.*)$", (TOP / "vmosim").read_text(encoding="utf-8"))[1]


def commit_of():
    """Returns the commit of the checkout, or `none`."""

    def git(*words):
        return subprocess.run(["git", "-C", str(TOP), *words], stdout=subprocess.PIPE, stderr=subprocess.DEVNULL, text=True, check=False)

    if not (TOP / ".git").exists() or not shutil.which("git"):
        return "none"
    commit = git("rev-parse", "--short", "--verify", "HEAD").stdout.strip()
    return f"{commit}, with changes" if commit and git("diff", "--quiet", "HEAD").returncode else commit or "none"


def add_built_words(parser):
    """Adds the options that name what is built."""
    for name, what in (("program", "the program"), ("tree", "the program vmotree"), ("archive", "the static library"), ("shared", "the shared library")):
        parser.add_argument(f"--{name}", metavar="FILE", help=f"{what}, if it is built")
    parser.add_argument("--kind", choices=("proved", "unproved"), default="unproved", help="what the program is")
    parser.add_argument("--kit", metavar="WORDS", default="unknown", help="the kit that made it, as `rt version` prints it")


def built_of(asked):
    """Returns what words say that is built."""
    program = existing(asked.program)
    out = TOP / "out"
    return Built(program, asked.kind if program else "none", existing(asked.tree), existing(asked.archive or out / "libvmosim.a"),
                 existing(asked.shared or out / "libvmosim.so"), version_of(), commit_of(), re.sub(r"[^\w .-]", "", asked.kit))


def main(words):
    parser = argparse.ArgumentParser(prog="installing.py", description=__doc__)
    parser.add_argument("does", choices=("install", "uninstall"))
    parser.add_argument("prefix", metavar="PREFIX", type=pathlib.Path)
    add_built_words(parser)
    asked = parser.parse_args(words)
    prefix = pathlib.Path(os.path.abspath(asked.prefix))
    if prefix.exists() and not prefix.is_dir():
        raise Trouble(WRONG_WORD, f"{str(prefix)!r} is no folder")
    if asked.does == "uninstall":
        uninstall(prefix)
        say("vmosim", f"what was installed in {prefix} is taken away")
        return 0
    built = built_of(asked)
    install(prefix, built)
    for it in left_out(built):
        say("vmosim", it)
    say("vmosim", f"installed in {prefix}; '{prefix / 'bin' / 'vmosim'} --uninstall' takes it away")
    return 0


if __name__ == "__main__":
    run_tool("vmosim", main)
