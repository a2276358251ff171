"""Reads the sources of the crates: what each names, their calls with comments and clauses, their enums and constants, and what the files
bring in by name."""
import functools
import pathlib
import re
from typing import NamedTuple

TOP = pathlib.Path(__file__).resolve().parent.parent


class Clause(NamedTuple):
    """One `ensures` of a call: its name, its text in one line, and the comment that is about it. Name and comment may be empty."""

    name: str
    body: str
    comment: str


class Call(NamedTuple):
    """A call: its file, its type or trait, the trait of an `impl` of one, its name, its signature in one line, its clauses, and
    its doc comment, which may be empty."""

    path: pathlib.Path
    subject: str
    trait: str
    name: str
    signature: str
    clauses: list
    comment: str

    def called(self):
        """Returns the call as a reader spells it."""
        return f"{self.subject}::{self.name}" if self.subject else self.name

    def result(self):
        """Returns the type of what the call answers, or nothing."""
        head, arrow, result = self.signature.rpartition(" -> ")
        return result.strip().rstrip("{").strip() if arrow and head.count("(") == head.count(")") else ""


def edges(top=TOP):
    """Returns the libraries that each crate names in crates.txt, lowest crate first."""
    rows = (it.partition(":") for it in (top / "crates.txt").read_text().splitlines() if ":" in it and not it.startswith("#"))
    return {crate.split()[0]: names.split() for crate, _, names in rows}


def crate_names(top=TOP):
    """Returns the names of all crates, lowest first."""
    return [*edges(top)]


def rt_files(crate, top=TOP):
    return sorted((top / "crates" / crate / "src").rglob("*.rt"))


def shown_names(root, use="pub use "):
    """Returns the names that the root file of a crate hands out: those of a library, or those that a program itself brings in."""
    used = re.findall(rf"^{use}[\w:]*?(?:\{{([^}}]*)\}}|(\w+));", root, re.M | re.S)
    return {it.strip() for many, one in used for it in (many or one).split(",") if it.strip()}


def subject_of(line):
    """Returns the type or the trait of a block, and the trait of an `impl` of one."""
    words = re.sub(r"<[^<>]*(?:<[^<>]*>[^<>]*)*>", "", line.removesuffix("{")).replace("pub ", "").split()
    if words[0] == "trait":
        return words[1].rstrip(":"), None
    if "for" in words:
        return words[words.index("for") + 1], words[1]
    return words[1], None


def clause_comments(lines):
    """Returns the comment about each `requires` and `ensures` of a call. A comment is about all below it, up to a blank line."""
    found, comment, is_open = [], [], False
    for line in lines:
        text = line.strip()
        if text.startswith("//"):
            comment = [*(comment if is_open else []), text.lstrip("/ ")]
        elif not text:
            comment = []
        elif re.match("(requires|ensures)\\b", text):
            found.append(" ".join(comment))
        is_open = text.startswith("//")
    return found


def split_call(lines):
    """Returns the signature of a call in one line, and its clauses."""
    text = "\n".join(it for it in lines if not it.lstrip().startswith("//")).rstrip("{; \n")
    parts = re.split(r"\n\s+(?=requires |ensures )", text)
    clauses = []
    for part, comment in zip(parts[1:], clause_comments(lines)):
        kind, _, rest = " ".join(part.split()).partition(" ")
        name, _, body = rest.partition("{")
        if kind == "ensures":
            clauses.append(Clause(name.strip(), body.strip().removesuffix("}").strip(), comment))
    return " ".join(parts[0].split()), clauses


def comment_above(lines, at):
    """Returns the doc comment above a line. Between them may stand attributes, which may have several lines."""
    found, is_inside = [], False
    for line in reversed(lines[:at]):
        text = line.strip()
        if text.startswith("///"):
            found.append(text[3:].strip())
            continue
        is_inside = (is_inside or text.endswith("]")) and not text.startswith("#[")
        if found or not is_inside and not text.startswith(("#[", "//")):
            break
    return "\n".join(reversed(found))


def lines_of_call(lines, at, indent):
    """Returns the lines of the signature and the clauses of the call that begins at a line."""
    text, has_clause = [], False
    for line in lines[at:]:
        text.append(line)
        has_clause = has_clause or re.match(r"\s+(requires|ensures)\b", line) is not None
        if line in (indent + "{", indent + "{}") or line.endswith("};" if has_clause else ("{", "{}", ";")):
            break
    return text


@functools.cache
def text_of(path):
    """Returns the text of a file, which is read once."""
    return path.read_text(encoding="utf-8")


def calls_of(path, every=False):
    """Yields the calls of a file that others may make: those that are `pub`, and those of traits. Or yields every function."""
    subject, trait, is_trait = None, None, False
    lines = text_of(path).splitlines()
    for at, line in enumerate(lines):
        if line.startswith(("impl", "trait ", "pub trait ")):
            head = line
            for more in lines[at + 1 :]:
                if "{" in head:
                    break
                head += " " + more.strip()
            subject, trait = subject_of(head)
            is_trait = re.match(r"^(pub )?trait\b", line) is not None
        elif line.startswith("}"):
            subject, trait, is_trait = None, None, False
        found = re.match(r"^(\s*)(pub )?(?:pub\(crate\) )?(?:const )?(?:unsafe )?(?:extern \"C\" )?fn (\w+)", line) if "fn " in line else None
        if found and len(found[1]) == (4 if subject else 0) and (every or found[2] or is_trait or trait):
            yield Call(path, subject, trait, found[3], *split_call(lines_of_call(lines, at, found[1])), comment_above(lines, at))


@functools.cache
def constants(top=TOP):
    """Returns the numbers of the public constants of the crates, by name."""
    found = {}
    for crate in crate_names(top):
        for path in rt_files(crate, top):
            for name, value in re.findall(r"^pub const (\w+): [ui]\w+ = ([\w *+<-]+);", text_of(path), re.M):
                found[name] = eval(re.sub(r" as \w+", "", value), {"__builtins__": {}}, found)
    return found


def enums(top=TOP):
    """Returns the variants of each enum that the root file of its crate hands out, by the name of the enum."""
    found = {}
    for root in sorted((top / "crates").glob("*/src/lib.rt")):
        shown = shown_names(text_of(root))
        for path in sorted(root.parent.glob("**/*.rt")):
            for name, body in re.findall(r"^pub enum (\w+)(?:<[^>]*>)? \{\n(.*?)^\}", text_of(path), re.M | re.S):
                variants = re.findall(r"^    (\w+)", body, re.M)
                if name in shown and found.setdefault(name, variants) != variants:
                    raise ValueError(f"two enums with other variants are named {name}")
    return found


@functools.cache
def brought_in(path):
    """Returns where the names that a file of the sources or of the definitions brings in stand: of each name the module, and
    the name there."""
    found = {}
    for module, many, one in re.findall(r"^\s*(?:ghost |pub )*use Rattle\.([\w.]+?)(?:\.\{([^}]*)\}| as (\w+));?$", text_of(path), re.M):
        if one:
            found[one] = module, None
        for it in many.split(","):
            name, _, alias = it.strip().partition(" as ")
            found[alias.strip() or name] = module, name
    return found


def definitions_file(module, top=TOP):
    """Returns the file of a module of definitions of a crate, as `line_server.specs.Outcome`, or None where the repository has none."""
    crate, _, inner = module.partition(".specs.")
    path = top / "crates" / crate / "specs" / (inner.replace(".", "/") + ".antt")
    return path if path.is_file() else None
