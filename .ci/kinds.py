"""Tells which kinds of answer a call has, and of which of them a clause speaks.

A kind of answer is a row of words: `Ok Some`, `Err HostMemory`, `None`, `true`; of a pair it begins with the place in it, `.0 Done`.
A clause speaks of a kind where it says something if the answer is of that kind. That is looked up in the words of the clause (CASES
has those of the standard library), and where the answer is handed to a relation of a crate's specs/, in its definition.
"""
import functools
import re

from sources import TOP, brought_in, definitions_file, text_of

# What the words of the standard library that take an answer say of it: of each argument behind the answer, for which kind it is.
CASES = {
    "MatchOption": ("None", "Some"),
    "MatchResult": ("Ok", "Err"),
    "IfSome": ("Some",),
    "OnSome": ("Some",),
    "IfNone": ("None",),
    "OnNone": ("None",),
    "IfOk": ("Ok",),
    "OnOk": ("Ok",),
    "IfErr": ("Err",),
    "OnErr": ("Err",),
}
# The words that ask which kind it is.
TESTS = {"IsSome": "Some", "IsNone": "None", "IsOk": "Ok", "IsErr": "Err", "IsTrue": "true", "IsFalse": "false"}
# The relations of the standard library that speak of all kinds of an answer that they are handed.
STANDARD = {"WriteAppends", "ReadConsumes"}
# How a definition of a word begins.
DEFINED = r"^(?:(?:pub|abbrev|unfoldable|record|data) )+{}\b"
NOTHING = (["⊤"], ["Unit"], ["Unit", ["{", "0"]])


# ---- types and their kinds


def split_at(text, mark=","):
    """Cuts a text at each mark that stands in no brackets."""
    parts, depth, from_ = [], 0, 0
    for at, letter in enumerate(text):
        depth += (letter in "(<[") - (letter in ")>]")
        if depth == 0 and letter == mark:
            parts.append(text[from_:at].strip())
            from_ = at + 1
    return [it for it in [*parts, text[from_:].strip()] if it]


def parts_of(result):
    """Returns the head of a type and its arguments, that of a tuple being `()`."""
    result = re.sub(r"^(&('\w+ )?(mut )?)+", "", result.strip())
    if result.startswith("("):
        return "()", split_at(result[1:-1])
    head, _, inner = result.partition("<")
    return head.rpartition("::")[2], [it for it in split_at(inner.removesuffix(">")) if not it.startswith("'")]


class Answers:
    """The kinds of answer that types have, by the variants of the enums."""

    def __init__(self, variants):
        self.variants = variants

    @functools.cache
    def cases(self, result):
        """Returns the cases of a type, each with the type of what it carries: of a tuple its places, and of most types none."""
        head, inner = parts_of(result)
        if head == "Result":
            return {"Ok": inner[0], "Err": inner[1] if len(inner) > 1 else ""}
        if head == "Option":
            return {"None": "", "Some": inner[0]}
        if head == "bool":
            return {"true": "", "false": ""}
        if head == "()":
            return {f".{at}": it for at, it in enumerate(inner) if len(self.kinds(it)) > 1}
        variants = self.variants.get(head, [])
        return {it: "" for it in variants} if len(variants) > 1 else {}

    @functools.cache
    def kinds(self, result):
        """Returns the kinds of answer of a type. A type with one kind alone has the empty row."""
        found = [(case, *kind) for case, of in self.cases(result).items() for kind in self.kinds(of)]
        return found or [()]


# ---- terms


def tokens(text):
    return re.findall(r"λ|[^\W\d][\w.'-]*|\d+|[^\s\w]", text)


def term(words):
    """Returns the words as nested lists: a group in brackets is a list, those of braces with `{` in front."""
    stack = [[]]
    for word in words:
        if word in "({":
            stack.append(["{"] if word == "{" else [])
        elif word in ")}":
            group = stack.pop()
            stack[-1].append(group)
        else:
            stack[-1].append(word)
    return stack[0]


def cut(words, mark):
    """Cuts a row of words at a mark. Behind a λ nothing is cut."""
    parts, inside = [[]], False
    for word in words:
        inside = inside or word == "λ"
        if word == mark and not inside:
            parts.append([])
        else:
            parts[-1].append(word)
    return parts


def has(words, name):
    """Whether a term has a name."""
    return any(has(it, name) if isinstance(it, list) else it == name or it.startswith(name + ".") for it in words)


def without_group(words):
    """Returns a term without the brackets around all of it."""
    while len(words) == 1 and isinstance(words[0], list) and words[0][:1] != ["{"]:
        words = words[0]
    return words


def as_function(words):
    """Returns the name that a function takes and its body, or None and the term itself where it is none."""
    words = without_group(words)
    if words[:1] != ["λ"]:
        return None, words
    if isinstance(words[1], list):
        return words[1][0], words[3:] if words[2] == "." else words[2:]
    # A name with the dot behind it, as `v.`, is one word.
    return words[1].rstrip("."), words[3:] if words[2:3] == ["."] else words[2:]


# ---- what a clause speaks of


class Speaking:
    """Tells of which kinds of answer a term speaks, over the names that its file brings in."""

    def __init__(self, answers, path, top=TOP):
        self.answers = answers
        self.path = path
        self.top = top

    def clause(self, body, result):
        """Returns the kinds of the answer of a type that a clause speaks of."""
        words = term(tokens(body))
        if self.all_kinds(result) == {()}:
            return {()} if has(words, "result") else set()
        return self.term(words, "result", result, True)

    def all_kinds(self, result):
        return set(self.answers.kinds(result))

    def term(self, words, name, result, is_sure):
        """Returns the kinds that a term speaks of, where `name` is the answer. It is sure where it stands under no condition."""
        words = without_group(words)
        if words[:1] == ["let"]:
            words = words[words.index("in") + 1 :]
            return self.term(words, name, result, is_sure)
        if not has(words, name) or words in NOTHING:
            return set()
        if parts_of(result)[0] == "()":
            return self.pair(words, name, result, is_sure)
        sides = cut(words, "↔")
        if len(sides) == 2:
            return set().union(*(self.side(it, name, result) for it in sides))
        steps = cut(words, "→")
        if len(steps) > 1:
            return self.steps(steps, name, result, is_sure)
        parts = cut(words, "⊎")
        if len(parts) > 1:
            return self.choices(parts, name, result, is_sure)
        parts = cut(words, "×")
        if len(parts) > 1:
            return set().union(*(self.term(it, name, result, is_sure) for it in parts))
        return self.atom(words, name, result, is_sure)

    def choices(self, parts, name, result, is_sure):
        """The same of statements of which one holds. Where each of them says which answer it is, no other answer comes."""
        if is_sure and all(self.term(it, name, result, True) == self.all_kinds(result) for it in parts):
            return self.all_kinds(result)
        return set().union(*(self.term(it, name, result, False) for it in parts))

    def pair(self, words, name, result, is_sure):
        """The same of an answer that is a tuple: each place is an answer by itself, and the name alone stands for all of them."""
        flat = str(words)
        if f"'{name}'" in flat:
            return self.all_kinds(result)
        cases = self.answers.cases(result)
        return {(at, *kind) for at, of in cases.items() for kind in self.term(words, name + at, of, is_sure)}

    def side(self, words, name, result):
        """The same of one side of an equivalence. Where it asks for one of two cases, it speaks of the other one too."""
        words = without_group(words)
        found = self.term(words, name, result, False)
        cases = self.answers.cases(result)
        return self.all_kinds(result) if found and len(cases) == 2 else found

    def steps(self, steps, name, result, is_sure):
        """The same of conditions with what holds under them."""
        found, left_out, has_condition = set(), set(), False
        for step in steps[:-1]:
            step = without_group(step)
            is_binder = ":" in step
            has_condition = has_condition or not is_binder
            if not has(step, name):
                continue
            kinds = self.term(step, name, result, False)
            if "≢" in step:
                left_out |= kinds
            else:
                found |= kinds
        if left_out:
            found |= self.all_kinds(result) - left_out
        return found | self.term(steps[-1], name, result, is_sure and not has_condition)

    def atom(self, words, name, result, is_sure):
        """The same of a term without a connective."""
        for mark in ("≡", "≢"):
            sides = [without_group(it) for it in cut(words, mark)]
            if len(sides) == 2:
                other = sides[1] if sides[0] == [name] else sides[0] if sides[1] == [name] else None
                kinds = self.made(other, result) if other is not None else None
                return self.all_kinds(result) if kinds is None or is_sure and mark == "≡" else kinds
        head, arguments = words[0], words[1:]
        if head in CASES and arguments[:1] == [name]:
            branches = zip(CASES[head], arguments[1:])
            return set().union(*(self.branch(case, [it], result, is_sure) for case, it in branches))
        if head in TESTS and arguments == [name]:
            return self.all_kinds(result) if is_sure else self.under(TESTS[head], result)
        inner = [it for it in arguments if isinstance(it, list) and as_function([it])[0] is not None and has(it, name)]
        if inner:
            return set().union(*(self.term(as_function([it])[1], name, result, False) for it in inner))
        if name in arguments and isinstance(head, str) and head[0].isupper() or name in arguments and "." in str(head):
            return self.relation(head, [it for it in arguments if it[:1] != ["{"]].index(name), result, is_sure)
        return self.all_kinds(result)

    def under(self, case, result):
        """Returns the kinds that begin with a case."""
        return {it for it in self.answers.kinds(result) if it[:1] == (case,)}

    def made(self, words, result):
        """Returns the kinds of what is written as a case of the type, as `Some x`, or None where it is no such term."""
        words = without_group(words)
        case = words[0].rpartition(".")[2] if words and isinstance(words[0], str) else None
        cases = self.answers.cases(result)
        if case not in cases or len(words) > 2:
            return None if case not in cases else self.under(case, result)
        inner = self.made([words[1]], cases[case]) if len(words) == 2 else None
        return self.under(case, result) if inner is None else {(case, *it) for it in inner}

    def branch(self, case, words, result, is_sure):
        """Returns the kinds that begin with a case, by what is said where it is that one: a statement, or a function."""
        of = self.answers.cases(result)[case]
        name, body = as_function(words)
        if body in NOTHING:
            return set()
        if len(self.answers.kinds(of)) == 1 or name is not None and not has(body, name):
            return self.under(case, result)
        if name is None:
            name, body = "what_it_carries", [*body, "what_it_carries"]
        return {(case, *it) for it in self.term(body, name, of, is_sure)}

    # ---- definitions

    def relation(self, head, place, result, is_sure):
        """Returns the kinds that a relation speaks of, which is handed the answer at a place."""
        if head in STANDARD:
            return self.all_kinds(result)
        path, name = self.file_of(head)
        if path is None or not re.search(DEFINED.format(name), text_of(path), re.M):
            raise ValueError(f"{self.path.relative_to(self.top)}: where {head} is defined is not known")
        return Speaking(self.answers, path, self.top).definition(name, place, result, is_sure)

    def file_of(self, head):
        """Returns the file that defines a word which this file brings in, or else this file, and the name of the word there."""
        module, _, name = head.rpartition(".")
        brought = brought_in(self.path)
        if module:
            return definitions_file(brought[module][0], self.top) if module in brought else None, name
        if name in brought:
            return definitions_file(brought[name][0], self.top), brought[name][1]
        return self.path, name

    def definition(self, name, place, result, is_sure):
        """Returns the kinds that a definition of this file speaks of."""
        text = re.sub(r"--.*", "", text_of(self.path))
        record = re.search(rf"^(?:pub )?record {name}\b(.*?) where\n(.*?)(?=^\S|\Z)", text, re.M | re.S)
        if record:
            return self.record(record[1], record[2], place, result, is_sure)
        found, seen = set(), set()
        for patterns, body in re.findall(rf"^{name} ([^=:]*?)\s=\s(.*?)(?=^\S|\Z)", text, re.M | re.S):
            rows = [it for it in term(tokens(patterns)) if it[:1] != ["{"]]
            if place >= len(rows):
                return self.all_kinds(result)
            kinds, covered = self.equation(without_group([rows[place]]), term(tokens(body)), result, is_sure)
            found |= covered - seen
            seen |= kinds
        if not seen:
            # It is no function by equations: it says what it says of each answer alike.
            return self.all_kinds(result)
        return found

    def record(self, head, fields, place, result, is_sure):
        """Returns the kinds that the fields of a record speak of, one of whose parameters is the answer."""
        names = [it for group in re.findall(r"\(([^():]*) :", head) for it in group.split()]
        of_fields = [term(tokens(it)) for it in re.findall(r"pub \w+ : (.*?)(?=^  pub |\Z)", fields, re.M | re.S)]
        # Two fields, of which one holds if a condition is true and the other if it is false, are a choice.
        under = {" ".join(map(str, cut(it, "→")[0])): cut(it, "→")[1] for it in of_fields if len(cut(it, "→")) == 2}
        for condition, holds in under.items():
            other = condition.removesuffix("true") + "false"
            if condition.endswith("≡ true") and other in under:
                return self.choices([holds, under[other]], names[place], result, is_sure)
        return set().union(*(self.term(it, names[place], result, is_sure) for it in of_fields))

    def equation(self, pattern, body, result, is_sure):
        """Returns the kinds that a pattern takes, and those of them that the body speaks of."""
        body = without_group(body)
        case = pattern[0].rpartition(".")[2]
        cases = self.answers.cases(result)
        if case not in cases:
            everything = self.all_kinds(result)
            is_used = case != "_" and has(body, case)
            return everything, set() if body in NOTHING else self.term(body, case, result, is_sure) if is_used else everything
        kinds = self.made(pattern, result)
        if body in NOTHING:
            return kinds, set()
        of, name = cases[case], pattern[1] if len(pattern) == 2 else None
        if len(self.answers.kinds(of)) > 1 and isinstance(name, str) and has(body, name):
            return kinds, {(case, *it) for it in self.term(body, name, of, is_sure)}
        return kinds, kinds
