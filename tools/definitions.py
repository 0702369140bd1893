"""The definitions in the files of specs/: where each stands, its lines, which others it names, and its kind.

A definition goes from its first line to the next one, without the comments between. A name that it uses is one of its
own file or one that the file brings in; what it brings in from the language's libraries and of the code's types is left
out. There are three kinds, told apart by the text alone:
- WORDS: types of plain data, and functions that only take such data apart, put it together or look it up in a table;
- WORKED_OUT: functions that work out plain data;
- FACT: what a statement is made of, all that ends in a type and says something of values.
"""
import re
from typing import NamedTuple

from crates import ROOT

WORDS, WORKED_OUT, FACT = "words", "worked out", "fact"
NAME = r"[A-Za-z_][A-Za-z0-9_']*"
HEAD = re.compile(rf"^( *)(?:(?:abbrev|unfoldable) +)?(?:pub +)?(?:(record|data) +)?({NAME})\b")
KEYWORD = re.compile(r"^ *(?:abbrev|unfoldable|record|data|pub +record|pub +data)\b")
GROUP = re.compile(r"^module |^(?:abbrev |unfoldable )?(?:pub )?mutual$")
USE = re.compile(rf"^(pub )?use Rattle\.({NAME})\.specs\.([A-Za-z0-9_.]+?)(?:\.\{{([^}}]*)\}}| as ({NAME}))?$", re.M)
TOKEN = re.compile(rf"(?<![\w.◌'])({NAME})(?:\.({NAME}))?")
STATES = re.compile(r"[≡≢<≤⊎¬⊥]|\bIsTrue\b|\bAll\b|\bIfSome\b|\bAppends\b")
# What puts plain data together, of the language's library.
MAKERS = {"Some", "None", "true", "false", "Ok", "Err", "record", "Unit"}


class Definition(NamedTuple):
    """A definition: its place, the comment above it, its lines with the comments between, and the definitions that it
    uses, by place; and the other names that it uses, of libraries and of the code."""

    crate: str
    file: str
    name: str
    form: str
    note: tuple
    lines: tuple
    uses: frozenset
    foreign: frozenset

    @property
    def place(self):
        return self.crate, self.file, self.name

    @property
    def code(self):
        """Its lines without comments."""
        return [line for line in self.lines if not line.lstrip().startswith("--")]

    @property
    def text(self):
        return "\n".join(self.code)

    @property
    def type(self):
        """What stands between its name and its first equation."""
        own = re.compile(rf"^ *{re.escape(self.name)}\b(?! *:)")
        ends = [place for place, line in enumerate(self.code[1:], 1) if own.match(line)]
        return "\n".join(self.code[:ends[0]] if ends else self.code)

    @property
    def body(self):
        return self.text[len(self.type):]


def parts(lines):
    """A file's definitions, each as its form, its name, the comment above it and its lines; within a group they stand
    two places further in."""
    base, found, note = 0, [], []
    for line in lines:
        if line.lstrip().startswith("--") and line.startswith(" " * (base + 1)) and found:
            found[-1][3].append(line)
            continue
        if not line.strip() or line.lstrip().startswith("--"):
            note = note + [line.strip()] if line.strip() else []
            continue
        if GROUP.match(line):
            base = 2
            found.append(("group", "", [], []))
            continue
        head = HEAD.match(line)
        begins = head and len(head[1]) in (0, base) and (KEYWORD.match(line) or line[len(head[1]):].startswith("pub "))
        if begins:
            base = base if head[1] else 0
            found.append((head[2] or "function", head[3], note, []))
        if found:
            found[-1][3].append(line)
    return [part for part in found if part[0] != "group"]


class File:
    """A file of specs/: what it defines and what it brings in."""

    def __init__(self, crate, name, text):
        self.crate, self.name = crate, name
        self.brought, self.aliases, self.handed_on = {}, {}, set()
        for public, crate_of, file, names, alias in USE.findall(text):
            if alias:
                self.aliases[alias] = (crate_of, file)
            for each in names.split(","):
                self.brought[each.strip()] = (crate_of, file)
                self.handed_on |= {each.strip()} if public else set()
        text = "\n".join(line for line in text.split("\n") if not line.startswith(("use ", "pub use ")))
        self.parts = parts(text.split("\n"))
        self.own = {}
        for form, name_of, _, lines in self.parts:
            self.own.setdefault(name_of, name_of)
            if form == "data":
                for maker in re.findall(rf"^ +(?:pub +)?({NAME}) *:", "\n".join(lines[1:]), re.M):
                    self.own.setdefault(maker, name_of)

    def names_in(self, text):
        """What a text names, of this file or brought in: the crate, the file and the name."""
        uses = set()
        for name, member in TOKEN.findall(text):
            if name in self.aliases and member:
                uses.add((*self.aliases[name], member))
            elif name in self.brought:
                uses.add((*self.brought[name], name))
            elif name in self.own:
                uses.add((self.crate, self.name, name))
        return uses


def files(root=ROOT):
    for path in sorted((root / "crates").glob("*/specs/**/*.antt")):
        if path.stem == "Lib":
            continue
        crate = path.relative_to(root / "crates").parts[0]
        name = ".".join(path.relative_to(root / "crates" / crate / "specs").with_suffix("").parts)
        yield File(crate, name, path.read_text())


def found_at(known, crate, file, name):
    """The place of the definition to which a name belongs, perhaps by way of files that hand it on."""
    there = known.get((crate, file))
    if there and name in there.own:
        return crate, file, there.own[name]
    return found_at(known, *there.brought[name], name) if there and name in there.handed_on else None


def definitions(root=ROOT):
    """All definitions by place."""
    known = {(file.crate, file.name): file for file in files(root)}
    made = {}
    for file in known.values():
        for form, name, note, lines in file.parts:
            code = "\n".join(line for line in lines if not line.lstrip().startswith("--"))
            named = re.sub(rf"\bpub {NAME} *:|\b{NAME} = ", " ", code)
            uses, foreign = set(), set()
            for crate, other, used in file.names_in(named):
                found = found_at(known, crate, other, used)
                if found:
                    uses.add(found)
                else:
                    foreign.add(used)
            place = (file.crate, file.name, name)
            made[place] = Definition(*place, form, tuple(note), tuple(lines),
                                     frozenset(uses - {place}), frozenset(foreign))
    return made


def ends_in_type(definition):
    head = definition.type.split("\n  pub ")[0].rstrip()
    return re.search(r"Type(?: \d| \{[^}]*\})?\s*(?:where\s*)?$", head) is not None


def speaks_of_values(definition):
    """Whether a definition that ends in a type takes a value, and not types alone."""
    head = definition.type if definition.form == "function" else definition.text.split(" where")[0]
    head = re.sub(r"\{[^{}]*\}", "", head.partition(definition.name)[2])
    if definition.form == "function":
        taken = re.split("→", head.lstrip(": "))[:-1]
        return any(not re.fullmatch(r"[\s()]*(?:[\w ]+:)?\s*Type \d[\s()]*", each) for each in taken)
    return any(not re.search(r"Type \d", of) for of in re.findall(r"\([^():]*:([^()]*(?:\([^()]*\)[^()]*)*)\)", head))


def is_fact(definition, facts):
    """Whether a definition says something: by its form, or by what it is made of."""
    is_type = definition.form in ("record", "data") or ends_in_type(definition)
    if not is_type:
        return bool(STATES.search(definition.type))
    made_of = definition.text.partition(" where")[2] if definition.form != "function" else definition.body
    return speaks_of_values(definition) or bool(STATES.search(made_of)) or bool(definition.uses & facts)


def is_words(definition, words):
    """Whether a function only takes data apart, puts it together or looks it up in a table."""
    if definition.form in ("record", "data") or ends_in_type(definition):
        return True
    plain = not re.search(r"λ|\bif\b|\blet\b|◌|\bcond\b|[+*&|]|<|==", definition.body)
    again = re.search(rf"= .*\b{re.escape(definition.name)}\b", definition.body)
    return plain and not again and definition.uses <= words and not any(
        name[0].islower() and name not in MAKERS for name in definition.foreign)


def kinds(made):
    """The kind of each definition. Each kind grows with what it is made of, until nothing is added."""
    facts, words = set(), set()
    while more := {place for place, each in made.items() if place not in facts and is_fact(each, facts)}:
        facts |= more
    while more := {place for place, each in made.items()
                   if place not in facts | words and is_words(each, words | {place})}:
        words |= more
    return {place: FACT if place in facts else WORDS if place in words else WORKED_OUT for place in made}
