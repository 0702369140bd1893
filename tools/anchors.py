"""docs/ANCHORS.md: what carries each sentence of the pages. Its rows quote how a sentence begins, and name its anchors.

An anchor is one of these; several stand behind one another with a semicolon between.
    clause `pol_cli::top ends, laws`     clauses of a public call; the call alone, where its clause has no label
    definition `pol_cli: Tasks.JobEnds`  a definition of a file of specs/; `.field` behind it is one of its names,
                                         and the file alone stands for all of it
    limit `pol_io: LONGEST_LINE`         a constant of the code
    test `pol_examples: keeping`         a test, or a file of tests, of a crate
    test `examples/test readme`          a script that tests, and what it has of that name; or the script alone
    no promise: WHY                      the sentence promises nothing of `pol`
"""
import re
from typing import NamedTuple

from declared import NAME
from definitions import parts
from sentences import cells, plain, sentences

TABLE = "docs/ANCHORS.md"
PAGES = ["README.md", "docs/CLAIMS.md", "docs/PROMISES.md", "docs/GUIDE.md", "docs/POLICY.md", "docs/RULES.md",
         "docs/FORMATS.md", "docs/JOBS.md"]
# The page whose blocks name themselves what carries them.
INDEX = "docs/PROMISES.md"
# What a sentence says of all that there is: it has an anchor, whatever else it says.
STRONG = {"always", "never", "each", "every", "exactly", "only"}
# Whose public calls have each of their clauses said by a sentence; of other crates those calls that the index names.
PROMISED = ["pol_cli", "pol_find", "pol_guard", "pol_jobs", "pol_keep", "pol_migration", "pol_operate", "pol_overview",
            "pol_replay"]
# What stands behind the beginning of a sentence, where it isn't all of it.
CUT = " .."
# A row of the index that names calls of some crates, and one that names the crate behind them.
OF_CRATES = re.compile(r"\| ([a-z_]+(?:, [a-z_]+)*) \| (`[^|]*) \|")
WITH_CRATE = re.compile(r"\| (`[^|]*) \(`([a-z_]+)`\) \|")


class Anchor(NamedTuple):
    """A row: its line, the page of the sentence, how that begins or what it is, and what carries it."""

    line: int
    page: str
    quote: str
    targets: tuple

    def is_of(self, sentence):
        whole = self.quote.removesuffix(CUT)
        return sentence == whole if whole == self.quote else sentence.startswith(whole.strip())


def read(text):
    """The rows below the headings that name a page."""
    page, found = None, []
    for number, line in enumerate(text.splitlines(), 1):
        if line.startswith("## "):
            page = line[3:].strip()
        row = cells(line) if line.startswith("| ") and page in PAGES else []
        if len(row) == 2 and row[0] not in ("Sentence", ""):
            found.append(Anchor(number, page, plain(row[0]), tuple(targets_in(row[1]))))
    return found


def targets_in(cell):
    """The anchors of a row, one for each clause."""
    if cell.startswith("no promise"):
        return [cell]
    found = []
    for target in cell.split("; "):
        clauses = re.fullmatch(r"clause `(\S+) (.+)`", target)
        found += [f"clause `{clauses[1]} {label}`" for label in clauses[2].split(", ")] if clauses else [target]
    return found


def named_in(cell):
    """The calls that a cell names; behind a method others of its type may stand by their names alone."""
    found, owner = set(), None
    for of, call in re.findall(rf"`(?:({NAME})::)?({NAME})`", cell):
        owner = of or owner
        found |= {call, f"{owner}::{call}"} if not of and owner else {f"{of}::{call}" if of else call}
    return found


class Targets:
    """What an anchor may name, in a repository."""

    def __init__(self, root, crates):
        self.root, self.crates = root, crates

    def fault(self, target):
        """What is wrong with an anchor; nothing where its target is there."""
        reason = re.fullmatch(r"no promise(?:: (.+))?", target)
        if reason:
            return "" if reason[1] else "no reason why it is no promise"
        named = re.fullmatch(r"(clause|definition|limit|test) `([^`]+)`", target)
        if not named:
            return f"no anchor: {target}"
        return "" if getattr(self, named[1])(named[2]) else f"{named[1]} {named[2]} is gone"

    def clause(self, name):
        found = re.fullmatch(rf"({NAME})::({NAME})(?:::({NAME}))?(?: ({NAME}))?", name)
        crate = self.crates.get(found[1]) if found else None
        if not crate or found[2] not in crate.public:
            return False
        labels = crate.ensured.get(f"{found[2]}::{found[3]}" if found[3] else found[2])
        return labels is not None and (found[4] in labels if found[4] else True)

    def definition(self, name):
        found = re.fullmatch(rf"({NAME}): ({NAME}(?:/{NAME})*)(?:\.({NAME})(?:\.({NAME}))?)?", name)
        if not found or found[1] not in self.crates:
            return False
        path = self.crates[found[1]].folder / "specs" / (found[2] + ".antt")
        if not path.is_file() or not found[3]:
            return path.is_file()
        lines = [line for _, own, _, lines in parts(path.read_text().split("\n")) for line in lines if own == found[3]]
        return bool(lines) and (not found[4] or any(re.match(rf" +(?:pub )?{found[4]} :", line) for line in lines))

    def limit(self, name):
        found = re.fullmatch(rf"({NAME}): ({NAME})", name)
        crate = self.crates.get(found[1]) if found else None
        return bool(crate) and any(re.search(rf"\bconst {found[2]}\b", text) for text in crate.texts("src", ".rt"))

    def test(self, name):
        found = re.fullmatch(rf"({NAME}): ({NAME})", name)
        if found:
            crate = self.crates.get(found[1])
            return bool(crate) and (crate.has_file(found[2]) or found[2] in crate.declared)
        path, _, part = name.partition(" ")
        path = self.root / path
        return path.exists() and (not part or re.search(rf"\b{re.escape(part)}\b", path.read_text()) is not None)


class Coverage:
    """Which sentences of the pages have an anchor, and which clauses have a sentence."""

    def __init__(self, pages, anchors, targets, names):
        self.pages = {page: sentences(text) for page, text in pages.items()}
        self.anchors, self.targets, self.names = anchors, targets, names

    def faults(self):
        """All that is wrong, each with its page and line."""
        bare = [(page, one.line, f"no anchor in {TABLE} for: {one.text}") for page, one in self.bare()]
        return [*self.gone(), *bare, *self.unsaid()]

    @property
    def seen(self):
        """How much was looked for: rows, sentences and clauses."""
        strong = sum(1 for found in self.pages.values() for one in found if STRONG & set(one.words))
        return len(self.anchors) + strong + sum(1 for _ in self.clauses())

    def gone(self):
        """Rows whose sentence or whose target isn't there any more."""
        for anchor in self.anchors:
            found = {one.text for one in self.pages[anchor.page] if anchor.is_of(one.text)}
            if len(found) != 1:
                count = "more than one" if found else "no"
                yield TABLE, anchor.line, f"{count} sentence of {anchor.page} begins so: {anchor.quote}"
            for target in anchor.targets:
                fault = self.targets.fault(target)
                if fault:
                    yield TABLE, anchor.line, fault

    def names_its_own(self, block):
        """Whether a block of the index names what carries it: a clause, a call, a definition or a test."""
        tokens = {name for token in re.findall(r"`([^`]+)`", block) for name in re.findall(NAME, token)}
        return bool(tokens & self.names)

    def bare(self):
        """Sentences that say something of all there is, and have no anchor, each with its page."""
        for page, found in self.pages.items():
            rows = [anchor for anchor in self.anchors if anchor.page == page]
            for one in found:
                carried = page == INDEX and self.names_its_own(one.block) or any(row.is_of(one.text) for row in rows)
                if STRONG & set(one.words) and not carried:
                    yield page, one

    def calls(self):
        """The public calls that make the jobs, and those that the index names in its tables, with their crates."""
        found = {(name, call) for name in PROMISED if name in self.targets.crates
                 for call in self.targets.crates[name].public}
        for block in {one.block for one in self.pages.get(INDEX, [])}:
            row, behind = OF_CRATES.match(block), WITH_CRATE.match(block)
            crates, calls = row.groups() if row else (behind[2], behind[1]) if behind else ("", "")
            found |= {(name, call) for name in crates.split(", ") for call in named_in(calls)}
        return found

    def clauses(self):
        """The clauses of these calls that have a label."""
        for name, call in sorted(self.calls()):
            crate = self.targets.crates.get(name)
            if crate and call.split("::")[0] in crate.public:
                yield from ((name, call, label) for label in sorted(crate.ensured.get(call, ())))

    def unsaid(self):
        """Clauses of public calls that no row names."""
        said = {target for anchor in self.anchors for target in anchor.targets}
        for crate, call, label in self.clauses():
            target = f"clause `{crate}::{call} {label}`"
            if target not in said:
                yield TABLE, 0, f"no sentence for {target}"


def check(root, crates):
    """The sentences of the pages beside their anchors."""
    names = set(crates) | {name for crate in crates.values() for name in crate.declared | crate.defined}
    pages = {page: (root / page).read_text() for page in PAGES}
    table = root / TABLE
    return Coverage(pages, read(table.read_text() if table.is_file() else ""), Targets(root, crates), names)
