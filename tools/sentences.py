"""The sentences of a page, as one reads them: without headings, code blocks and the addresses of links.

A paragraph, an item of a list and a cell of a table each begin a sentence of their own. What stands in backticks is
kept and never cut; emphasis is left out, so that a quotation needs none of it.
"""
import re
from typing import NamedTuple

FENCE = re.compile(r"^ *```")
ITEM = re.compile(r"^ *(?:[-*]|\d+\.) ")
RULE = re.compile(r"^\|(?: ?:?-+:? ?\|)+$")
LINK = re.compile(r"!?\[((?:[^\[\]])*)\]\([^()]*\)")
CODE = re.compile(r"`[^`]*`")
END = re.compile(r"[.!?][\"')*]*\s+(?=[\"'(*]*[A-Z0-9~\[])")
# What stands for a piece of code while sentences are cut: one letter for each of its letters.
MASK = "~"


class Sentence(NamedTuple):
    """A sentence, the line on which its block begins, the block's whole text, and the heading above."""

    text: str
    line: int
    block: str
    part: str

    @property
    def words(self):
        """Its words in small letters, without what stands in backticks."""
        return re.findall(r"[a-z]+", CODE.sub(" ", self.text).lower())


def plain(text):
    """A text without emphasis, addresses of links and breaks of lines."""
    kept = []
    text = LINK.sub(r"\1", re.sub(r"\s+", " ", text.strip()))
    begun = 0
    for code in CODE.finditer(text):
        kept += [text[begun:code.start()].replace("**", "").replace("*", ""), code[0]]
        begun = code.end()
    return "".join(kept) + text[begun:].replace("**", "").replace("*", "")


def cut(text):
    """The sentences of one block, plain."""
    text = re.sub(r"\s+", " ", text.strip())
    masked = CODE.sub(lambda code: MASK * len(code[0]), text)
    ends = [end.end() for end in END.finditer(masked)]
    pieces = [plain(text[begin:end]) for begin, end in zip([0, *ends], [*ends, len(text)])]
    return [piece for piece in pieces if re.search("[A-Za-z]", piece)]


def cells(row):
    """The cells of a row of a table; a stroke within backticks parts nothing."""
    masked = CODE.sub(lambda code: MASK * len(code[0]), row)
    strokes = [place for place, letter in enumerate(masked) if letter == "|"]
    return [row[begin + 1:end].strip() for begin, end in zip(strokes, strokes[1:])]


def blocks(text):
    """Each paragraph, item and row with the line on which it begins and the heading above it."""
    part, block, begun, fenced = "", [], 1, False
    lines = text.splitlines() + [""]
    for number, line in enumerate(lines, 1):
        fenced ^= bool(FENCE.match(line))
        heading = line.startswith("#") and not fenced
        silent = fenced or line.startswith("    ") or heading or FENCE.match(line) or RULE.match(line)
        above = RULE.match(lines[number]) if number < len(lines) else None
        line = "" if silent or above else re.sub(r"^> ?", "", line)
        if block and (not line.strip() or line.startswith("|") or ITEM.match(line)):
            yield begun, part, "\n".join(block)
            block = []
        if line.strip():
            begun = begun if block else number
            block.append(ITEM.sub("", line))
        if heading:
            part = lines[number - 1].lstrip("# ")


def sentences(text):
    """All sentences of a page, in its order."""
    found = []
    for line, part, block in blocks(text):
        pieces = cells(block) if block.startswith("|") else [block]
        found += [Sentence(one, line, plain(block), part) for piece in pieces for one in cut(piece)]
    return found
