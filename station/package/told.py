"""What is told of a package: errors, what stands in another form, and what has no place."""
import dataclasses

ERROR, CHANGED, LOST = "error", "changed", "lost"
MOST_SHOWN = 80


class Unreadable(Exception):
    """No manifest can be read of a file. Its text says why, and what to do."""


def plain(text):
    """A text in one line: what can't be printed is escaped."""
    return "".join(letter if letter.isprintable() else repr(letter)[1:-1] for letter in text)


def short(text, most=MOST_SHOWN):
    """A text of a package or a module that isn't longer than a line bears."""
    return text if len(text) <= most else text[:most - 2] + ".."


def shown(text):
    """A text of a package within a sentence: in quotes, short, in one line."""
    return repr(short(text))


def listed(texts, most=8):
    """Several texts within a sentence."""
    return ", ".join(shown(text) for text in texts[:most]) + (", .." if len(texts) > most else "")


@dataclasses.dataclass(frozen=True)
class Note:
    """One line: what kind it is of, where in the package, and what."""
    kind: str
    where: str
    what: str

    def __str__(self):
        return plain(": ".join(filter(None, (self.kind, short(self.where), self.what))))


class Told:
    """The notes on one package, in the order in which they came."""

    def __init__(self):
        self.notes = []

    def error(self, where, what):
        """No plug line comes of the package; `what` says what to do."""
        self.notes.append(Note(ERROR, where, what))

    def changed(self, where, what):
        """It is there for `pol`, in another form."""
        self.notes.append(Note(CHANGED, where, what))

    def lost(self, where, what):
        """`pol` has no place for it."""
        self.notes.append(Note(LOST, where, what))

    def sized(self, where, what, count, least, most):
        """An error where there are more or fewer of something than `pol` takes."""
        if count < least:
            self.error(where, f"no {what}; ask its maker for a package that has one")
        if count > most:
            self.error(where, f"{count} {what}s; pol takes {most}: leave out the others in the manifest")

    def has_errors(self):
        return any(note.kind == ERROR for note in self.notes)
