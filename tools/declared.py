"""What the crates declare, by the text alone: names of the code and of definitions, public calls, and their clauses."""
import pathlib
import re

from crates import ROOT

NAME = r"[A-Za-z_][A-Za-z0-9_]*"
# What declares a name: in a definition's file, and in the code; what only brings one in, or speaks of it.
DEFINED = re.compile(rf"^(?:(?:pub|abbrev|unfoldable|record|data|lemma)\s+)+({NAME})\b|^({NAME})\b[^:=\n]*:"
                     rf"|^ +(?:pub\s+)?({NAME})\b[^:=\n]*:", re.M)
DECLARED = re.compile(
    rf"\bimpl(?:<[^{{}}]*?>)? ({NAME})"
    rf"|\b(?:fn|struct|enum|trait|type|const|static|mod|ghost|ensures|requires)\s+({NAME})"
    rf"|^ +([A-Z][A-Za-z0-9_]*) *(?:[,({{]|$)|^ +(?:pub(?:\([a-z]+\))? +)?([a-z_][a-z0-9_]*): ", re.M)
SPOKEN = re.compile(r"^ *//.*$|^ *(?:pub |ghost )*use\s[^;{}]*(?:\{[^;]*\})?;", re.M)
IMPORTED = re.compile(r"^use .*$|^ *--.*$", re.M)
EXPORTED = re.compile(rf"^pub use [^;]*?(?:{NAME}::)+(?:({NAME})|\{{([^}}]*)\}});|^pub fn ({NAME})", re.M)
SIGNATURE = re.compile(rf"^\s*(?:pub(?:\([a-z]+\))?\s+)?(?:const\s+|unsafe\s+)*fn\s+({NAME})", re.M)
# Where the methods of a type begin, with its name, and where they and all else that is outermost end.
BLOCK = re.compile(rf"^(?:unsafe )?impl(?:<[^{{]*?>)? (?:[^{{\n]* for )?({NAME})|^\}}", re.M)
LABEL = re.compile(rf"\b(?:ensures|requires)\s+({NAME})\s*\{{")
ENSURED = re.compile(rf"\bensures\s+({NAME})\s*\{{")


def found_in(pattern, among):
    """What the groups of a pattern find in some texts."""
    return {found for text in among for groups in pattern.findall(text) for found in groups if found}


def method_of(text, signature):
    """The name of a function, behind that of the type whose method it is."""
    begun = [block[1] for block in BLOCK.finditer(text, 0, signature.start())]
    return f"{begun[-1]}::{signature[1]}" if begun and begun[-1] else signature[1]


class Crate:
    """What a crate declares, by name; of its public calls the clauses, and of all the labels of what they ensure."""

    def __init__(self, folder):
        self.name, self.folder = folder.name, folder
        code = [SPOKEN.sub("", text) for text in self.texts("src", ".rt")]
        terms = [IMPORTED.sub("", text) for text in self.texts("specs", ".antt") + self.texts("proofs", ".antt")]
        self.declared = found_in(DECLARED, code)
        self.defined = found_in(DEFINED, terms)
        self.public = set(re.findall(NAME, " ".join(found_in(EXPORTED, self.texts("src", "lib.rt")))))
        self.clauses, self.ensured = {}, {}
        for text in code:
            signatures = list(SIGNATURE.finditer(text))
            ends = [found.start() for found in signatures[1:]] + [len(text)]
            for found, end in zip(signatures, ends):
                body = text[found.start():end]
                self.clauses.setdefault(found[1], set()).update(LABEL.findall(body))
                if re.search(r"\bensures\b", body):
                    self.ensured.setdefault(method_of(text, found), set()).update(ENSURED.findall(body))

    def texts(self, folder, ending):
        return [path.read_text() for path in sorted((self.folder / folder).rglob("*" + ending))]

    def has_file(self, name):
        return any((self.folder / place).is_file() for place in (
            f"specs/{name}.antt", f"src/{name}.rt", f"src/{name}", f"proofs/{name}.antt", name))


def known(root=ROOT):
    folders = sorted((pathlib.Path(root) / "crates").iterdir())
    return {folder.name: Crate(folder) for folder in folders if folder.is_dir()}
