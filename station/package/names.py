"""Names as `pol` has them: 1 to 32 of A-Z a-z 0-9 _ - . Other names are made to fit, no two of them the same way."""
import hashlib
import itertools
import re
import unicodedata

from package.told import shown

MOST_LETTERS = 32
FORM = re.compile(r"[A-Za-z0-9_.-]{1,32}")
MARKS = re.compile(r"[^A-Za-z0-9_.-]+")
GERMAN = str.maketrans({"ä": "ae", "ö": "oe", "ü": "ue", "Ä": "Ae", "Ö": "Oe", "Ü": "Ue", "ß": "ss"})
DIGITS = 4


def is_name(text):
    return FORM.fullmatch(text) is not None


def fitted(texts):
    """A name for each text, in their order. What is a name stays as it is, and two that differ get two names."""
    taken, made = {text for text in texts if is_name(text)}, {}
    for text in texts:
        if text not in made:
            made[text] = text if is_name(text) else fit(text, taken)
            taken.add(made[text])
    return [made[text] for text in texts]


def twice(texts):
    """The texts that stand more than once, each once."""
    seen, found = set(), {}
    for text in texts:
        if text in seen:
            found[text] = True
        seen.add(text)
    return list(found)


def spelled(text):
    """A text in the letters of names: marks of letters are dropped, what is between becomes `_`."""
    letters = unicodedata.normalize("NFKD", text.translate(GERMAN))
    kept = "".join(letter for letter in letters if not unicodedata.combining(letter))
    return MARKS.sub("_", kept).strip("_") or "x"


def fit(text, taken):
    """A name for a text, that isn't taken: as it is spelled, else cut, with the first digits of a sum of the text."""
    name = spelled(text)
    if len(name) <= MOST_LETTERS and name not in taken:
        return name
    for count in itertools.count():
        digits = hashlib.sha256(f"{count or ''}{text}".encode()).hexdigest()[:min(DIGITS + count, 16)]
        made = f"{name[:MOST_LETTERS - 1 - len(digits)]}_{digits}"
        if made not in taken:
            return made


def of_elements(elements, where, what, told):
    """A name of `pol` for each of these elements, with its notes."""
    made = fitted([element.name for element in elements])
    tell_of(elements, made, where, what, told)
    return made


def tell_of(elements, made, where, what, told):
    """A note on each name that differs from the package's, and on each that stands twice."""
    texts = [element.name for element in elements]
    for text in twice(texts):
        told.error(where, f"two {what} have the name {shown(text)}; rename one of them in the manifest")
    for text, name in dict(zip(texts, made)).items():
        if text != name:
            told.changed(where, f"the name {shown(text)} is {name} for pol (1 to {MOST_LETTERS} of A-Z a-z 0-9 _ - .)")
