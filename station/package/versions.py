"""Versions as `pol` has them: three parts by Semantic Versioning, in at most 64 bytes."""
import re

MOST_BYTES = 64
LARGEST = 2**64 - 1
BEFORE = r"(?:0|[1-9][0-9]*|[0-9]*[A-Za-z-][0-9A-Za-z-]*)"
BUILD = r"[0-9A-Za-z-]+"
FORM = re.compile(r"[vV]?([0-9]+)(?:\.([0-9]+))?(?:\.([0-9]+))?(?:\.([0-9]+))?"
                  rf"(-{BEFORE}(?:\.{BEFORE})*)?(?:\+({BUILD}(?:\.{BUILD})*))?")


def three_parts(text):
    """A version as `pol` has it; None where none can be made. A missing part is 0, a fourth becomes a build."""
    found = FORM.fullmatch(text.strip()) if len(text) <= MOST_BYTES else None
    if not found:
        return None
    numbers = [int(part or 0) for part in found.groups()[:3]]
    builds = ".".join(filter(None, (found[4], found[6])))
    made = ".".join(map(str, numbers)) + (found[5] or "") + (f"+{builds}" if builds else "")
    return made if max(numbers) <= LARGEST and len(made) <= MOST_BYTES else None
