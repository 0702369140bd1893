"""What runs below a process: the checks that `rt` began, each with its crate and what it took so far."""
import os
import pathlib
import re
import typing

TICK = os.sysconf("SC_CLK_TCK")


class Process(typing.NamedTuple):
    number: int
    parent: int
    begin: str
    seconds: float
    mebibytes: int
    words: list
    folder: str


def process(entry):
    """What /proc says of a process; None where it is about to end."""
    try:
        fields = pathlib.Path(entry.path, "stat").read_text().rpartition(") ")[2].split()
        words = pathlib.Path(entry.path, "cmdline").read_bytes().decode(errors="replace").split("\0")
        most = re.search(r"VmHWM:\s+(\d+)", pathlib.Path(entry.path, "status").read_text())
        folder = os.readlink(entry.path + "/cwd")
    except OSError:
        return None
    if not words[0]:
        return None
    seconds, mebibytes = (int(fields[11]) + int(fields[12])) / TICK, int(most[1]) >> 10 if most else 0
    return Process(int(entry.name), int(fields[1]), fields[19], seconds, mebibytes, words, folder)


def below(number):
    """The process of this number and all that it began, directly or not."""
    each = list(filter(None, (process(entry) for entry in os.scandir("/proc") if entry.name.isdigit())))
    numbers, more = {number}, True
    while more:
        found = {one.number for one in each if one.parent in numbers} - numbers
        numbers |= found
        more = bool(found)
    return [one for one in each if one.number in numbers]


def crate_of(each):
    """The crate of a process: as its words say, else the one in whose folder it runs, if it is one's."""
    if "--crate-name" in each.words:
        return each.words[each.words.index("--crate-name") + 1]
    parts = pathlib.PurePath(each.folder).parts
    return parts[parts.index("crates") + 1] if "crates" in parts[:-1] else None
