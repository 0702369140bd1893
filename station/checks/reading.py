"""What the tests share: the program, the commands, and packages read within this process."""
import contextlib
import json
import pathlib
import subprocess
import sys
import tempfile
import typing

from making.writer import STANDARD, Writer
from package.plug import Asked, read
from package.told import ERROR

STATION = pathlib.Path(__file__).resolve().parent.parent
UNPLUG = '{"ev":"unplug","at":0,"tag":"T"}'
DONE = '{"done":true}'
# What the words of station/test say.
PROGRAM, COUNT, SEED, KILLS, MINUTES = [], 300, 0, 6, 0.0


class Seen(typing.NamedTuple):
    """What came of a package: the plug and its line, and what was told."""
    plug: object
    line: str
    notes: list

    def of_kind(self, kind):
        return [str(note).partition(": ")[2] for note in self.notes if note.kind == kind]

    def has_errors(self):
        return bool(self.of_kind(ERROR))


def read_file(path, **asked):
    """A package read as station/mtp reads it."""
    plug, line, told = read(path, Asked("T", **asked))
    return Seen(plug, line, told.notes)


def read_data(data, **asked):
    with tempfile.NamedTemporaryFile() as file:
        file.write(data)
        file.flush()
        return read_file(file.name, **asked)


def read_module(module, form=STANDARD, **asked):
    return read_data(Writer(module, form).text(), **asked)


def pol(job, text, folder=None):
    """The lines that the program writes on a text."""
    ran = subprocess.run([PROGRAM[0], "--job", job], input=text.encode(), stdout=subprocess.PIPE, cwd=folder, check=True)
    return ran.stdout.decode().splitlines()


def answers(lines):
    """The program's answers to plug lines, each plugged and unplugged again."""
    return pol("replay", "".join(f"{line}\n{UNPLUG}\n" for line in lines))[:-1:2]


def mtp(*words, **more):
    """station/mtp as it is called by hand; gives its status, its output and what it told."""
    ran = subprocess.run([sys.executable, STATION / "mtp", *words], stdin=subprocess.DEVNULL, capture_output=True, **more)
    return ran.returncode, ran.stdout.decode(), ran.stderr.decode()


@contextlib.contextmanager
def sample_folder():
    """A folder with the sample packages."""
    with tempfile.TemporaryDirectory(prefix="station-") as folder:
        subprocess.run([sys.executable, STATION / "samples", folder], check=True)
        yield pathlib.Path(folder)


def compact(value):
    return json.dumps(value, separators=(",", ":"), sort_keys=True)
