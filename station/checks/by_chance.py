"""Packages by chance, of which many are hurt: whatever comes of one, it is errors, or a line that the program takes."""
import json
import pathlib
import random
import tempfile
import unittest

from checks import reading
from checks.reading import DONE, answers, mtp, pol, read_file
from making import hurt
from making.chance import Chance
from making.writer import CAEX3, DRAFT, STANDARD, Writer

# How many lines are asked of one run of the program: half of what its history holds.
AT_ONCE = 50_000
BY_COMMAND, MOST_LETTERS = 20, 4000


def package(seed):
    """The package of a seed: a module by chance, in one of the forms, hurt or not."""
    draw = random.Random(seed)
    text = Writer(Chance(draw).module(), draw.choice([STANDARD, CAEX3, DRAFT])).text()
    if draw.randrange(3) == 0:
        text = draw.choice(hurt.HURTS)(draw, text)
    return hurt.packed(draw, text)


class ByChance(unittest.TestCase):
    def setUp(self):
        self.folder = tempfile.TemporaryDirectory(prefix="station-")
        self.addCleanup(self.folder.cleanup)
        self.path = pathlib.Path(self.folder.name) / "package"
        self.seeds = range(reading.SEED, reading.SEED + reading.COUNT)

    def read(self, seed):
        """A package read within this process. What is told and mapped is in its form, whatever came of it."""
        self.path.write_bytes(package(seed))
        try:
            read = read_file(self.path, at=seed)
            self.assertTrue(all(note.isprintable() and len(note) < MOST_LETTERS for note in map(str, read.notes)))
            json.dumps(read.plug and read.plug.map, allow_nan=False).encode()
        except Exception as fault:
            raise AssertionError(f"the package of the seed {seed} isn't read: {fault!r}") from fault
        return read

    def test_a_package_gives_errors_or_a_line_that_the_program_takes(self):
        none, faulty, lines = 0, 0, {}
        for seed in self.seeds:
            read = self.read(seed)
            if not read.has_errors():
                lines[seed] = read.line
            elif read.plug:
                faulty += 1
            else:
                none += 1
        seeds = list(lines)
        for begin in range(0, len(seeds), AT_ONCE):
            some = seeds[begin:begin + AT_ONCE]
            said = answers([lines[seed] for seed in some])
            self.assertEqual([pair for pair in zip(some, said, strict=True) if pair[1] != DONE], [])
        self.written(list(lines.values())[:AT_ONCE])
        print(f"{none} no manifest, {faulty} with errors, {len(lines)} plug lines .. ", end="")
        self.assertTrue(len(self.seeds) < 100 or min(none, faulty, len(lines)) > len(self.seeds) // 20)

    def written(self, lines):
        """The program writes these lines as they are."""
        pol("keep", "".join(f"{line}\n{reading.UNPLUG}\n" for line in lines), self.folder.name)
        self.assertEqual(pol("export", "", self.folder.name)[::2], lines)

    def test_the_command_says_the_same_and_never_a_traceback(self):
        for seed in self.seeds[:BY_COMMAND]:
            read = self.read(seed)
            status, out, err = mtp(self.path, "--tag", "T", "--at", str(seed))
            wanted = "" if read.has_errors() else read.line + "\n"
            self.assertEqual((status, out), (int(read.has_errors()), wanted), (seed, err))
            self.assertEqual(err.splitlines(), list(map(str, read.notes)), seed)
