"""The commands as they are called by hand, and the program's word on what they write."""
import json
import pathlib
import re
import subprocess
import sys
import tempfile
import unittest

from checks.reading import DONE, PROGRAM, STATION, UNPLUG, answers, mtp, pol, sample_folder

README = (STATION / "README.md").read_text()
# The samples that give a line, and those that don't, with their errors.
GOOD = ["doser.mtp", "doser.aml", "doser-3.0.mtp", "doser-draft.mtp", "mixer.mtp", "mixer-2.2.mtp", "tank.mtp",
        "hard.mtp"]
BAD = {"faulty.mtp": 3, "cut.aml": 1}
WRONG_WORDS = [[], ["x.mtp"], ["x.mtp", "--tag"], ["x.mtp", "--tag", "two words"], ["x.mtp", "--tag", ""],
               ["x.mtp", "--tag", "x" * 33], ["x.mtp", "--tag", "T", "--at", "-1"], ["x.mtp", "--tag", "T", "--at", "soon"],
               ["x.mtp", "--tag", "T", "--at", str(2**64)], ["x.mtp", "--tag", "T", "--type", "Ü"],
               ["x.mtp", "y.mtp", "--tag", "T"], ["x.mtp", "--tag", "T", "--strange"]]


class Samples(unittest.TestCase):
    @classmethod
    def setUpClass(cls):
        cls.room = sample_folder()
        cls.folder = cls.room.__enter__()
        cls.ran = {name: mtp(cls.folder / name, "--tag", "T") for name in GOOD + list(BAD)}

    @classmethod
    def tearDownClass(cls):
        cls.room.__exit__(None, None, None)

    def test_these_are_all_samples(self):
        self.assertEqual({path.name for path in self.folder.iterdir()}, set(self.ran))

    def test_the_program_takes_the_line_of_each(self):
        for name in GOOD:
            status, out, err = self.ran[name]
            self.assertEqual((status, out.count("\n"), "error: " in err), (0, 1, False), err)
            self.assertEqual(answers([out.strip()]), [DONE], name)

    def test_each_line_is_written_as_the_program_writes_it(self):
        lines = [self.ran[name][1] for name in GOOD]
        with tempfile.TemporaryDirectory() as folder:
            pol("keep", "".join(f"{line}{UNPLUG}\n" for line in lines), folder)
            self.assertEqual([line + "\n" for line in pol("export", "", folder)[::2]], lines)

    def test_the_faulty_ones_are_refused_with_their_errors(self):
        for name, count in BAD.items():
            status, out, err = self.ran[name]
            self.assertEqual((status, out, len(re.findall("^error: ", err, re.M))), (1, "", count), err)

    def test_each_line_that_is_told_is_of_a_kind(self):
        for _, _, err in self.ran.values():
            self.assertTrue(all(re.match("(error|changed|lost): .", line) for line in err.splitlines()), err)

    def test_the_doser_is_one_in_each_form(self):
        self.assertEqual(len({self.ran[name][1] for name in GOOD if name.startswith("doser")}), 1)

    def test_samples_are_the_same_each_time(self):
        with sample_folder() as again:
            self.assertEqual({path.name: path.read_bytes() for path in again.iterdir()},
                             {path.name: path.read_bytes() for path in self.folder.iterdir()})

    def test_words_replace_what_the_package_tells(self):
        status, out, err = mtp(self.folder / "doser.mtp", "--tag", "D-1", "--at", str(2**64 - 1), "--version", "7",
                               "--type", "Dosing", "--only", "weight")
        line = json.loads(out)
        description = line["desc"]
        self.assertEqual((line["tag"], line["at"]), ("D-1", 2**64 - 1))
        self.assertEqual((description["version"], description["type"]), ("7.0.0", "Dosing"))
        self.assertEqual(description["variables"], [{"kind": "AnaView", "name": "weight"}])
        self.assertIn("lost: views: 1 that --only doesn't name: 'dose_by_weight_dosed'", err)
        self.assertEqual((status, answers([out.strip().replace("D-1", "T")])), (0, [DONE]))

    def test_no_view_or_one_that_is_not_there(self):
        line = json.loads(mtp(self.folder / "tank.mtp", "--tag", "T", "--only", "")[1])
        self.assertEqual(line["desc"]["variables"], [])
        status, out, err = mtp(self.folder / "tank.mtp", "--tag", "T", "--only", "level,mass")
        self.assertEqual((status, out), (1, ""))
        self.assertIn("error: --only: no view has the name 'mass'; the views are 'level'\n", err)

    def test_a_version_that_is_none(self):
        told = mtp(self.folder / "tank.mtp", "--tag", "T", "--version", "x")[2]
        self.assertIn("error: Tank: 'x' is no version", told)

    def test_the_map_is_written_beside_the_line(self):
        path = self.folder / "tank.json"
        self.addCleanup(path.unlink)
        self.assertEqual(mtp(self.folder / "tank.mtp", "--tag", "T", "--map", path)[:2], (0, self.ran["tank.mtp"][1]))
        self.assertEqual(json.loads(path.read_text())["variables"]["level"]["unit"], {"code": "1038", "text": "l"})

    def test_what_can_not_be_read_or_written_is_told(self):
        status, out, err = mtp(self.folder / "none.mtp", "--tag", "T")
        why = "No such file or directory; name a file that can be read"
        self.assertEqual((status, out, err), (1, "", f"error: {self.folder}/none.mtp: {why}\n"))
        self.assertIn("Is a directory", mtp(self.folder, "--tag", "T")[2])
        status, out, err = mtp(self.folder / "tank.mtp", "--tag", "T", "--map", self.folder)
        self.assertEqual((status, out), (1, ""))
        self.assertIn("Is a directory; name a file that can be written", err)

    def test_an_output_that_nobody_takes(self):
        for to, why in ((">/dev/full", "No space left on device"), (">&-", "Bad file descriptor")):
            line = f"'{sys.executable}' '{STATION / 'mtp'}' tank.mtp --tag T {to}"
            ran = subprocess.run(["bash", "-c", line], cwd=self.folder, capture_output=True, text=True)
            self.assertEqual(ran.returncode, 1)
            self.assertIn(f"error: standard output: {why}", ran.stderr)
            self.assertNotIn("Traceback", ran.stderr)

    def test_the_example_of_the_page_is_what_comes(self):
        """Each command of README.md with what stands behind its arrows, in a folder of its own."""
        blocks = re.findall(r"^    (station/.*)\n((?:    → .*\n)+)", README, re.M)
        self.assertGreater(len(blocks), 1)
        with tempfile.TemporaryDirectory() as folder:
            subprocess.run([STATION / "samples", pathlib.Path(folder) / "packages"], check=True)
            for command, told in blocks:
                line = f"exec 2>&1; {command}".replace("station/", f"{STATION}/").replace("./pol", PROGRAM[0])
                ran = subprocess.run(["bash", "-c", line], cwd=folder, stdout=subprocess.PIPE, text=True)
                self.assertEqual(ran.stdout.splitlines(), [each[6:] for each in told.splitlines()], command)


class Words(unittest.TestCase):
    def test_wrong_words_are_told_in_one_line(self):
        for words in WRONG_WORDS:
            status, out, err = mtp(*words)
            self.assertEqual((status, out, err.count("\n")), (1, "", 1), (words, err))
            self.assertTrue(err.startswith("error: ") and "station/mtp --help" in err, err)

    def test_help_says_the_words(self):
        status, out, err = mtp("--help")
        self.assertEqual((status, err), (0, ""))
        for word in ("PACKAGE", "--tag", "--map", "--only", "--version", "--type", "--at"):
            self.assertIn(word, out)

    def test_each_sample_is_named_in_the_help_of_samples(self):
        ran = subprocess.run([STATION / "samples", "--help"], capture_output=True, text=True)
        self.assertEqual(ran.returncode, 0)
        for name in GOOD + list(BAD):
            self.assertIn(name, ran.stdout)
        self.assertEqual(subprocess.run([STATION / "samples"], capture_output=True).returncode, 1)
