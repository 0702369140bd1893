"""station/simulate as it is called by hand, and the lines of MODULES.md as a reader copies them."""
import dataclasses
import importlib.machinery
import importlib.util
import inspect
import os
import pathlib
import re
import signal
import subprocess
import sys
import tempfile
import unittest
import unittest.mock

from adapters import told
from adapters.adapter import Adapter
from checks.broker import PATH, PATIENCE, Broker, ask_for_needs, free_port
from checks.reading import STATION, sample_folder
from simulation import faults

SIMULATE = STATION / "simulate"
PAGE = (STATION / "MODULES.md").read_text()
THERE = "TK1 is there"
# What is wrong, and words of what is said.
WRONG_WORDS = [
    ([], "required: TAG=PACKAGE"), (["tank.mtp"], "'tank.mtp' is no TAG=PACKAGE"), (["=tank.mtp"], "'' is no name"),
    (["T="], "is no TAG=PACKAGE"), (["two words=tank.mtp"], "'two words' is no name"),
    (["x" * 33 + "=tank.mtp"], "is no name"), (["T=tank.mtp", "--broker", "x:y"], "'x:y' is no HOST"),
    (["T=tank.mtp", "--broker", ":1883"], "':1883' is no HOST"),
    (["T=tank.mtp", "--broker", "x:0"], "is no HOST"), (["T=tank.mtp", "--broker", "x:65536"], "is no HOST"),
    (["T=tank.mtp", "--faster", "0"], "'0' is no number from 0.001 to 1000"),
    (["T=tank.mtp", "--faster", "nan"], "is no number"),
    (["T=tank.mtp", "--faster", "1001"], "is no number"), (["T=tank.mtp", "--strange"], "--strange"),
    (["T=tank.mtp", "--fast", "2"], "--fast"), (["T=tank.mtp", "--faster"], "--faster"),
]


def simulate(*words):
    """A call by hand that ends by itself: its status, its output and what it told."""
    ran = subprocess.run([sys.executable, *words], stdin=subprocess.DEVNULL, capture_output=True, text=True,
                         timeout=PATIENCE)
    return ran.returncode, ran.stdout, ran.stderr


def said(*words):
    """With what the command ends at these words, without a process of its own for each."""
    script = importlib.machinery.SourceFileLoader("simulate", str(SIMULATE))
    module = importlib.util.module_from_spec(importlib.util.spec_from_loader("simulate", script))
    with unittest.mock.patch.object(sys, "argv", ["simulate", *map(str, words)]):
        script.exec_module(module)
        try:
            return module.main()
        except SystemExit as end:
            return end.code


class Words(unittest.TestCase):
    def setUp(self):
        ask_for_needs()

    def test_wrong_words_are_told_in_one_line(self):
        for words, wanted in WRONG_WORDS:
            text = said(*words)
            self.assertTrue(text.startswith("error: ") and wanted in text, (words, text))
            self.assertTrue("\n" not in text and text.endswith("; station/simulate --help tells the words"), text)
        status, out, err = simulate(SIMULATE, "tank.mtp", "--faster", "2")
        self.assertEqual((status, out), (1, ""))
        self.assertEqual(err, said("tank.mtp", "--faster", "2") + "\n")

    def test_help_says_the_words(self):
        status, out, err = simulate(SIMULATE, "--help")
        self.assertEqual((status, err), (0, ""))
        for word in ("TAG=PACKAGE", "--broker", "--faster"):
            self.assertIn(word, out)

    def test_packages_that_can_not_be_run(self):
        with sample_folder() as folder:
            self.assertEqual(said(f"P1={folder}/faulty.mtp").splitlines(), [
                "error: P1: run/a: its number is '0'; pol takes 1 to 65535: give it one in the manifest",
                "error: P1: run/b: its number is '70000'; pol takes 1 to 65535: give it one in the manifest"])
            why = "No such file or directory; name a file that can be read"
            self.assertEqual(said(f"P1={folder}/none"), f"error: P1: {folder}/none: {why}")
            text = said(f"T={folder}/tank.mtp", f"T={folder}/doser.mtp")
            self.assertEqual(text, "error: two modules stand under T; give one of them another tag")

    def test_a_broker_that_is_not_there(self):
        with sample_folder() as folder:
            port = free_port()
            text = said(f"T={folder}/tank.mtp", "--broker", f"127.0.0.1:{port}")
        why = f"error: the broker 127.0.0.1:{port}: Connection refused"
        self.assertEqual(text, f"{why}; start one (mosquitto -p {port}), or name another by --broker")

    def test_a_python_without_paho(self):
        status, out, err = simulate("-S", SIMULATE, "--help")
        self.assertEqual((status, out), (1, ""))
        self.assertIn("error: this Python has no paho.mqtt; on Debian: apt-get install python3-paho-mqtt", err)


def blocks():
    """The commands of the page that have something behind their arrows, each with that. One may have several lines."""
    for block in re.findall(r"(?:^    .*\n)+", PAGE, re.M):
        command, behind = [], []
        for line in [*(line[4:] for line in block.splitlines()), ""]:
            if behind and not line.startswith("→ "):
                yield "\n".join(command), behind
                command, behind = [], []
            (behind if line.startswith("→ ") else command).append(line.removeprefix("→ "))


def first_cells(head):
    """The code in the first cell of each row of the page's table with this head."""
    rows = PAGE[PAGE.index(head):].split("\n\n")[0].splitlines()[2:]
    return [re.findall("`([^`]*)`", row.split("|")[1]) for row in rows]


class Tables(unittest.TestCase):
    def test_the_faults_are_those_that_are_known(self):
        found = {fault: set(words) for fault, *words in first_cells('| `{"fault":..}` | Does |')}
        self.assertEqual(found, {fault: {*words, *faults.TEXTS.get(fault, ())}
                                 for fault, words in faults.WORDS.items()})

    def test_the_calls_are_those_that_there_are(self):
        for text in (text for cell in first_cells("| Call | Does |") for text in cell):
            name, words = re.fullmatch(r"(\w+)\((.*)\)", text).groups()
            known = inspect.signature(getattr(Adapter, name)).parameters
            self.assertEqual(words, ", ".join(word for word in known if word not in ("self", "by")), name)

    def test_what_is_told_is_all_that_there_is(self):
        found = {cell[0] for cell in first_cells("| Told | Means |")}
        kinds = [kind for kind in vars(told).values() if dataclasses.is_dataclass(kind)]
        self.assertEqual(found, {f"{kind.__name__}({', '.join(each.name for each in dataclasses.fields(kind))})"
                                 for kind in kinds})


class Page(unittest.TestCase):
    def setUp(self):
        self.broker = Broker()
        self.addCleanup(self.broker.close)
        self.folder = self.enterContext(tempfile.TemporaryDirectory(prefix="station-"))
        (pathlib.Path(self.folder) / "station").symlink_to(STATION)

    def start(self, command):
        """What stands before the last line only prepares; the last one runs until the test ends."""
        *before, last = command.splitlines()
        self.assertEqual(before, ["mosquitto -d", "station/samples packages"])
        subprocess.run(before[1], shell=True, cwd=self.folder, check=True)
        words = ["exec", *last.split(), "--broker", f"127.0.0.1:{self.broker.port}"]
        self.simulate = subprocess.Popen(" ".join(words), shell=True, cwd=self.folder, stdin=subprocess.DEVNULL,
                                         stdout=subprocess.PIPE, text=True)
        self.addCleanup(self.simulate.stdout.close)
        self.addCleanup(self.simulate.wait, PATIENCE)
        self.addCleanup(self.simulate.send_signal, signal.SIGTERM)
        return self.simulate.stdout.readline().splitlines()

    def told(self, command):
        """What a command of the page writes, with the broker of this test."""
        port = str(self.broker.port)
        line = re.sub(r"\b(mosquitto_\w+) ", rf"\1 -p {port} ", command).replace("1883", port)
        ran = subprocess.run(["bash", "-c", line], cwd=self.folder, stdin=subprocess.DEVNULL, capture_output=True,
                             text=True, timeout=PATIENCE, env={**os.environ, "PATH": PATH})
        return re.sub("[0-9a-f]{32}", "..", ran.stdout + ran.stderr).splitlines()

    def test_each_command_tells_what_the_page_says(self):
        (first, there), *others = blocks()
        self.assertEqual((there, self.start(first)), ([THERE], [THERE]))
        self.assertGreater(len(others), 4)
        for command, wanted in others:
            self.assertEqual(self.told(command), wanted, command)
            if '"restart"' in command:
                self.assertEqual(self.simulate.stdout.readline().strip(), THERE)
