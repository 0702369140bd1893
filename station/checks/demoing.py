"""station/demo as it is called by hand, and many modules for as long as is asked for."""
import json
import os
import pathlib
import re
import signal
import statistics
import subprocess
import sys
import tempfile
import time
import unittest
import urllib.request

from checks import reading
from checks.broker import PATIENCE, free_port, wait_until
from checks.plants import LEAD, SHIFT, Running
from checks.reading import STATION

MANY, MOST_SECONDS = 48, 0.1
# From so many entries on the plant's file is renewed; and after so many answers it is looked whether it has them.
NEARLY_FULL, ANSWERS = 150_000, 500
# A batch that never ends, and tests a value at each turn.
ENDLESS = {"recipe": "endless", "roles": [{"role": "source", "type": "Doser", "version": "^1"}], "chart": {
    "loop": {"step": "dose", "role": "source", "service": "dose", "procedure": 1},
    "until": {"test": "weight", "role": "source", "op": "ge", "value": 10**12}}}


class Demo(unittest.TestCase):
    def begin(self, folder):
        """Begins the demo, and gives the lines that it says until the page is there."""
        self.demo = subprocess.Popen([sys.executable, STATION / "demo", folder, "--pol", reading.PROGRAM[0], "--page",
                                      str(self.port), "--faster", "20"], stdin=subprocess.DEVNULL,
                                     stdout=subprocess.PIPE, text=True)
        self.addCleanup(self.demo.stdout.close)
        lines = []
        while not lines or "at the desk" not in lines[-1]:
            lines.append(self.demo.stdout.readline())
            self.assertTrue(lines[-1], lines)
        return lines

    def end(self):
        """Ends it, and waits until nobody serves the page any more."""
        self.demo.send_signal(signal.SIGTERM)
        self.assertEqual(self.demo.wait(PATIENCE), 0)
        with self.assertRaises(OSError):
            self.live()

    def live(self):
        with urllib.request.urlopen(f"http://127.0.0.1:{self.port}/live?by={LEAD}", timeout=PATIENCE) as stream:
            return json.loads(next(line for line in stream if line.startswith(b"data: {"))[6:])

    def test_it_begins_all_says_where_to_look_and_goes_on_where_it_ended(self):
        self.port = free_port()
        with tempfile.TemporaryDirectory(prefix="station-") as folder:
            lines = self.begin(folder)
            self.assertIn(f"the plant runs; its page is at http://127.0.0.1:{self.port}/\n", lines)
            wait_until(lambda: all(each["is_there"] for each in self.live()["modules"]), "all modules are there")
            entries = self.live()["entries"]
            self.end()
            self.begin(folder)
            self.assertGreaterEqual(self.live()["entries"], entries)
            self.assertEqual(len(self.live()["modules"]), 4)
            self.end()

    def test_the_words_of_the_page_are_there(self):
        page = (STATION / "PLANT.md").read_text()
        for command in ("run", "demo"):
            told = subprocess.run([sys.executable, STATION / command, "--help"], capture_output=True, text=True).stdout
            for word in set(re.findall(r"--\w+", told)) - {"--help"}:
                self.assertTrue(word in page or word == "--pol", (command, word))

    def test_the_files_of_a_site_are_those_that_the_page_names(self):
        page = (STATION / "PLANT.md").read_text()
        for name in ("site.json", "policy.json", "packages/", "recipes/", "pol.plant", "station.jsonl", "denied.jsonl",
                     "archive/"):
            self.assertIn(f"| `{name}` |", page)
            self.assertTrue(name.startswith(("pol", "station", "denied", "packages", "policy", "archive"))
                            or (STATION / "example" / name).exists(), name)


class Many(unittest.TestCase):
    """Many modules, a batch on each, and an operator between: only where minutes are asked for."""

    def test_an_operator_is_answered_soon(self):
        if not reading.MINUTES:
            self.skipTest("it runs for as many minutes as --minutes says")
        plant = Running(faster=1, tags={f"D{number:02}": "doser.mtp" for number in range(MANY)})
        self.addCleanup(plant.close)
        (plant.site.folder / "recipes" / "endless.json").write_text(json.dumps(ENDLESS))
        plant.up()
        plant.until_ready()
        for number in range(MANY):
            self.assertEqual(plant.start(f"b{number}", "endless", source=f"D{number:02}"), {"done": True})
        seconds, watched = [], urllib.request.urlopen(f"http://127.0.0.1:{plant.port}/live?by={LEAD}", timeout=PATIENCE)
        self.addCleanup(watched.close)
        end, before, gone = time.monotonic() + 60 * reading.MINUTES, plant.live().told["entries"], []
        while time.monotonic() < end:
            for deed in ("freeze", "thaw"):
                began = time.monotonic()
                self.assertEqual(plant.do(deed, by=SHIFT, batch="b0"), {"done": True})
                seconds.append(time.monotonic() - began)
                watched.read1()
                time.sleep(0.2)
            if len(seconds) % ANSWERS == 0:
                gone += self.renewed(plant)
        live = plant.live()
        late = statistics.quantiles(seconds, n=100)[-1]
        per_second = (live.told["entries"] + sum(gone) - before) / (60 * reading.MINUTES)
        print(f"{MANY} modules, {len(seconds)} answers: half within {statistics.median(seconds) * 1000:.0f} ms, "
              f"99 of 100 within {late * 1000:.0f} ms; {per_second:.0f} entries a second, {len(gone)} renewals, load "
              f"{os.getloadavg()[0]:.1f} on {os.cpu_count()} processors")
        self.assertEqual(live.alarms(), {})
        self.assertLess(late, MOST_SECONDS)
        self.assertTrue(pathlib.Path(plant.site.folder / "pol.plant").exists())

    def renewed(self, plant):
        """Has the plant's file renewed where it is nearly full, and gives how many entries are gone from it."""
        entries = plant.live().told["entries"]
        if entries < NEARLY_FULL:
            return []
        answer = plant.do("renew")
        self.assertEqual(answer["station"], "renewed", answer)
        return [entries - int(answer["why"])]
