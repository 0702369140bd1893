"""A station, its program and its broker that are killed in the midst of batches, again and again: nothing is lost, made
twice or sent twice."""
import collections
import os
import random
import signal
import threading
import time
import unittest

from checks import reading
from checks.plants import LEAD, TAGS, Running
from checks.broker import PATIENCE

DONE = {"done": True}
# Slower than other tests: what is killed has to be back before too many states passed.
FASTER = 4
# In seconds: the longest time between two kills, and how long a renewal may take at most.
LONGEST, RENEWS = 1.5, 2.0
# In how many batches the file is renewed: it takes 128.
MOST_BATCHES = 80
# The modules of each recipe, and the services that its steps start.
RECIPES = {"charge": {"source": "DOS2"}, "refill": {"tank": "TNK1"}, "blend": {"doser": "DOS1", "mixer": "MIX1"}}
STEPS = {"charge": [("DOS2", "dose")], "refill": [("TNK1", "fill")],
         "blend": [("DOS1", "dose"), ("DOS1", "dose"), ("MIX1", "stir"), ("MIX1", "drain")]}


class Crashes(unittest.TestCase):
    def setUp(self):
        self.plant = Running(FASTER, kept=True)
        self.addCleanup(self.plant.close)
        self.plant.up()
        self.plant.until_ready()
        self.batches = collections.Counter()

    # Batches, and what came of them.

    def start_all(self):
        """A batch of each recipe whose modules are free."""
        for recipe, tags in RECIPES.items():
            asked = {"batch": f"{recipe}-{self.batches[recipe]}", "recipe": recipe, "tags": tags}
            if self.plant.do("would", **asked) == {"would": DONE}:
                self.assertEqual(self.plant.do("start", **asked), DONE)
                self.batches[recipe] += 1

    def finish(self):
        """Waits until all batches are over; where a person is asked, the person answers."""
        end = time.monotonic() + PATIENCE
        while (live := self.plant.live()).told["batches"]:
            for alarm in live.alarms().values():
                self.answer(alarm)
            if time.monotonic() > end:
                raise AssertionError(f"batches never end: {live.told['batches']}, {live.told['still']}")
            time.sleep(0.1)

    def answer(self, alarm):
        """What a person says who looked at the module: it did go on by itself; a command had no effect."""
        if alarm["code"] == "missed":
            self.plant.do("passed", tag=alarm["tag"], service=alarm["service"])
        elif alarm["code"].startswith("command_") and alarm["code"] != "command_not_sent":
            self.plant.do("again", tag=alarm["tag"], service=alarm["service"])

    def check(self):
        """Each batch has each of its entries once, and each service was started once for each start in the history."""
        self.assertEqual(self.plant.kill(signal.SIGTERM), 0)
        dids = {}
        for entries in self.plant.files():
            self.assertEqual([each for each in entries if "wait" in each["answer"]], [])
            refused = [each for each in entries if each["answer"].get("rule", "NotAnEdge") != "NotAnEdge"]
            self.assertEqual(refused, [])
            # An open batch has its whole log in the next file too.
            dids |= dids_of(entries)
        self.assertEqual(dids, {f"{recipe}-{number}": counts_of(recipe) for recipe, count in self.batches.items()
                                for number in range(count)})
        starts = collections.Counter(key for recipe, count in self.batches.items() for key in STEPS[recipe] * count)
        self.assertEqual({key: self.plant.listener.starts(*key)[0] for key in starts}, starts)

    # What is killed.

    def kill_station(self):
        self.plant.kill()
        self.plant.up()

    def kill_program(self):
        for number in self.plant.programs():
            os.kill(number, signal.SIGKILL)

    def kill_broker(self):
        self.plant.broker.stop()
        self.plant.broker.start()

    def renew(self):
        """Has the file renewed, in which so many batches were started that soon no other one may be."""
        self.assertEqual(self.plant.do("renew")["station"], "renewed")
        self.full += MOST_BATCHES

    def kill_while_it_renews(self):
        """Kills the station in the midst of a renewal, which goes on to its end or wasn't begun."""
        asked = threading.Thread(target=self.plant.ask_and_lose, args=("renew",))
        asked.start()
        time.sleep(self.chance.uniform(0, RENEWS))
        self.kill_station()
        asked.join(PATIENCE)

    def kill_all(self, kinds, kills, seed):
        """Kills at random moments, of a seed that a failure can be tried again with."""
        self.chance, self.full = random.Random(seed), MOST_BATCHES
        for _ in range(kills):
            self.start_all()
            time.sleep(self.chance.uniform(0, LONGEST))
            self.chance.choice(kinds)()
            if self.batches.total() > self.full:
                self.renew()
        self.finish()
        self.check()

    def test_a_station_that_is_killed(self):
        self.kill_all([self.kill_station], reading.KILLS, reading.SEED)

    def test_a_program_that_is_killed(self):
        self.kill_all([self.kill_program], reading.KILLS, reading.SEED)

    def test_a_broker_that_is_ended(self):
        self.kill_all([self.kill_broker], reading.KILLS // 3, reading.SEED)

    def test_a_station_that_is_killed_while_its_file_is_renewed(self):
        self.kill_all([self.kill_while_it_renews], reading.KILLS, reading.SEED)

    def test_each_of_them_in_turn(self):
        self.kill_all([self.kill_station, self.kill_program, self.kill_broker, self.kill_while_it_renews],
                      reading.KILLS, reading.SEED)

    def test_a_station_that_is_away_while_a_step_ends(self):
        self.start_all()
        self.plant.until_state("TNK1", "fill", "Execute")
        self.plant.kill()
        wait = self.plant.listener.states["TNK1", "fill"]
        end = time.monotonic() + PATIENCE
        while wait[-1] != "Completed" and time.monotonic() < end:
            time.sleep(0.05)
        self.plant.up()
        self.finish()
        live = self.plant.live()
        self.assertEqual(set(live.outcomes().values()), {"Completed"})
        self.assertEqual(live.alarms(), {})
        self.assertEqual([each["answer"] for each in live.told["refused"]], [])
        self.check()

    def test_a_module_is_where_it_was_after_an_exchange(self):
        self.assertIn("ticket", self.plant.do("exchange_begin", tag="MIX1"))
        self.plant.kill()
        self.plant.up()
        live = self.plant.until(lambda live: live.module("MIX1")["ticket"] == 1, "MIX1 is away")
        self.assertEqual(self.plant.do("exchange_end", tag="MIX1", package="mixer-2.2.mtp"), DONE)
        self.plant.until_state("MIX1", "stir", "Idle")
        self.plant.kill()
        self.plant.up()
        live = self.plant.until_ready()
        self.assertEqual((live.module("MIX1")["package"], live.module("MIX1")["version"]), ("mixer-2.2.mtp", "2.2.0"))
        self.assertEqual(self.plant.do("unplug", by=LEAD, tag="DOS2"), DONE)
        self.plant.kill()
        self.plant.up()
        live = self.plant.live()
        self.assertEqual([each["tag"] for each in live.told["absent"]], ["DOS2"])
        self.assertEqual(len(live.told["modules"]), len(TAGS) - 1)


def dids_of(entries):
    """How often each batch does each thing, and how it is closed."""
    dids = collections.defaultdict(collections.Counter)
    for each in entries:
        if "did" in each["answer"] or "closed" in each["answer"]:
            did = each["answer"].get("did", {}).get("do")
            dids[each["event"]["batch"]][did or each["answer"]["closed"]] += 1
    return dids


def counts_of(recipe):
    """How often a batch does each thing: each step is started, reset and ended once."""
    steps = len(STEPS[recipe])
    return collections.Counter(start=steps, reset=steps, end=steps, finish=recipe == "blend", Completed=1)
