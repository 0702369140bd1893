"""Batches, values and states that last, each by itself: what is held back, what is told how often, what is late."""
import json
import queue
import signal
import threading
import time
import unittest
import unittest.mock

from adapters.codes import STATES
from adapters.told import Value
from adapters.turns import Turns
from checks.broker import PATIENCE
from checks.stand_ins import KEY, SERVICE, TAG, Parts, fields
from operating import values
from operating.late import Late
from operating.past import Past
from operating.server import Pages
from operating.values import Values

SOON = 0.05
START = {"did": {"do": "start", "procedure": 1, "service": "dose", "step": "s", "tag": TAG}}
STOP = {"did": {"do": "stop", "service": "dose", "step": "s", "tag": TAG}}
BATCH = {"batch": "b", "recipe": "one", "bind": {"A": TAG}, "watch": {}}


class Batches(unittest.TestCase):
    def setUp(self):
        self.parts = Parts()
        self.addCleanup(self.parts.close)
        self.plant, self.batches = self.parts.plant, self.parts.batches
        self.plant.batches = ["b"]

    def go(self, *answers):
        """Something changed; this is what an advance would be answered, one after the other."""
        self.plant.answers.extend(answers)
        self.batches.touch(TAG)
        self.parts.turns.run(SOON)
        return [event["batch"] for event in self.plant.told]

    def test_a_wait_is_not_asked_for(self):
        self.assertEqual(self.go({"wait": "NoArm", "node": 0}), [])
        self.assertEqual(self.batches.waits["b"].answer, {"wait": "NoArm", "node": 0})

    def test_what_is_waited_for_since_when(self):
        self.go()
        since = self.batches.waits["b"].since
        time.sleep(SOON)
        self.go()
        self.assertEqual(self.batches.waits["b"].since, since)
        self.go({"wait": "Away", "tag": TAG})
        self.assertGreater(self.batches.waits["b"].since, since)

    def test_it_goes_on_until_it_waits(self):
        self.parts.here()
        self.assertEqual(self.go(START, {"did": {"do": "end", "step": "s"}}), ["b", "b"])
        self.assertEqual(self.batches.waits["b"].answer["wait"], "Unmet")

    def test_a_start_waits_for_its_module_and_a_stop_does_not(self):
        self.assertEqual(self.go(START), [])
        self.assertEqual(self.batches.waits["b"].answer, {"wait": "Gone", "tag": TAG})
        self.plant.answers.clear()
        self.assertEqual(self.go(STOP), ["b"])

    def test_a_batch_that_is_over_waits_for_nothing(self):
        self.go()
        self.assertEqual(self.go({"closed": "Completed"}), ["b"])
        self.assertEqual(self.batches.waits, {})
        self.go({"refused": 16, "rule": "BatchClosed"})
        self.assertEqual(self.batches.waits, {})

    def test_what_the_policy_denies_is_shown_as_a_wait(self):
        self.assertEqual(self.go({"denied": True}), [])
        self.assertEqual(self.batches.waits["b"].answer, {"denied": True})


class LeftRunning(unittest.TestCase):
    """What the past has of services that a closed batch left running."""

    def setUp(self):
        chart = {"step": "s", "role": "A", "service": SERVICE, "procedure": 1}
        self.past = Past([])
        self.take({"ev": "recipe", "recipe": "one", "roles": [], "chart": chart}, state="Idle")
        self.take({"ev": "start", "batch": "b", "recipe": "one", "bind": {"A": TAG}})
        self.take({"ev": "advance", "batch": "b"}, START)

    def take(self, event, answer=None, state=None):
        self.past.take({"at": 1, **event}, answer or {"done": True}, None)
        if state:
            self.past.take({"ev": "report", "at": 2, "tag": TAG, "service": SERVICE, **fields(state)}, {"done": True}, None)

    def left(self, *states):
        """What is left running once these states were reported, and then the batch was abandoned."""
        for state in states:
            self.take({"ev": "none"}, state=state)
        self.take({"ev": "abandon", "batch": "b"}, {"closed": "Abandoned"})
        return self.runs()

    def runs(self):
        return [(each.tag, each.service, each.batch) for each in self.past.left.shown()]

    def test_what_runs_is_left_until_it_is_at_rest(self):
        self.assertEqual(self.left("Starting", "Execute"), [(*KEY, "b")])
        self.take({"ev": "none"}, state="Completing")
        self.assertEqual(self.runs(), [(*KEY, "b")])
        self.take({"ev": "none"}, state="Completed")
        self.assertEqual(self.runs(), [])

    def test_what_is_at_rest_is_not_left(self):
        self.assertEqual(self.left("Starting", "Execute", "Completing", "Completed"), [])
        self.take({"ev": "none"}, state="Resetting")
        self.assertEqual(self.runs(), [])

    def test_a_start_that_was_on_its_way_shows_once_it_had_its_effect(self):
        self.assertEqual(self.left(), [])
        self.take({"ev": "none"}, state="Idle")
        self.take({"ev": "none"}, state="Starting")
        self.assertEqual(self.runs(), [(*KEY, "b")])

    def test_what_somebody_else_starts_was_not_left(self):
        for event, answer in (({"ev": "start", "batch": "c", "recipe": "one", "bind": {"A": TAG}}, None), (
                {"ev": "desk"}, {"did": {"do": "asked", "command": 4, "tag": TAG, "service": SERVICE}})):
            self.setUp()
            self.left()
            self.take(event, answer, state="Starting")
            self.assertEqual(self.runs(), [])

    def test_a_module_that_is_unplugged_leaves_nothing(self):
        self.left("Starting", "Execute")
        self.past.descriptions[TAG] = {}
        self.take({"ev": "unplug", "tag": TAG})
        self.assertEqual(self.runs(), [])

    def test_what_an_earlier_file_told(self):
        self.left("Starting", "Execute")
        known = dict(self.past.left.known)
        for state, wanted in (("Execute", [(*KEY, "b")]), ("Idle", [])):
            self.past = Past([])
            self.take({"ev": "none"}, state=state)
            self.past.remember(set(), 0, known)
            self.assertEqual(self.runs(), wanted)


class Told(unittest.TestCase):
    """Values of a plant with one batch, which tests `level`."""

    def setUp(self):
        self.parts = Parts()
        self.addCleanup(self.parts.close)
        self.plant = self.parts.plant
        self.plant.batches, self.plant.known = ["b"], {}
        self.plant.open_batches = lambda: {"b": BATCH}
        self.plant.tested = lambda recipe: {("A", "level")}
        self.plant.value = lambda *key: self.plant.known.get(key)
        self.plant.tell_all = lambda events: list(map(self.tell, events))
        self.enterContext(unittest.mock.patch.object(values, "GATHER", 0))
        self.told = []
        self.values = Values(self.parts.turns, self.plant, self.parts.alarms, self.parts.batches, SOON)

    def tell(self, event, by=None):
        self.told.append(event["value"])
        self.plant.known[event["tag"], event["name"]] = event["value"]
        return {"done": True}

    def show(self, *shown, name="level"):
        for value in shown:
            self.values.take(Value(TAG, name, value))
            self.parts.turns.run(SOON / 10)

    def test_only_what_is_tested(self):
        self.show(1, name="mass")
        self.plant.batches = []
        self.show(1)
        self.assertEqual(self.told, [])
        self.plant.batches = ["b"]
        self.values.started([TAG])
        self.parts.turns.run(SOON)
        self.assertEqual(self.told, [1])

    def test_at_most_so_often_and_the_last_one_in_the_end(self):
        self.show(1, 2, 3, 4)
        self.assertEqual(self.told, [1])
        self.parts.turns.run(3 * SOON)
        self.assertEqual(self.told, [1, 4])
        self.show(4)
        self.parts.turns.run(3 * SOON)
        self.assertEqual(self.told, [1, 4])

    def test_those_that_come_together_are_told_together(self):
        self.plant.tested = lambda recipe: {("A", "level"), ("A", "mass")}
        groups, tell_all = [], self.plant.tell_all
        self.plant.tell_all = lambda events: groups.append(len(events)) or tell_all(events)
        self.values.take(Value(TAG, "level", 1))
        self.values.take(Value(TAG, "mass", 2))
        self.parts.turns.run(SOON)
        self.assertEqual((self.told, groups), ([1, 2], [2]))

    def test_none_of_bad_quality(self):
        self.show(1)
        self.values.bad(TAG, "level", "its quality is bad (WQC 0)")
        self.parts.turns.run(3 * SOON)
        self.assertEqual((self.told, self.parts.codes()), ([1], ["quality"]))
        self.assertEqual((self.values.shown[TAG, "level"].value, self.values.shown[TAG, "level"].is_good), (1, False))
        self.show(2)
        self.parts.turns.run(3 * SOON)
        self.assertEqual((self.told, self.parts.codes()), ([1, 2], []))

    def test_none_of_a_module_that_is_away(self):
        self.plant.ticket = 1
        self.show(1)
        self.assertEqual(self.told, [])


class Hurried(unittest.TestCase):
    def test_who_is_in_a_hurry_comes_first_and_ends_a_wait(self):
        turns, made = Turns(), []
        for number in range(3):
            turns.put(lambda number=number: made.append(number))
        turns.hurry(lambda: made.append("person"))
        turns.run(SOON)
        self.assertEqual(made, ["person", 0, 1, 2])
        threading.Timer(SOON, turns.hurry, [lambda: made.append("another")]).start()
        self.assertTrue(turns.until(lambda: "another" in made, PATIENCE))


class Drawn(unittest.TestCase):
    """The page is drawn part by part, each in a turn of its own."""

    def setUp(self):
        self.turns, self.made, self.state = Turns(), [], 0
        self.pages = Pages(self.turns, ("127.0.0.1", 0))
        self.pages.serve(self.draw, None, {})
        self.addCleanup(self.pages.close)

    def draw(self, by):
        """Three parts, and then the state at their beginning."""
        state = self.state
        for part in range(3):
            self.made.append(part)
            yield None
        yield {"state": state}

    def come(self):
        reader = queue.Queue(1)
        self.pages.come(reader, "dan")
        return reader

    def test_a_person_comes_between_the_parts(self):
        reader = self.come()
        self.turns.hurry(lambda: self.made.append("person"))
        self.turns.run(SOON)
        self.assertEqual((self.made, json.loads(reader.get_nowait())), ([0, "person", 1, 2], {"state": 0}))

    def test_who_comes_is_shown_nothing_that_was_begun_before(self):
        self.come()
        self.state = 1
        later = self.come()
        self.assertTrue(self.turns.until(lambda: not later.empty(), PATIENCE))
        self.assertEqual(json.loads(later.get_nowait()), {"state": 1})

    def test_what_changed_meanwhile_is_drawn_once_more(self):
        reader = self.come()
        self.turns.run(SOON)
        reader.get_nowait()
        self.pages.changed()
        self.assertTrue(self.turns.until(lambda: len(self.made) == 4, PATIENCE))
        self.state = 2
        for _ in range(5):
            self.pages.changed()
        self.assertTrue(self.turns.until(lambda: not reader.empty() and reader.queue[0] == '{"state": 2}', PATIENCE))
        self.assertEqual(len(self.made), 9)


class Signals(unittest.TestCase):
    def test_a_signal_that_comes_at_the_very_end_of_a_wait(self):
        """Such a wait never ends by itself (Python 3.11), so whoever ends a station by a signal gets a turn."""
        turns, has_ended = Turns(), threading.Event()

        def end(*_):
            time.sleep(2 * SOON)
            turns.put(has_ended.set)
        before = signal.signal(signal.SIGALRM, end)
        self.addCleanup(signal.signal, signal.SIGALRM, before)
        rescue = threading.Timer(PATIENCE, turns.put, [lambda: None])
        rescue.start()
        self.addCleanup(rescue.cancel)
        signal.setitimer(signal.ITIMER_REAL, SOON)
        began = time.monotonic()
        self.assertTrue(turns.until(has_ended.is_set, 2 * SOON) or turns.until(has_ended.is_set, SOON))
        self.assertLess(time.monotonic() - began, PATIENCE / 2)


class Lasting(unittest.TestCase):
    def setUp(self):
        self.parts = Parts()
        self.addCleanup(self.parts.close)
        self.late = Late(self.parts.turns, self.parts.plant, self.parts.alarms, SOON)

    def report(self, state):
        self.parts.plant.report(KEY, fields(state))
        self.late.reported(KEY, STATES[state])

    def test_a_state_that_only_passes_and_stays(self):
        self.report("Starting")
        self.parts.turns.run(3 * SOON)
        self.assertEqual(self.parts.codes(), ["late"])
        self.report("Execute")
        self.parts.turns.run(3 * SOON)
        self.assertEqual(self.parts.codes(), [])

    def test_one_that_passes_in_time(self):
        self.report("Starting")
        self.report("Execute")
        self.report("Completing")
        self.report("Completed")
        self.parts.turns.run(3 * SOON)
        self.assertEqual(self.parts.codes(), [])
