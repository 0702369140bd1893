"""Lines over time and where a batch stands in its chart: what the page draws, each by itself."""
import json
import unittest
import unittest.mock

from adapters.codes import STATES
from adapters.told import SERVICE, VARIABLE
from checks.reading import STATION
from operating import trends
from operating.standing import Standing, nodes
from operating.trends import BY_GRAVITY, PLACES, RECENT, RECENT_LASTS, WHOLE, WHOLE_LASTS, Trends

TAG, LEVEL, FILL = "T", "level", "fill"
BEGIN = 1_000_000
LOOPED = {"seq": [{"step": "a"}, {"loop": {"seq": [{"step": "b"}, {"sel": [{"when": {}, "then": {"step": "c"}}]}]},
                                  "until": {}}]}


class Lines(unittest.TestCase):
    def setUp(self):
        self.at = BEGIN
        self.enterContext(unittest.mock.patch.object(trends, "now", lambda: self.at))
        self.trends = Trends()

    def show(self, value, at):
        self.at = BEGIN + at
        self.trends.value(TAG, LEVEL, value)

    def line(self, span, name=LEVEL):
        """The places of a line: each with its number, the least, the greatest and the last in it."""
        lines = self.trends.spans[span].shown([TAG], self.at)["lines"]
        found = [each for each in lines if each["name"] == name]
        return found[0]["places"] if found else None

    def test_a_place_has_the_least_the_greatest_and_the_last(self):
        for value in (5, 9, 2, 4):
            self.show(value, 10)
        self.assertEqual(self.line(RECENT), [[0, 2, 9, 4]])
        self.show(7, RECENT_LASTS)
        self.assertEqual(self.line(RECENT), [[0, 2, 9, 4], [1, 7, 7, 7]])

    def test_of_the_last_minutes_what_is_older_goes_but_for_what_still_held(self):
        for place in (0, 1, 2):
            self.show(place, place * RECENT_LASTS)
        self.show(50, (PLACES + 2) * RECENT_LASTS)
        self.assertEqual([each[0] for each in self.line(RECENT)], [1, 2, PLACES + 2])
        shown = self.trends.shown(RECENT, [TAG])
        self.assertEqual((shown["to"] - shown["from"], shown["lasts"]), (PLACES * RECENT_LASTS, RECENT_LASTS))
        self.at = BEGIN + PLACES * RECENT_LASTS
        self.assertEqual(self.trends.shown(RECENT, [TAG])["from"], BEGIN)

    def test_of_the_whole_time_nothing_is_lost_that_was_least_or_greatest(self):
        count = 40 * PLACES
        for place in range(count):
            self.show(9_999 if place == 777 else -5 if place == 3333 else place % 7, place * WHOLE_LASTS)
        line = self.line(WHOLE)
        self.assertLessEqual(len(line), PLACES)
        self.assertGreater(len(line), PLACES // 2 - 1)
        self.assertEqual((min(each[1] for each in line), max(each[2] for each in line)), (-5, 9_999))
        lasts = self.trends.shown(WHOLE, [TAG])["lasts"]
        self.assertEqual(next(each[0] for each in line if each[2] == 9_999), 777 * WHOLE_LASTS // lasts)
        self.assertEqual(line[-1][3], (count - 1) % 7)

    def test_what_comes_when_places_are_made_longer_is_kept(self):
        self.show(1, 0)
        for value, place in ((2, PLACES), (3, 8 * PLACES)):
            self.show(value, place * WHOLE_LASTS)
            self.assertEqual(self.line(WHOLE)[-1][1:], [value] * 3)
        self.assertEqual(self.line(WHOLE)[0], [0, 1, 1, 1])

    def test_a_module_that_is_gone_is_unknown_until_it_is_back(self):
        self.show(5, 0)
        self.at = BEGIN + RECENT_LASTS
        self.trends.gone(TAG)
        self.assertEqual(self.line(RECENT), [[0, 5, 5, 5], [1, None, None, None]])
        self.at = BEGIN + 2 * RECENT_LASTS
        self.trends.back(TAG)
        self.assertEqual(self.line(RECENT)[-1], [2, 5, 5, 5])

    def test_bad_quality_is_unknown_and_stays_so_when_the_module_is_back(self):
        self.show(5, 0)
        self.show(None, 0)
        self.assertEqual(self.line(RECENT), [[0, 5, 5, None]])
        self.trends.gone(TAG)
        self.trends.back(TAG)
        self.assertEqual(self.line(RECENT), [[0, 5, 5, None]])

    def test_the_gravest_of_the_states_shows(self):
        for state in ("Execute", "Held", "Idle"):
            self.trends.state(TAG, FILL, STATES[state])
        [[_, least, gravest, last]] = self.line(WHOLE, FILL)
        self.assertEqual([BY_GRAVITY[rank] for rank in (least, gravest, last)], ["Idle", "Held", "Idle"])
        self.assertEqual(set(BY_GRAVITY), set(STATES))
        self.assertEqual(self.trends.shown(WHOLE, [TAG])["states"][gravest], STATES["Held"])

    def test_truth_values_are_numbers_and_texts_have_no_line(self):
        self.show("warm", 0)
        self.assertIsNone(self.line(RECENT))
        self.show(True, 0)
        self.assertEqual(self.line(RECENT), [[0, 1, 1, 1]])

    def test_only_the_modules_that_are_asked_for_and_none_that_left(self):
        self.show(5, 0)
        self.trends.state("U", FILL, STATES["Idle"])
        self.assertEqual([(each["tag"], each["kind"]) for each in self.trends.shown(WHOLE, ["U", TAG])["lines"]],
                         [(TAG, VARIABLE), ("U", SERVICE)])
        self.trends.left(TAG)
        self.assertEqual([each["tag"] for each in self.trends.shown("?", ["U", TAG])["lines"]], ["U"])

    def test_a_clock_that_is_set_back(self):
        self.show(5, -10_000)
        self.assertEqual(self.line(WHOLE), [[0, 5, 5, 5]])


class Stands(unittest.TestCase):
    def take(self, standing, *deeds, **more):
        for deed in deeds:
            word, _, name = deed.partition(" ")
            standing.take({"do": word, **({"node": int(name)} if name.isdecimal() else {"step": name} if name else {}),
                           **more})

    def phases(self, standing):
        return {name: step["phase"] for name, step in standing.steps.items()}

    def test_each_step_is_in_what_was_done_with_it_last(self):
        standing = Standing(json.loads((STATION / "example" / "recipes" / "blend.json").read_text())["chart"])
        self.take(standing, "start fill", "reset fill", "end fill", "start stir", "finish stir", "start flush",
                  "hold flush")
        self.assertEqual(self.phases(standing), {"fill": "done", "stir": "on", "flush": "held"})
        self.assertEqual(standing.active, {"stir": "finish", "flush": "hold"})
        self.assertEqual((standing.passed, standing.steps["stir"]["completes"]), ({"fill"}, True))
        self.take(standing, "unhold flush", "reset stir")
        self.assertEqual(self.phases(standing), {"fill": "done", "stir": "ending", "flush": "on"})

    def test_a_loop_that_turns_begins_all_in_it_anew(self):
        standing = Standing(LOOPED)
        self.assertEqual([next(iter(node)) for node in nodes(LOOPED)],
                         ["seq", "step", "loop", "seq", "step", "sel", "step"])
        self.take(standing, "start a", "end a", "start b", "end b")
        self.take(standing, "chose 5", arm=0)
        self.take(standing, "start c", "end c")
        self.assertEqual((standing.passed, standing.arms), ({"a", "b", 5, "c"}, {5: 0}))
        self.take(standing, "turn 2", "start b")
        self.assertEqual((standing.passed, standing.turns, standing.steps["b"]["runs"]), ({"a"}, {2: 1}, 2))
        self.take(standing, "end b", "leave 2")
        self.assertEqual(standing.passed, {"a", "b", 2})

    def test_what_is_stopped_left_or_broke(self):
        for deed, state, phase, is_active in (("stop", None, "off", False), ("left", "Execute", "left", False),
                                              ("left", "Idle", "rest", False), ("broke", "Aborted", "broke", True)):
            standing = Standing({"step": "s"})
            self.take(standing, "start s", f"{deed} s", **({"state": STATES[state]} if state else {}))
            self.assertEqual((self.phases(standing), "s" in standing.active), ({"s": phase}, is_active), deed)
            self.assertEqual(standing.is_stopping, deed == "broke")
        self.take(standing, "stop_asked", "stop s")
        self.assertEqual(self.phases(standing), {"s": "broke"})
