"""Sites that can't be run, the words of station/run, and the program that a station begins anew."""
import json
import os
import pathlib
import signal
import socket
import subprocess
import sys
import time
import types
import unittest
import unittest.mock

from checks import reading
from checks.broker import PATIENCE, free_port
from checks.plants import Site
from checks.reading import STATION
from operating import pol
from operating.alarms import Alarms
from operating.notes import Notes
from operating.past import Past, number_in, tests
from operating.plant import Plant
from operating.pol import Ended, Pol
from operating.shown import Shown, is_still, obstacles_of
from operating.site import Unusable, people_of, read_site
from operating.standing import Standing, nodes
from operating.station import Station, plain

DONE = {"done": True}
OPEN = {"groups": [], "rules": []}
PLUG = {"ev": "plug", "at": 1, "tag": "M", "desc": {"type": "Doser", "version": "1.0.0", "services": [{"name": "dose"}]}}
# What is wrong with a file of a site, and words of what is said.
WRONG_FILES = [
    ("site.json", "x", "it is no JSON"), ("site.json", "[]", "it is no JSON object"),
    ("policy.json", None, "No such file"), ("site.json", '{"modules":[]}', "its modules are no object"),
    ("site.json", '{"modules":{"A B":"tank.mtp"}}', "is no name"),
    ("site.json", '{"modules":{"T":"none.mtp"}}', "isn't in packages/"),
    ("site.json", '{"modules":{"T":"faulty.mtp"}}', "its number is '0'"),
    ("site.json", '{"modules":{"T":7},"people":[]}', "isn't in packages/"),
    ("site.json", '{"people":"ann"}', "no list of names"),
    ("site.json", '{"people":["a b"]}', "no list of names"), ("site.json", '{"late":"x"}', "not a number of seconds"),
    ("recipes/x.json", '{"recipe":"x"}', "a recipe has the keys"), ("recipes/x.json", "{", "it is no JSON"),
]
# What is wrong in the words, and words of what is said.
WRONG_WORDS = [([], "required: SITE"), (["s", "--broker", "here"], "'here' is no HOST:PORT"),
               (["s", "--page", "127.0.0.1:0"], "is no HOST:PORT"), (["s", "--strange"], "--strange")]


def run(*words):
    """station/run as it is called by hand, where it ends by itself: its status, and what it told."""
    ran = subprocess.run([sys.executable, STATION / "run", *words], stdin=subprocess.DEVNULL, capture_output=True,
                         text=True, timeout=PATIENCE)
    return ran.returncode, ran.stderr


class Sites(unittest.TestCase):
    def setUp(self):
        self.site = Site()
        self.addCleanup(self.site.close)
        self.folder = self.site.folder

    def test_the_example(self):
        site = read_site(self.folder)
        self.assertEqual(sorted(site.modules), ["DOS1", "DOS2", "MIX1", "TNK1"])
        self.assertEqual([recipe["recipe"] for recipe in site.recipes], ["blend", "charge", "draw", "refill"])
        self.assertEqual(site.people, ["ann", "ben", "dan"])
        self.assertNotIn("faulty.mtp", site.packages)

    def test_what_is_wrong_is_told_with_what_to_do(self):
        for name, text, wanted in WRONG_FILES:
            path = self.folder / name
            before = path.read_text() if path.exists() else None
            path.write_text(text) if text is not None else path.unlink()
            with self.assertRaisesRegex(Unusable, wanted):
                read_site(self.folder)
            path.write_text(before) if before is not None else path.unlink()

    def test_people_of_any_policy(self):
        policy = {"groups": [{"group": "g", "members": ["a", "h"]}, {"group": "h", "members": ["b"]}],
                  "rules": [{"who": ["c", "g"]}], "lines": [{"who": ["d"]}, {}]}
        self.assertEqual(people_of(policy), ["a", "b", "c", "d"])
        for odd in ({}, {"groups": 7}, {"groups": [7], "rules": [[]]}, {"rules": [{"who": 7}]}):
            self.assertEqual(people_of(odd), [])

    def test_wrong_words_and_sites_are_told_in_a_line(self):
        for words, wanted in WRONG_WORDS:
            status, told = run(*words)
            self.assertEqual((status, told.count("\n")), (1, 1), told)
            self.assertTrue(told.startswith("error: ") and wanted in told, told)
        status, told = run(self.folder / "none")
        self.assertEqual((status, told.count("error: "), "Traceback" in told), (1, 2, False), told)
        status, told = run(self.folder, "--pol", "/none")
        self.assertEqual((status, told), (1, "error: /none can't be run; name the program by --pol\n"))

    def test_a_page_whose_port_is_anothers(self):
        """Nothing is told to anybody then."""
        with socket.create_server(("127.0.0.1", 0)) as other:
            page = f"127.0.0.1:{other.getsockname()[1]}"
            status, told = run(self.folder, "--pol", reading.PROGRAM[0], "--page", page)
        self.assertEqual(status, 1)
        self.assertEqual(told, f"error: the page at {page}: Address already in use; name another by --page\n")
        self.assertFalse((self.folder / "pol.plant").exists())

    def test_a_policy_that_is_none_ends_it_with_the_programs_word(self):
        self.site.write("policy.json", {"rules": []})
        status, told = run(self.folder, "--pol", reading.PROGRAM[0], "--page", f"127.0.0.1:{free_port()}")
        self.assertEqual(status, 1)
        self.assertIn("status 9: pol: bad policy: Missing at groups", told)


class Programs(unittest.TestCase):
    """The program as a station has it, killed between lines and in the midst of one."""

    def setUp(self):
        self.site = Site()
        self.addCleanup(self.site.close)
        self.pol = Pol(reading.PROGRAM[0], self.site.folder, OPEN)
        self.addCleanup(lambda: self.pol.close())

    def kill(self):
        os.kill(self.pol.process.pid, signal.SIGKILL)
        self.pol.process.wait()

    def report(self, at):
        fields = {"StateCur": 16, "CommandEn": 4, "Mode": "Automatic", "Src": "External", "ProcedureCur": 0}
        return {"ev": "report", "at": at, "tag": "M", "service": "dose", **fields}

    def test_it_is_begun_again(self):
        self.assertEqual((self.pol.tell(PLUG), self.pol.kept), (DONE, 1))
        for at in range(2, 6):
            self.kill()
            self.assertEqual(self.pol.tell(self.report(at)), DONE)
        self.kill()
        self.assertEqual([each["event"]["at"] for each in self.pol.entries()], [1, 2, 3, 4, 5])
        self.assertEqual(self.pol.beginnings, 6)

    def test_a_line_that_was_kept_before_it_ended_is_not_told_again(self):
        self.assertEqual(self.pol.tell(PLUG), DONE)
        # It kept the line, and ended before its answer was read.
        real, self.pol.lines = self.pol.lines, lambda asked: self.lose(real, asked)
        self.assertEqual(self.pol.tell({"ev": "exchange_begin", "at": 2, "tag": "M"}), {"ticket": 1})
        self.assertEqual(([each["event"]["at"] for each in self.pol.entries()], self.pol.kept), ([1, 2], 2))

    def lose(self, real, asked):
        self.pol.lines = real
        real(asked)
        self.kill()

    def test_what_is_no_entry_is_not_counted(self):
        desk = {"ev": "desk", "at": 1, "by": "a", "tag": "M", "service": "s", "CommandOp": 4}
        for event in ({"ev": "jump", "at": 1}, desk):
            self.pol.tell(event)
        self.assertEqual(self.pol.kept, 0)
        self.assertEqual(self.pol.tell({"ev": "unplug", "at": 1, "tag": "M"})["rule"], "NoModule")
        self.assertEqual(self.pol.kept, 1)

    def test_a_file_that_lost_what_was_answered(self):
        self.pol.tell(PLUG)
        self.kill()
        (self.site.folder / "pol.plant").unlink()
        with self.assertRaisesRegex(Ended, "has 0 entries, and 1 were answered"):
            self.pol.tell(self.report(2))

    def test_several_events_of_which_some_were_kept_before_it_ended(self):
        """Those that were kept aren't told again; one that is denied or no event isn't kept, and is answered."""
        self.pol.tell(PLUG)
        events = [self.report(2), {"ev": "jump", "at": 3}, self.report(4), self.report(5)]
        for count in range(5):
            real = self.pol.lines
            self.pol.lines = lambda asked: self.lose(real, asked[:count])
            kept = self.pol.kept
            answers = self.pol.tell_all(events)
            self.assertEqual(answers, [DONE, {"bad": "OutOfRange", "path": "ev"}, DONE, DONE])
            self.assertEqual([each["event"]["at"] for each in list(self.pol.entries())[kept:]], [2, 4, 5])

    def test_a_run_that_took_much_input_is_ended_and_begun_anew(self):
        self.pol.tell(PLUG)
        with unittest.mock.patch.object(pol, "MOST_INPUT", 1000):
            for at in range(20):
                self.assertEqual(self.pol.tell(self.report(at)), DONE)
        self.assertGreater(self.pol.beginnings, 2)
        self.assertEqual([each["event"]["at"] for each in self.pol.entries()], [1, *range(20)])

    def test_many_questions_at_once(self):
        self.pol.tell(PLUG)
        asked = [{"ask": "would", "event": self.report(at)} for at in range(500)]
        self.assertEqual(self.pol.ask_all(asked), [{"would": DONE}] * 500)
        self.kill()
        self.assertEqual(self.pol.ask_all(asked), [{"would": DONE}] * 500)


class Small(unittest.TestCase):
    def test_charts(self):
        both = {"par": [{"step": "b"}, {"step": "c"}]}
        chart = {"seq": [{"loop": {"step": "a"}, "until": {"test": "x", "role": "r"}},
                         {"sel": [{"when": {"all": [{"test": "y", "role": "r"}]}, "then": both}]}]}
        self.assertEqual([node["step"] for node in nodes(chart) if "step" in node], ["a", "b", "c"])
        self.assertEqual(list(tests(chart)), [("r", "x"), ("r", "y")])

    def test_a_chart_is_the_same_with_no_settings_in_it(self):
        self.assertEqual(plain({"seq": [{"step": "a", "settings": []}]}), {"seq": [{"step": "a"}]})

    def test_the_number_in_a_batchs_name(self):
        self.assertEqual(list(map(number_in, ("b1", "b12", "x", "b", "b1x", "b1234567890"))), [1, 12, 0, 0, 0, 0])

    def test_what_stands_still(self):
        for wait, wanted in (({"wait": "InState", "state": 64}, False), ({"wait": "InState", "state": 16}, True),
                             ({"wait": "Unmet"}, False), ({"wait": "Away"}, True), ({"denied": True}, True)):
            self.assertEqual(is_still(wait), wanted, wait)

    def test_what_a_batch_waits_for_in_each_branch(self):
        one, other = {"wait": "Unmet", "step": "s"}, {"wait": "Away", "tag": "M"}
        waits = [{"node": 1, "wait": one, "since": 5}, {"node": 2, "wait": other, "since": 7}]
        for wait, rows, wanted in ((one, waits, waits), (None, waits, []), (one, [], [{"wait": one, "since": 3}]),
                                   ({"wait": "Frozen"}, waits, [{"wait": {"wait": "Frozen"}, "since": 3}])):
            self.assertEqual(obstacles_of({"wait": wait, "since": 3, "waits": rows}), wanted)

    def test_since_when_a_branch_waits(self):
        shown = Shown(types.SimpleNamespace(plant=None, deeds=None))
        one, other, third = {"wait": "Unmet"}, {"wait": "Away"}, {"wait": "NoArm"}
        rows = [{"node": 1, "obstacle": one}, {"node": 2, "obstacle": other}]
        first = shown.obstacles("b", rows, {"wait": one, "since": 3})
        self.assertEqual([(each["node"], each["wait"], each["since"] == 3) for each in first],
                         [(1, one, True), (2, other, False)])
        time.sleep(0.01)
        rows[0]["obstacle"] = third
        again = shown.obstacles("b", rows, {"wait": third, "since": 9})
        self.assertEqual([each["since"] for each in again], [9, first[1]["since"]])

    def test_modules_that_the_program_offers_to_bind_and_to_watch(self):
        asked, both = [], {"pump": "D1", "tank": "T1"}
        roles = [{"role": role, "type": role} for role in both]
        plant = types.SimpleNamespace(past=types.SimpleNamespace(roles=lambda _: roles), modules=dict,
                                      would_all=lambda pairs: asked.extend(pairs) or [DONE])
        deeds = types.SimpleNamespace(start_event=lambda batch, recipe, tags: tags)
        shown = Shown(types.SimpleNamespace(plant=plant, deeds=deeds))
        for more in ({"bind": both}, {"bind": {"pump": "D1"}, "watch": {"tank": "T1"}}):
            made = shown.recipe("b1", {"recipe": "draw", **more}, "dan")
            self.assertEqual((made["assigned"], made["why"], asked.pop()), (both, None, (both, "dan")))

    def test_limits_that_are_near(self):
        """As the program tells them, or, of an older one, by its entries."""
        for state, wanted in (({"near": ["BatchesFull", "RecipesFull"]}, ["near_batches", "near_recipes"]),
                              ({"near": []}, []), ({"entries": 180_001}, ["near_history"]), ({"entries": 1000}, [])):
            alarms, plant = Alarms(lambda: None), types.SimpleNamespace(state=lambda: state)
            station = types.SimpleNamespace(alarms=alarms, plant=types.SimpleNamespace(near=lambda: Plant.near(plant)))
            alarms.set(("near", None, "HistoryFull"), "near_history")
            Station.tell_near(station)
            self.assertEqual([each["code"] for each in alarms.shown()], wanted)
            self.assertEqual([each["deeds"] for each in alarms.shown() if each["code"] == "near_recipes"],
                             [[]] * ("near_recipes" in wanted))

    def test_a_recipes_settings_where_an_entry_does_not_say_them(self):
        step = {"step": "s1", "role": "A", "service": "dose", "procedure": 1, "settings": [{"name": "amount", "value": 5}]}
        did = {"do": "start", "step": "s1", "tag": "M", "service": "dose", "procedure": 1}
        past = Past([{"event": {"ev": "recipe", "at": 1, "recipe": "one", "chart": step}, "answer": DONE},
                     {"event": {"ev": "start", "at": 2, "batch": "b", "recipe": "one", "bind": {"A": "M"}}, "answer": DONE},
                     {"event": {"ev": "advance", "at": 3, "batch": "b"}, "answer": {"did": did}}])
        self.assertEqual(past.given["M", "dose"].settings, (("amount", 5),))
        self.assertEqual(past.standings["b"].active, {"s1": "start"})

    def test_notes_of_another_history_do_not_count(self):
        site = Site()
        self.addCleanup(site.close)
        (pathlib.Path(site.folder) / "station.jsonl").write_text(json.dumps({"sends": [3, "M", "s", 4], "life": "x"})
                                                                    + "\n")
        self.assertEqual(Notes(site.folder).sent, {(3, "M", "s", 4): "x"})
