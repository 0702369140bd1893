"""A plant that a station runs, over a real broker and on the real program: recipes, holds, exchanges, who may do what,
and what goes wrong at modules."""
import http.client
import unittest

from adapters.codes import COMMANDS, STATES
from checks.broker import PATIENCE
from checks.plants import LEAD, SHIFT, Running
from operating.deeds import BATCH_DEEDS
from operating.past import Past

DONE, JSON = {"done": True}, {"Content-Type": "application/json"}


class Operated(unittest.TestCase):
    """One plant for all tests; each leaves its modules Idle."""

    @classmethod
    def setUpClass(cls):
        cls.plant = Running()
        cls.addClassCleanup(cls.plant.close)
        cls.plant.up()
        cls.plant.until_ready()

    def start(self, batch, recipe, **bind):
        self.assertEqual(self.plant.start(batch, recipe, **bind), DONE)

    def choose(self, tag, service, word):
        self.assertEqual(self.plant.do("choose", tag=tag, service=service, word=word), DONE)
        self.plant.until(lambda live: word in live.service(tag, service)["view"].values(), f"{tag} is in {word}")

    def test_a_recipe_runs_from_start_to_end(self):
        starts = [self.plant.listener.starts(*key) for key in (("DOS1", "dose"), ("MIX1", "stir"), ("MIX1", "drain"))]
        self.start("whole", "blend", doser="DOS1", mixer="MIX1")
        busy = self.plant.start("second", "blend", doser="DOS1", mixer="MIX1")
        self.assertEqual((busy["rule"], busy["batch"]), ("Busy", "whole"))
        live = self.plant.until_closed("whole")
        ends = [self.plant.listener.starts(*key) for key in (("DOS1", "dose"), ("MIX1", "stir"), ("MIX1", "drain"))]
        self.assertEqual([[end - start for start, end in zip(*pair)] for pair in zip(starts, ends)],
                         [[2, 2], [1, 1], [1, 1]])
        self.assertEqual([each["code"] for each in live.told["still"]], [])

    def test_what_a_step_sets_is_written_before_its_start(self):
        since = len(self.plant.listener.written)
        self.start("charged", "charge", source="DOS2")
        live = self.plant.until_closed("charged")
        written = [each[1:] for each in self.plant.listener.written[since:] if each[0] == "DOS2"]
        self.assertEqual(written, [("dose/1/amount", 400), ("dose", COMMANDS["Start"]), ("dose", COMMANDS["Reset"])])
        values = {each["name"]: each["value"] for each in live.module("DOS2")["values"]}
        self.assertEqual(values["dose_by_weight_dosed"], 400000)

    def test_a_batch_that_is_held_and_a_module_that_is_exchanged_in_the_midst_of_it(self):
        plant = self.plant
        self.start("held", "blend", doser="DOS1", mixer="MIX1")
        plant.until_state("DOS1", "dose", "Execute")
        self.assertEqual(plant.do("hold", by=SHIFT, batch="held"), DONE)
        live = plant.until_state("DOS1", "dose", "Held")
        self.assertEqual(live.wait("held"), "Frozen")
        self.assertEqual(live.batch("held")["steps"], [
            {"step": "fill", "did": "hold", "tag": "DOS1", "service": "dose", "state": STATES["Held"]}])
        self.assertEqual(plant.do("exchange_begin", tag="DOS1")["rule"], "ActiveStep")
        self.assertEqual(plant.do("exchange_begin", by=SHIFT, tag="MIX1"), {"denied": True})
        self.assertEqual(plant.do("exchange_begin", tag="MIX1"), {"ticket": 1})
        live = plant.until(lambda live: live.module("MIX1")["ticket"] == 1, "MIX1 is away")
        ends = {each["package"]: each["why"] for each in live.module("MIX1")["ends"]}
        self.assertEqual((ends["mixer-2.2.mtp"], ends[None], ends["tank.mtp"]["rule"]), (None, None, "HeldBack"))
        self.assertEqual(plant.do("exchange_end", tag="MIX1", package="tank.mtp")["rule"], "HeldBack")
        self.assertEqual(plant.do("exchange_end", tag="MIX1", package="mixer-2.2.mtp"), DONE)
        live = plant.until_state("MIX1", "stir", "Idle")
        self.assertEqual(live.module("MIX1")["version"], "2.2.0")
        self.assertEqual(plant.do("thaw", by=SHIFT, batch="held"), DONE)
        plant.until_closed("held")

    def test_the_old_module_comes_back(self):
        self.assertIn("ticket", self.plant.do("exchange_begin", tag="TNK1"))
        self.assertEqual(self.plant.do("exchange_cancel", tag="TNK1"), DONE)
        self.plant.until_state("TNK1", "fill", "Idle")

    def test_a_stop_and_the_way_back_by_hand(self):
        plant = self.plant
        self.start("stopped", "refill", tank="TNK1")
        plant.until_state("TNK1", "fill", "Execute")
        self.assertEqual(plant.do("stop", batch="stopped"), {"did": {"do": "stop_asked"}})
        plant.until_closed("stopped", "Stopped")
        plant.until_state("TNK1", "fill", "Stopped")
        self.choose("TNK1", "fill", "Operator")
        self.assertIn("did", plant.do("desk", tag="TNK1", service="fill", command=COMMANDS["Reset"]))
        plant.until_state("TNK1", "fill", "Idle")
        self.choose("TNK1", "fill", "Automatic")

    def ask_left(self, live, batch, state):
        """On top there is what this batch left running."""
        first = live.told["still"][0]
        self.assertEqual([first[key] for key in ("code", "tag", "service", "batch", "state")],
                         ["left", "DOS1", "dose", batch, STATES[state]])

    def leave_held(self, batch):
        """A batch whose service is held."""
        self.start(batch, "blend", doser="DOS1", mixer="MIX1")
        self.assertEqual(self.plant.do("hold", batch=batch), DONE)
        self.plant.until_state("DOS1", "dose", "Held")

    def stop_by_hand(self):
        """Stops what was left, and brings it back."""
        self.assertIn("did", self.plant.do("desk", tag="DOS1", service="dose", command=COMMANDS["Stop"]))
        self.plant.until_alarm("left", False)
        self.plant.until_state("DOS1", "dose", "Stopped")
        self.assertIn("did", self.plant.do("desk", tag="DOS1", service="dose", command=COMMANDS["Reset"]))
        self.plant.until_state("DOS1", "dose", "Idle")
        self.choose("DOS1", "dose", "Automatic")

    def test_a_service_that_an_abandoned_batch_left_is_an_alarm_until_it_is_at_rest(self):
        plant = self.plant
        self.leave_held("deserted")
        self.assertEqual(plant.do("abandon", batch="deserted"), {"closed": "Abandoned"})
        self.ask_left(plant.until_alarm("left"), "deserted", "Held")
        plant.kill()
        plant.up()
        self.ask_left(plant.until_ready(), "deserted", "Held")
        self.choose("DOS1", "dose", "Operator")
        self.assertIn("did", plant.do("desk", tag="DOS1", service="dose", command=COMMANDS["Unhold"]))
        self.ask_left(plant.until_state("DOS1", "dose", "Execute"), "deserted", "Execute")
        self.stop_by_hand()

    def test_a_service_that_a_stop_does_not_reach_is_an_alarm(self):
        self.leave_held("unstopped")
        self.choose("DOS1", "dose", "Operator")
        self.plant.do("stop", batch="unstopped")
        self.ask_left(self.plant.until_closed("unstopped", "Stopped"), "unstopped", "Held")
        self.stop_by_hand()

    def test_commands_by_hand_are_those_of_the_mask(self):
        plant = self.plant
        self.assertEqual(plant.live().service("DOS2", "dose")["may"], 0)
        self.choose("DOS2", "dose", "Operator")
        masks = {by: plant.live(by).service("DOS2", "dose")["may"] for by in (LEAD, SHIFT)}
        self.assertEqual(masks, {LEAD: sum(COMMANDS[name] for name in ("Start", "Stop", "Abort")),
                                 SHIFT: sum(COMMANDS[name] for name in ("Start", "Stop"))})
        for by, mask in masks.items():
            for name in ("Hold", "Abort", "Complete") if by == SHIFT else ("Hold", "Complete"):
                answer = plant.do("desk", by=by, tag="DOS2", service="dose", command=COMMANDS[name])
                self.assertFalse("did" in answer or mask & COMMANDS[name], (by, name, answer))
        for name, state in (("Start", "Execute"), ("Hold", "Held"), ("Unhold", "Execute"), ("Stop", "Stopped"),
                            ("Reset", "Idle")):
            self.assertIn("did", plant.do("desk", by=SHIFT, tag="DOS2", service="dose", command=COMMANDS[name]))
            plant.until_state("DOS2", "dose", state)
        self.choose("DOS2", "dose", "Automatic")

    def test_each_command_by_hand_that_is_closed_says_why(self):
        """As it is answered, for each person, and anew once the service is in another mode."""
        plant, words = self.plant, (("Automatic", "ModeForbids"), ("Operator", "StateForbids"), ("Automatic", "ModeForbids"))
        for number, (word, rule) in enumerate(words):
            if number:
                self.choose("DOS2", "dose", word)
            for by in (LEAD, SHIFT, "eve"):
                service = plant.live(by).service("DOS2", "dose")
                for code in COMMANDS.values():
                    whys = [answer for mask, answer in service["whys"] if mask & code]
                    self.assertEqual(len(whys), not service["may"] & code, (by, code))
                    if whys:
                        self.assertEqual(plant.do("desk", by=by, tag="DOS2", service="dose", command=code), *whys)
            rules = [answer.get("rule") for _, answer in plant.live().service("DOS2", "dose")["whys"]]
            self.assertEqual(rules[0], rule)
        drain = plant.live(SHIFT).service("MIX1", "drain")["whys"]
        self.assertEqual(drain, [[sum(COMMANDS.values()), {"denied": True, "policy": "shift-never-drains"}]])
        self.assertEqual(plant.live("").service("DOS2", "dose")["whys"], [[sum(COMMANDS.values()), {"station": "nobody"}]])

    def test_each_press_is_open_exactly_where_pol_would_do_it(self):
        """What a deed is answered is what the page said beforehand, for each person."""
        plant = self.plant
        self.start("pressed", "refill", tank="TNK1")
        plant.until_state("TNK1", "fill", "Execute")
        for by in (SHIFT, LEAD):
            for deed in ("thaw", "freeze", "freeze", "hold", "thaw"):
                why = plant.live(by).batch("pressed")["presses"][deed]
                answer = plant.do(deed, by=by, batch="pressed")
                self.assertEqual(why, None if answer == DONE else answer, (by, deed))
        self.assertEqual(set(plant.live().batch("pressed")["presses"]), set(BATCH_DEEDS))
        self.assertEqual(plant.live(SHIFT).batch("pressed")["presses"]["abandon"], {"denied": True})
        self.assertIsNone(plant.live(LEAD).batch("pressed")["presses"]["abandon"])
        self.assertEqual(plant.live(SHIFT).module("DOS2")["presses"]["unplug"], {"denied": True})
        refill = plant.live().recipe("refill")
        self.assertEqual((refill["assigned"], refill["why"]["rule"]), ({"tank": "TNK1"}, "NotIdle"))
        self.assertEqual(plant.do("abandon", batch="pressed", by=SHIFT), {"denied": True})
        plant.until_closed("pressed")
        denied = [each for each in plant.live().told["refused"] if each["answer"] == {"denied": True}]
        self.assertEqual((denied[0]["by"], denied[0]["event"]["ev"]), (SHIFT, "abandon"))

    def test_a_module_that_is_only_read_may_be_anothers(self):
        """The finder has none then; by asking one is found."""
        self.start("filled", "refill", tank="TNK1")
        draw = self.plant.live().recipe("draw")
        self.assertEqual((draw["assigned"], draw["why"]), ({"pump": "DOS1", "tank": "TNK1"}, None))
        self.assertEqual([role["is_read"] for role in draw["roles"]], [False, True])
        asked = {"batch": "never", "recipe": "draw"}
        for tags, by, wanted in (({"pump": "DOS2", "tank": "TNK1"}, LEAD, DONE),
                                 ({"pump": "DOS2", "tank": "TNK1"}, "eve", {"denied": True}),
                                 ({"pump": "DOS2"}, LEAD, {"refused": 17, "role": "tank", "rule": "RoleUnbound"})):
            self.assertEqual(self.plant.do("would", by=by, tags=tags, **asked), {"would": wanted})
        self.plant.until_closed("filled")

    def test_who_may_command_nothing_chooses_no_mode(self):
        asked = {"tag": "MIX1", "service": "drain", "word": "Operator"}
        self.assertEqual(self.plant.do("choose", by=SHIFT, **asked), {"denied": True})
        self.assertEqual(self.plant.do("choose", by="eve", **asked), {"denied": True})
        self.assertFalse(self.plant.live(SHIFT).service("MIX1", "drain")["may_choose"])

    def test_requests_that_are_none(self):
        """Another page can't ask for anything: not by a form, not by a name that leads here, not by another path."""
        address = ("127.0.0.1", self.plant.port)
        for method, path, headers, body, wanted in (
                ("POST", "/do", {"Content-Type": "text/plain"}, b"{}", 403), ("POST", "/do", {}, b"{}", 403),
                ("POST", "/do", {**JSON, "Host": "evil.example"}, b"{}", 403), ("POST", "/do", JSON, b"[]", 400),
                ("POST", "/do", JSON, b"{" * 5000, 400), ("POST", "/other", JSON, b"{}", 400),
                ("GET", "/", {"Host": "evil.example:80"}, None, 403), ("GET", "/../run", {}, None, 404),
                ("GET", "/page.css", {"Host": "localhost"}, None, 200), ("GET", "/none.js", {}, None, 404)):
            connection = http.client.HTTPConnection(*address, timeout=PATIENCE)
            connection.request(method, path, body, headers)
            self.assertEqual(connection.getresponse().status, wanted, (method, path, headers, body))
            connection.close()

    def test_what_is_not_in_its_form(self):
        for asked in ({"do": "fly"}, {"do": "stop"}, {"do": "start", "batch": "x"}, {"do": "choose", "tag": "DOS1",
                      "service": "dose", "word": "Sideways"}, {"do": "plug", "tag": "X", "package": "none.mtp"}):
            answer = self.plant.do(asked.pop("do"), **asked)
            self.assertEqual(answer.get("station"), "unknown", asked)
        for nobody in ("", "two%20words", "a" * 33):
            self.assertEqual(self.plant.do("stop", by=nobody, batch="b"), {"station": "nobody"})
            live = self.plant.live(nobody)
            self.assertEqual((live.told["by"], live.service("DOS1", "dose")["may_choose"]), ("", False))
            self.assertEqual(live.module("DOS1")["presses"]["unplug"], {"station": "nobody"})
        self.assertEqual(self.plant.do("passed", tag="DOS1", service="dose"), {"station": "nothing"})

    def test_a_watched_tank(self):
        plant = self.plant
        self.start("drawn", "draw", pump="DOS2", tank="TNK1")
        self.assertEqual(plant.live().batch("drawn")["watch"], {"tank": "TNK1"})
        plant.until(lambda live: live.wait("drawn") == "NoArm" or live.batch("drawn")["steps"], "it reads the level")
        number = 0
        while plant.live().wait("drawn") == "NoArm" and number < 5:
            number += 1
            self.start(f"refilled{number}", "refill", tank="TNK1")
            plant.until_closed(f"refilled{number}")
        plant.until_closed("drawn")

    # What goes wrong.

    def again(self, tag, service, code):
        """Once this alarm stands, a person has the command sent again."""
        alarm = self.plant.until_alarm(code).alarms()[code]
        self.assertEqual((alarm["tag"], alarm["service"]), (tag, service))
        self.assertEqual(self.plant.do("again", tag=tag, service=service), DONE)

    def test_a_command_that_falls(self):
        self.plant.fault("TNK1", "ignore")
        self.start("fallen", "refill", tank="TNK1")
        self.again("TNK1", "fill", "command_no_effect")
        self.plant.until_closed("fallen")
        self.plant.until_alarm("command_no_effect", False)

    def test_a_command_that_the_module_refuses(self):
        self.plant.fault("TNK1", "refuse")
        self.start("declined", "refill", tank="TNK1")
        alarm = self.plant.until_alarm("command_refused").alarms()["command_refused"]
        self.assertIn("told to refuse", alarm["why"])
        self.assertEqual(alarm["presses"], {"again": None, "forget": None})
        alarm = self.plant.live("eve").alarms()["command_refused"]
        self.assertEqual(alarm["presses"], dict.fromkeys(("again", "forget"), {"denied": True}))
        self.again("TNK1", "fill", "command_refused")
        self.plant.until_closed("declined")

    def test_a_command_that_is_not_wanted_any_more(self):
        self.plant.fault("TNK1", "refuse")
        self.start("dropped", "refill", tank="TNK1")
        self.plant.until_alarm("command_refused")
        self.assertEqual(self.plant.do("forget", tag="TNK1", service="fill"), DONE)
        self.plant.until_alarm("command_refused", False)
        self.assertEqual(self.plant.do("abandon", batch="dropped"), {"closed": "Abandoned"})

    def test_an_answer_that_never_comes_is_no_matter_where_the_report_does(self):
        self.plant.fault("TNK1", "mute")
        self.start("muted", "refill", tank="TNK1")
        live = self.plant.until_closed("muted")
        self.assertEqual(live.alarms(), {})

    def test_reports_that_are_missed_are_told_where_there_is_one_way(self):
        self.start("skipped", "refill", tank="TNK1")
        self.plant.until_state("TNK1", "fill", "Execute")
        self.plant.fault("TNK1", "skip", count=1)
        live = self.plant.until_closed("skipped")
        self.assertNotIn("missed", live.alarms())

    def test_a_connection_that_is_lost_while_a_step_runs(self):
        self.start("lost", "refill", tank="TNK1")
        self.plant.until_state("TNK1", "fill", "Execute")
        self.plant.fault("TNK1", "lose", seconds=15)
        self.plant.until_alarm("gone")
        self.plant.until_alarm("gone", False)
        self.plant.until_closed("lost")

    def test_a_module_that_is_restarted_in_the_midst_of_a_step(self):
        self.start("broken", "refill", tank="TNK1")
        self.plant.until_state("TNK1", "fill", "Execute")
        self.plant.fault("TNK1", "restart", seconds=5)
        alarm = self.plant.until_alarm("restarted").alarms()["restarted"]
        self.assertEqual((alarm["tag"], alarm["deeds"]), ("TNK1", ["restarted", "passed"]))
        presses = {by: self.plant.live(by).alarms()["restarted"]["presses"] for by in (LEAD, "")}
        self.assertEqual(presses, {LEAD: {"restarted": None, "passed": None},
                                   "": dict.fromkeys(("restarted", "passed"), {"station": "nobody"})})
        self.assertIn("done", self.plant.do("restarted", tag="TNK1", service="fill"))
        self.plant.until_closed("broken", "Broken")
        live = self.plant.until_state("TNK1", "fill", "Idle")
        self.assertEqual(live.alarms(), {})

    def test_a_value_of_bad_quality(self):
        self.plant.fault("TNK1", "quality", place="variable/level")
        alarm = self.plant.until_alarm("quality").alarms()["quality"]
        self.assertEqual((alarm["tag"], alarm["variable"]), ("TNK1", "level"))
        self.plant.fault("TNK1", "quality", place="variable/level", code=255)
        self.plant.until_alarm("quality", False)

    def test_a_module_that_is_unplugged_and_plugged(self):
        self.assertEqual(self.plant.do("unplug", tag="DOS2"), DONE)
        live = self.plant.until(lambda live: live.told["absent"], "DOS2 is absent")
        self.assertEqual(live.told["absent"], [{"tag": "DOS2", "package": "doser-3.0.mtp", "why": None}])
        self.assertEqual(self.plant.do("plug", tag="DOS2", package="doser-3.0.mtp"), DONE)
        self.plant.until_state("DOS2", "dose", "Idle")


class Kept(unittest.TestCase):
    """What is in the history in the end."""

    def ask_past(self, entries, plant):
        """What the station has by the entries is what the program has."""
        past = Past(entries)
        for module in plant["modules"]:
            for each in module["services"]:
                self.assertEqual(past.reports[module["tag"], each["name"]][-1], each["view"])
            for each in module["values"]:
                self.assertEqual(past.values.get((module["tag"], each["name"])), each["value"])

    def test_no_advance_that_only_waited_is_kept(self):
        plant = Running()
        self.addCleanup(plant.close)
        plant.up()
        plant.until_ready()
        self.assertEqual(plant.start("one", "blend", doser="DOS1", mixer="MIX1"), DONE)
        plant.until_closed("one")
        self.assertEqual(plant.kill(15), 0)
        entries = plant.entries()
        self.assertEqual([each for each in entries if "wait" in each["answer"] or "refused" in each["answer"]], [])
        self.assertEqual([each["by"] for each in entries if each["event"]["ev"] == "start"], [LEAD])
        self.ask_past(entries, plant.asked({"ask": "plant"})["plant"])
