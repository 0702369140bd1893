"""A station over a real broker: what it is told and how its writes end, with simulated modules and with what goes
wrong."""
import json
import unittest
import uuid

from adapters.codes import COMMANDS, GOOD, STATES
from adapters.told import DONE, REFUSED, UNANSWERED, Back, Bad, Gone, Report, Setting, Value, Written
from checks.broker import (PATIENCE, QUEUE, QUIET, Broker, Plant, Station, Tester, ask_for_needs, free_port, maps_of,
                           wait_until)
from checks.reading import read_module, sample_folder
from making.modules import DOSER, TANK

MODULES = {"D1": "doser.mtp", "D2": "doser.aml", "D3": "doser-3.0.mtp", "D4": "doser-draft.mtp", "M1": "mixer.mtp",
           "M2": "mixer-2.2.mtp", "T1": "tank.mtp", "H1": "hard.mtp"}
LIFE = ["Idle", "Starting", "Execute", "Completing", "Completed", "Resetting", "Idle"]
# A command, and the states that follow.
TOURS = [("Start", ["Starting", "Execute"]), ("Hold", ["Holding", "Held"]), ("Unhold", ["Unholding", "Execute"]),
         ("Pause", ["Pausing", "Paused"]), ("Resume", ["Resuming", "Execute"]), ("Restart", ["Starting", "Execute"]),
         ("Stop", ["Stopping", "Stopped"]), ("Reset", ["Resetting", "Idle"]), ("Abort", ["Aborting", "Aborted"]),
         ("Reset", ["Resetting", "Idle"]), ("Start", ["Starting", "Execute"]),
         ("Complete", ["Completing", "Completed"]), ("Reset", ["Resetting", "Idle"])]
CONTROL = {"StateCur": 16, "CommandEn": 268, "ProcedureCur": 0, "StateOffAct": False, "StateOpAct": False,
           "StateAutAct": True, "SrcIntAct": False, "SrcExtAct": True, "WQC": 255}
# What a module may tell that is no report, and words of why.
FORMLESS = [("x", "what came is no JSON: "), ("[" * 100000, "what came is no JSON: "), ("[]", "is no JSON object"),
            ("{}", "its StateCur is None"), (json.dumps(CONTROL | {"StateCur": 5}), "which is no state"),
            (b"\xff\xfe", "is no JSON: "), ('{"StateCur":NaN}', "NaN is no number"),
            ('{"StateCur":' + "9" * 5000 + "}", "is no JSON: "), ('{"StateCur":1e9999999999999999999}', "is no JSON: ")]
SAYS_HERE, SAYS_GONE = {"there": True, "life": "one"}, {"there": False}


class OverBroker(unittest.TestCase):
    """A broker for all tests of a class, and the packages of the samples."""

    @classmethod
    def setUpClass(cls):
        cls.broker = Broker()
        cls.addClassCleanup(cls.broker.close)
        cls.folder = cls.enterClassContext(sample_folder())
        cls.tester = Tester(cls.broker.port)
        cls.addClassCleanup(cls.tester.close)
        cls.maps = maps_of(cls.folder, MODULES)

    def station(self, *tags, **more):
        made = Station(self.broker.port, {tag: self.maps[tag] for tag in tags}, **more)
        self.addCleanup(made.close)
        return made

    def here(self, *tags, **more):
        """A station by which these modules are there, and each of their services reported."""
        made = self.station(*tags, **more)
        for tag in tags:
            made.until_told(Back, tag)
            for service in self.maps[tag]["services"]:
                made.until_told(Report, tag, service=service)
        return made


class Simulated(OverBroker):
    @classmethod
    def setUpClass(cls):
        super().setUpClass()
        cls.plant = Plant(cls.broker.port, cls.folder, MODULES)
        cls.addClassCleanup(cls.plant.close)

    def fault(self, tag, fault, **words):
        self.assertIsNone(self.tester.fault(tag, fault, **words))

    def heal(self, station, tag, service):
        """Afterwards the service is Idle and takes a recipe's commands, whatever a test left it in."""
        for word in ("Automatic", "External"):
            station.do(station.adapter.choose(tag, service, word))
        if station.states(tag, service)[-1] != "Idle":
            self.command(station, tag, service, "Abort", "Aborted")
            self.command(station, tag, service, "Reset", "Idle")

    def command(self, station, tag, service, command, state, **more):
        station.do(station.adapter.command(tag, service, COMMANDS[command], **more))
        station.until_state(tag, service, state)

    def test_all_modules_come_up(self):
        self.assertEqual(self.plant.up, sorted(f"{tag} is there" for tag in MODULES))

    def test_each_procedure_of_each_sample_lives_its_life(self):
        station = self.here(*MODULES)
        found = [(tag, service, sorted(each["procedures"])) for tag in MODULES
                 for service, each in self.maps[tag]["services"].items()]
        for turn in range(max(len(numbers) for _, _, numbers in found)):
            chosen = [(tag, service, numbers[turn]) for tag, service, numbers in found if turn < len(numbers)]
            since = len(station.told)
            self.begin_all(station, chosen)
            self.end_all(station, chosen, since)
            for tag, service, number in chosen:
                self.assertEqual(station.states(tag, service, since), LIFE[1:], (tag, service, number))
                running = [fields["ProcedureCur"] for fields in station.reports(tag, service, since)]
                self.assertEqual(set(running), {int(number)})

    def begin_all(self, station, chosen):
        """Sets each parameter as it is, and starts."""
        for tag, service, number in chosen:
            for name in self.maps[tag]["services"][service]["procedures"][number]["params"]:
                setting = station.until_told(Setting, tag, service=service, procedure=int(number), parameter=name)
                station.do(station.adapter.set_parameter(tag, service, int(number), name, setting.value))
        start, command = COMMANDS["Start"], station.adapter.command
        for write in [command(tag, service, start, int(number)) for tag, service, number in chosen]:
            station.do(write)

    def end_all(self, station, chosen, since):
        """Completes what doesn't complete by itself, and resets all."""
        def has_reached(tag, service, state):
            return state in station.states(tag, service, since)
        for tag, service, _ in chosen:
            station.until(lambda: has_reached(tag, service, "Execute"), "Execute")
            reports = station.reports(tag, service, since)
            enabled = next(fields["CommandEn"] for fields in reports if fields["StateCur"] == STATES["Execute"])
            if enabled & COMMANDS["Complete"]:
                station.do(station.adapter.command(tag, service, COMMANDS["Complete"]))
        for tag, service, _ in chosen:
            station.until(lambda: has_reached(tag, service, "Completed"), "Completed")
            station.do(station.adapter.command(tag, service, COMMANDS["Reset"]))
        for tag, service, _ in chosen:
            station.until_state(tag, service, "Idle", since)

    def test_each_command_leads_to_its_states(self):
        station = self.here("M1")
        for command, states in TOURS:
            since = len(station.told)
            self.command(station, "M1", "stir", command, states[-1])
            self.assertEqual(station.states("M1", "stir", since), states, command)

    def test_a_setting_shows_in_what_is_reported(self):
        station = self.here("D1")
        since = len(station.told)
        station.do(station.adapter.set_parameter("D1", "dose", 1, "amount", 125500))
        self.command(station, "D1", "dose", "Start", "Completed", procedure=1)
        station.until(lambda: station.values("D1", "dose_by_weight_dosed", since)[-1:] == [125500], "all is dosed")
        self.assertIn(Setting("D1", "dose", 1, "amount", 125500), station.told[since:])
        self.command(station, "D1", "dose", "Reset", "Idle")

    def test_what_the_module_refuses_is_told_with_its_reason(self):
        station = self.here("D2")
        command, start = station.adapter.command, COMMANDS["Start"]
        for number, words in [
                (command("D2", "dose", COMMANDS["Hold"]), "Hold isn't enabled in Idle"),
                (command("D2", "dose", 3), "3 is no command"),
                (command("D2", "dose", start, 9), "the service dose has no procedure 9"),
                (command("D2", "dose", start, by="Op"), "is in mode Automatic, source External"),
                (station.adapter.set_parameter("D2", "dose", 1, "amount", 5000001), "amount: 5000.001 is above 5000")]:
            outcome, why = station.outcome(number)
            self.assertEqual(outcome, REFUSED)
            self.assertIn(words, why)
        self.assertEqual(station.states("D2", "dose"), ["Idle"])

    def test_a_listener_may_write_while_it_is_told(self):
        numbers, told = [], []

        def listen(thing):
            told.append(thing)
            if isinstance(thing, Back):
                numbers.append(station.adapter.choose("M2", "drain", "Operator"))
            elif isinstance(thing, Report) and thing.service == "drain" and thing.fields["Mode"] == "Operator":
                numbers.append(station.adapter.choose("M2", "drain", "Automatic"))
        station = self.station("M2", listener=listen)
        station.told = told
        station.until(lambda: len(numbers) == 2, "both are written")
        for number in numbers:
            station.do(number)
        station.until(lambda: station.reports("M2", "drain")[-1]["Mode"] == "Automatic", "it is as it was")

    def test_an_operator_takes_a_service_and_gives_it_back(self):
        station = self.here("M1")
        station.do(station.adapter.choose("M1", "stir", "Operator"))
        outcome, why = station.outcome(station.adapter.command("M1", "stir", COMMANDS["Start"]))
        self.assertEqual((outcome, "mode Operator" in why), (REFUSED, True))
        self.command(station, "M1", "stir", "Start", "Execute", procedure=1, by="Op")
        self.assertEqual(station.reports("M1", "stir")[-1]["Mode"], "Operator")
        station.do(station.adapter.choose("M1", "stir", "Automatic"))
        self.command(station, "M1", "stir", "Complete", "Completed")
        station.do(station.adapter.choose("M1", "stir", "Internal"))
        station.until(lambda: station.reports("M1", "stir")[-1]["Src"] == "Internal", "it is Internal")
        self.assertEqual(station.outcome(station.adapter.command("M1", "stir", COMMANDS["Reset"]))[0], REFUSED)
        self.heal(station, "M1", "stir")

    def test_commands_that_go_wrong(self):
        """Which fault, how the write ends, and whether the service goes on."""
        hasty, patient = self.here("M1", wait=0.5), self.here("M1")
        for fault, wanted, goes_on in (("refuse", REFUSED, False), ("drop", UNANSWERED, False), ("ignore", DONE, False),
                                       ("mute", UNANSWERED, True)):
            station = hasty if wanted == UNANSWERED else patient
            self.fault("M1", fault)
            since = len(station.told)
            outcome, _ = station.outcome(station.adapter.command("M1", "stir", COMMANDS["Start"]))
            self.assertEqual(outcome, wanted, fault)
            if goes_on:
                station.until_state("M1", "stir", "Execute", since)
            else:
                station.turns.run(QUIET)
                self.assertEqual(station.states("M1", "stir", since), [], fault)
        self.assertIn("it was told to refuse this", [each.why for each in patient.told if isinstance(each, Written)])
        patient.until_state("M1", "stir", "Execute")
        self.heal(patient, "M1", "stir")

    def test_an_answer_that_comes_late_is_told_no_more(self):
        station, patient = self.here("T1", wait=0.2), self.here("T1")
        self.fault("T1", "slow", seconds=20)
        number = station.adapter.command("T1", "fill", COMMANDS["Abort"])
        self.assertEqual(station.outcome(number), (UNANSWERED, "no answer within 0.2 s"))
        self.fault("T1", "slow", seconds=0)
        wait_until(lambda: f"{station.adapter.life}.{number}" in self.tester.answers, "the late answer")
        station.until_state("T1", "fill", "Aborted")
        station.turns.run(QUIET)
        patient.until_state("T1", "fill", "Aborted")
        self.command(patient, "T1", "fill", "Reset", "Idle")
        self.assertEqual([each.number for each in station.told if isinstance(each, Written)], [number])

    def test_a_connection_that_is_lost_and_what_was_passed_meanwhile(self):
        station = self.here("D3")
        life = station.until_told(Back, "D3").life
        self.command(station, "D3", "dose", "Start", "Execute", procedure=2)
        since = len(station.told)
        self.fault("D3", "lose", seconds=30)
        gone = station.until_told(Gone, "D3", since=since)
        outcome, why = station.outcome(station.adapter.command("D3", "dose", COMMANDS["Abort"]))
        self.assertEqual((outcome, why), (REFUSED, "D3 is gone, so nothing was sent"))
        back = station.until_told(Back, "D3", since=since)
        station.until_state("D3", "dose", "Completed", since)
        self.assertEqual((back.life, station.states("D3", "dose", since)), (life, ["Completing", "Completed"]))
        away = station.told[station.told.index(gone, since):station.told.index(back, since)]
        self.assertEqual([each for each in away if not isinstance(each, Written)], [gone])
        self.command(station, "D3", "dose", "Reset", "Idle")

    def test_a_connection_that_is_lost_twice_comes_back_once(self):
        station = self.here("T1")
        since = len(station.told)
        self.fault("T1", "lose", seconds=20)
        self.fault("T1", "lose", seconds=1)
        station.until_told(Back, "T1", since=since)
        station.turns.run(1 + QUIET)
        kinds = [type(each) for each in station.told[since:] if isinstance(each, (Gone, Back))]
        self.assertEqual(kinds, [Gone, Back])

    def test_a_module_that_is_restarted_is_idle_in_another_life(self):
        station = self.here("M2")
        life = station.until_told(Back, "M2").life
        station.do(station.adapter.set_parameter("M2", "stir", 1, "speed", 100))
        self.command(station, "M2", "stir", "Start", "Execute")
        since = len(station.told)
        self.fault("M2", "restart", seconds=1)
        station.until_state("M2", "stir", "Idle", since)
        kinds = [type(each) for each in station.told[since:] if isinstance(each, (Gone, Back, Report))]
        self.assertEqual(kinds, [Gone, Back, Report])
        self.assertNotEqual(station.until_told(Back, "M2", since=since).life, life)
        self.assertEqual(station.states("M2", "stir", since), ["Idle"])
        station.until_told(Setting, "M2", since=since, parameter="speed", value=750)

    def test_reports_that_are_not_told(self):
        station = self.here("T1")
        since = len(station.told)
        self.fault("T1", "skip", count=2)
        self.command(station, "T1", "fill", "Start", "Completed")
        self.assertEqual(station.states("T1", "fill", since), ["Completing", "Completed"])
        self.command(station, "T1", "fill", "Reset", "Idle")

    def test_a_value_of_bad_quality_is_not_passed_on(self):
        station = self.here("T1")
        station.until_told(Value, "T1", variable="level")
        since = len(station.told)
        self.fault("T1", "quality", place="variable/level", code=20)
        station.until_told(Bad, "T1", since=since, place=("variable", "level"))
        before = len(station.told)
        self.command(station, "T1", "fill", "Start", "Completed")
        self.assertEqual(station.values("T1", "level", before), [])
        whys = [each.why for each in station.told[since:] if isinstance(each, Bad)]
        self.assertEqual(whys, ["its quality is bad (WQC 20)"])
        since = len(station.told)
        self.fault("T1", "quality", place="variable/level", code=GOOD)
        station.until_told(Value, "T1", since=since, variable="level")
        self.command(station, "T1", "fill", "Reset", "Idle")

    def test_a_service_of_bad_quality_reports_nothing(self):
        station = self.here("D4")
        self.fault("D4", "quality", place="service/dose", code=100)
        station.until_told(Bad, "D4", place=("service", "dose"), why="its quality is uncertain (WQC 100)")
        since = len(station.told)
        self.fault("D4", "quality", place="service/dose", code=128)
        station.until_told(Report, "D4", since=since)

    def test_faults_that_are_none(self):
        for words, why in (({"fault": "burn"}, "is no fault"), ({"fault": "quality", "place": 5}, "place is 5"),
                           ({"fault": "quality", "place": "variable/mass"}, "the module has service/")):
            self.assertIn(why, self.tester.fault("T1", **words))

    def test_writes_that_are_none_do_no_harm(self):
        station = self.here("T1")
        for payload in ("", "x", "[]", "{}", b"\xff", '{"id":5,"items":{}}', '{"id":"a","items":[]}',
                        '{"id":"a","items":{"CommandExt":[4]}}', '{"id":"a","items":{"ProcedureExt":1e9,"x":NaN}}',
                        '{"id":"b","items":{}}'):
            self.tester.put("mtp/T1/service/fill/set", payload, is_kept=False)
        wait_until(lambda: "b" in self.tester.answers, "the last one is answered")
        self.assertEqual(self.tester.answers["a"]["refused"], "[4] is no command")
        self.assertEqual(self.tester.answers["b"]["refused"], "nothing is to be written")
        self.command(station, "T1", "fill", "Abort", "Aborted")
        self.command(station, "T1", "fill", "Reset", "Idle")


class Away(OverBroker):
    """What a station is told that was away, of a module that the tester plays."""

    def setUp(self):
        self.name, self.map = uuid.uuid4().hex, read_module(DOSER).plug.map
        self.tag = f"X{uuid.uuid4().hex[:8]}"
        self.put("link", SAYS_HERE)
        self.addCleanup(self.forget)

    def forget(self):
        for place in ("link", "service/dose", "variable/weight"):
            self.tester.put(f"mtp/{self.tag}/{place}", "")

    def put(self, place, items, **more):
        self.tester.put(f"mtp/{self.tag}/{place}", items, **more)

    def report(self, *states, life="one"):
        for state in states:
            self.put("service/dose", CONTROL | {"StateCur": state, "life": life})

    def weigh(self, weight):
        self.put("variable/weight", {"V": weight, "life": "one"})

    def own(self, **more):
        made = Station(self.broker.port, {self.tag: self.map}, name=self.name, **more)
        self.addCleanup(made.close)
        return made

    def seen(self, station):
        return [each["StateCur"] for each in station.reports(self.tag, "dose")]

    def test_what_was_reported_meanwhile_comes_in_its_order(self):
        self.report(16)
        first = self.own()
        first.until_told(Report, self.tag)
        first.close()
        self.report(8, 64)
        # More values than the broker keeps messages.
        for number in range(2 * QUEUE):
            self.weigh(number)
        self.report(65536, 131072)
        again = self.own()
        again.until_told(Value, self.tag, value=(2 * QUEUE - 1) * 1000)
        again.until_told(Back, self.tag)
        self.assertEqual(self.seen(again), [8, 64, 65536, 131072])
        self.assertEqual(again.values(self.tag, "weight"), [(2 * QUEUE - 1) * 1000])

    def test_that_the_module_went_meanwhile_comes_in_its_order_too(self):
        self.report(16)
        first = self.own()
        first.until_told(Report, self.tag)
        first.close()
        self.report(8)
        self.put("link", SAYS_GONE)
        self.put("link", {"there": True, "life": "two"})
        self.report(16, life="two")
        again = self.own()
        again.until_told(Back, self.tag)
        again.until(lambda: self.seen(again) == [8, 16], "all reports")
        self.assertEqual([type(each) for each in again.told], [Report, Gone, Back, Report])

    def test_what_a_station_did_not_deal_with_comes_again(self):
        """It falls over a report; the one that comes after it is told that report first."""
        def fall(thing):
            if isinstance(thing, Report) and thing.fields["StateCur"] == 8:
                raise ZeroDivisionError
        self.report(16)
        first = self.own(listener=fall)
        self.assertTrue(first.turns.until(lambda: first.adapter.followed[self.tag].last, PATIENCE))
        self.report(8, 64)
        with self.assertRaises(ZeroDivisionError):
            first.turns.until(lambda: False, PATIENCE)
        # A session of this name takes the place of the one that fell.
        again = self.own()
        again.until(lambda: self.seen(again)[-1:] == [64], "the last report")
        self.assertEqual(self.seen(again), [8, 64])
        first.adapter.close = lambda: None  # Nobody runs its turns any more.

    def test_a_station_that_closes_is_gone_from_the_broker(self):
        """Also where a report waits for its turn just then: that one is dealt with."""
        station = self.own()
        station.until_told(Back, self.tag)
        self.report(16, 8)
        station.close()
        self.assertFalse(station.adapter.client.is_connected())
        self.assertEqual([type(each) for each in station.told], [Back, *[Report] * len(self.seen(station)), Gone])
        count = len(station.told)
        self.report(64)
        station.turns.run(QUIET)
        self.assertEqual(len(station.told), count)

    def test_what_was_laid_by_of_a_module_that_is_gone_waits_for_it(self):
        self.put("link", SAYS_GONE)
        self.report(64)
        self.weigh(5)
        station = self.own()
        station.until_told(Gone, self.tag)
        station.turns.run(QUIET)
        self.assertEqual([type(each) for each in station.told], [Gone])
        self.weigh(6)
        self.put("link", SAYS_HERE)
        station.until_told(Report, self.tag)
        self.assertEqual([each for each in station.told if not isinstance(each, Report)][1:],
                         [Value(self.tag, "weight", 6000), Back(self.tag, "one")])

    def test_what_was_laid_by_of_an_earlier_life_is_told_no_more(self):
        self.put("link", SAYS_GONE)
        self.report(64)
        station = self.own()
        station.until_told(Gone, self.tag)
        station.turns.run(QUIET)
        self.put("link", {"there": True, "life": "two"})
        self.report(16, life="two")
        station.until_told(Report, self.tag)
        self.assertEqual(self.seen(station), [16])
        late = self.station()
        self.report(8)
        late.adapter.follow(self.tag, self.map)
        late.until_told(Back, self.tag)
        late.turns.run(QUIET)
        self.assertEqual(self.seen(late), [])

    def test_a_module_that_is_left_tells_nothing(self):
        self.report(16)
        station = self.own()
        station.until_told(Report, self.tag)
        station.adapter.leave(self.tag)
        self.report(8)
        other = self.station("D1")
        other.adapter.follow(self.tag, self.map)
        other.until_told(Report, self.tag)
        station.turns.run(QUIET)
        self.assertEqual(self.seen(station), [16])
        station.adapter.follow(self.tag, self.map)
        station.until(lambda: self.seen(station) == [16, 8], "it is followed again")

    def test_what_an_earlier_station_followed_is_left(self):
        first = self.own()
        first.until_told(Back, self.tag)
        first.close()
        self.report(8)
        again = Station(self.broker.port, {}, name=self.name)
        self.addCleanup(again.close)
        again.until(lambda: again.adapter.is_connected, "it is connected")
        again.turns.run(QUIET)
        self.assertEqual(again.told, [])

    def test_what_has_no_form_is_told_as_bad(self):
        self.report(16)
        station = self.own()
        station.until_told(Report, self.tag)
        for payload, words in FORMLESS:
            since = len(station.told)
            self.put("service/dose", payload, is_kept=False)
            bad = station.until_told(Bad, self.tag, since=since)
            self.assertIn(words, bad.why)
        self.put("link", "x", is_kept=False)
        self.put("answer", {"id": 5}, is_kept=False)
        self.put("answer", {"id": f"{station.adapter.life}.99"}, is_kept=False)
        self.put("variable/mass", {"V": 5}, is_kept=False)
        self.put("further/down/here", {"V": 5}, is_kept=False)
        since = len(station.told)
        self.report(8)
        station.until_told(Report, self.tag, since=since)
        self.assertEqual(len(station.told), since + 1)


class BrokerGone(unittest.TestCase):
    def test_what_can_not_be_sent_is_refused(self):
        """The connection broke, and its turn to say so hasn't come."""
        ask_for_needs()
        station = Station(free_port(), {"T1": read_module(TANK).plug.map})
        self.addCleanup(station.close)
        station.until_told(Gone, "T1")
        station.adapter.followed["T1"].is_there = True
        outcome, why = station.outcome(station.adapter.command("T1", "fill", COMMANDS["Start"]))
        self.assertEqual((outcome, why), (REFUSED, "the connection to the broker just broke, so nothing was sent"))

    def test_a_broker_that_has_its_messages_on_its_disk(self):
        broker = Broker(kept=True)
        self.addCleanup(broker.close)
        maps = {"D1": read_module(DOSER).plug.map}

        def put(*tellings):
            tester = Tester(broker.port)
            for place, items in tellings:
                tester.put(f"mtp/D1/{place}", items)
            tester.close()
        put(("link", SAYS_HERE))
        first = Station(broker.port, maps, name="station")
        first.until_told(Back, "D1")
        first.close()
        put(*(("service/dose", CONTROL | {"StateCur": state, "life": "one"}) for state in (16, 8, 64)))
        broker.stop()
        broker.start()
        again = Station(broker.port, maps, name="station")
        self.addCleanup(again.close)
        again.until_state("D1", "dose", "Execute")
        self.assertEqual(again.states("D1", "dose"), ["Idle", "Starting", "Execute"])

    def test_a_broker_that_goes_and_comes_again(self):
        with sample_folder() as folder:
            broker = Broker()
            self.addCleanup(broker.close)
            broker.stop()
            station = Station(broker.port, maps_of(folder, {"T1": "tank.mtp"}), name="station")
            self.addCleanup(station.close)
            gone = station.until_told(Gone, "T1")
            self.assertIn(f"the broker 127.0.0.1:{broker.port}: it can't be reached", gone.why)
            broker.start()
            plant = Plant(broker.port, folder, {"T1": "tank.mtp"})
            self.addCleanup(plant.close)
            station.until_state("T1", "fill", "Idle")
            since = len(station.told)
            broker.stop()
            self.assertIn("the connection broke", station.until_told(Gone, "T1", since=since).why)
            self.assertEqual(station.outcome(station.adapter.command("T1", "fill", COMMANDS["Start"]))[0], REFUSED)
            broker.start()
            station.until_told(Back, "T1", since=since)
            station.do(station.adapter.command("T1", "fill", COMMANDS["Start"]))
            station.until_state("T1", "fill", "Execute")
            since = len(station.told)
            self.assertEqual(plant.close(), 0)
            station.until_told(Gone, "T1", since=since)
