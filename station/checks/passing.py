"""Reports that come twice, that are missed, or that a restart makes odd; and the ways of the state machine."""
import unittest
import unittest.mock

from adapters.codes import COMMANDS, STATES
from adapters.told import Report
from checks.stand_ins import KEY, SERVICE, TAG, Parts, fields, given, is_edge
from operating import machine, reports

SOON = 0.02
START = COMMANDS["Start"]


class Ways(unittest.TestCase):
    def names(self, found):
        return found if found is None else [name for code in found for name, each in STATES.items() if each == code]

    def test_the_only_way(self):
        for start, end, command, completes, way in (
                ("Execute", "Completed", None, True, ["Completing"]), ("Execute", "Completed", None, False, None),
                ("Execute", "Completed", "Complete", False, ["Completing"]),
                ("Idle", "Execute", "Start", True, ["Starting"]),
                ("Idle", "Execute", None, True, None), ("Execute", "Idle", None, True, None),
                ("Idle", "Completed", "Start", True, ["Starting", "Execute", "Completing"]),
                ("Execute", "Held", "Hold", True, ["Holding"]), ("Resetting", "Execute", None, True, None),
                ("Held", "Execute", "Unhold", True, ["Unholding"]), ("Aborting", "Idle", None, True, None)):
            found = machine.only_way(STATES[start], STATES[end], COMMANDS.get(command), completes)
            self.assertEqual(self.names(found), way, (start, end, command))

    def test_the_shortest_way_leads_along_edges(self):
        for start in STATES.values():
            for end in STATES.values():
                way = [start, *machine.shortest_way(start, end), end]
                self.assertTrue(start == end or all(map(is_edge, way, way[1:])), (start, end, way))
        self.assertEqual(self.names(machine.shortest_way(STATES["Execute"], STATES["Idle"])),
                         ["Completing", "Completed", "Resetting"])

    def test_an_effect(self):
        for command, before, state, is_effect in (
                ("Start", "Idle", "Idle", False), ("Start", "Idle", "Starting", True),
                ("Start", "Idle", "Execute", True),
                ("Hold", "Starting", "Execute", False), ("Hold", "Starting", "Holding", True),
                ("Hold", "Execute", "Completing", False), ("Stop", "Execute", "Stopped", True),
                ("Complete", "Execute", "Completed", True), ("Reset", "Completed", "Idle", True),
                ("Stop", "Starting", "Aborting", True)):
            found = machine.had_effect(COMMANDS[command], STATES[before], STATES[state])
            self.assertEqual(found, is_effect, (command, before, state))


class Passing(unittest.TestCase):
    def setUp(self):
        self.enterContext(unittest.mock.patch.object(reports, "SETTLE", SOON))
        self.parts = Parts()
        self.addCleanup(self.parts.close)

    def tell(self, *states, **more):
        for state in states:
            self.parts.reports.take(Report(TAG, SERVICE, fields(state, **more)))

    def settle(self):
        self.parts.turns.run(3 * SOON)

    def after(self, *states):
        """The station has told these, and the module is there."""
        for state in states:
            self.parts.plant.report(KEY, fields(state))
        self.parts.back()

    def test_what_pol_has_is_not_told_again(self):
        self.after("Idle")
        self.tell("Idle", "Starting", "Execute")
        self.assertEqual(self.parts.plant.states(), ["Starting", "Execute"])

    def test_the_report_before_the_last_one_comes_once_more(self):
        """As Restart is an edge, a Starting that comes twice would else be believed."""
        self.after("Starting", "Execute")
        self.tell("Starting", "Execute", "Completing")
        self.settle()
        self.assertEqual((self.parts.plant.states(), self.parts.codes()), (["Completing"], []))

    def test_a_report_that_is_as_the_one_before_the_last_and_new(self):
        self.parts.plant.report(KEY, fields("Idle"))
        self.parts.plant.report(KEY, fields("Idle", mode="Operator"))
        self.parts.back()
        self.tell("Idle")
        self.assertEqual(self.parts.plant.told, [])
        self.settle()
        self.assertEqual([event["Mode"] for event in self.parts.plant.told], ["Automatic"])

    def test_states_that_were_passed_are_told_where_there_is_one_way(self):
        self.after("Execute")
        self.tell("Completed")
        self.assertEqual((self.parts.plant.states()[1:], self.parts.codes()), (["Completing", "Completed"], []))
        self.assertEqual([event["CommandEn"] for event in self.parts.plant.told[1:]], [0, 2047])

    def test_the_command_that_is_open_says_the_way(self):
        self.after("Idle")
        self.parts.commands.give(given(START))
        self.tell("Execute")
        self.assertEqual((self.parts.plant.states()[1:], self.parts.commands.open), (["Starting", "Execute"], {}))

    def test_a_person_is_asked_where_there_are_more(self):
        self.after("Execute")
        self.tell("Idle")
        self.assertEqual((self.parts.plant.states(), self.parts.codes()), (["Idle"], ["missed"]))
        answer = self.parts.reports.passed(*KEY, "dan")
        self.assertEqual((answer, self.parts.codes()), ({"done": True}, []))
        self.assertEqual(self.parts.plant.states()[1:], ["Completing", "Completed", "Resetting", "Idle"])
        self.assertEqual({event.get("by") for event in self.parts.plant.told[1:]}, {"dan"})
        self.assertIsNone(self.parts.reports.passed(*KEY, "dan"))

    def test_a_module_in_another_life_is_never_believed_to_have_gone_on(self):
        self.after("Execute")
        self.parts.back("two")
        self.tell("Completed", procedure=1)
        self.assertEqual(self.parts.codes(), ["restarted"])

    def test_a_step_that_broke_is_told_and_its_batch_goes_on_before_the_way_back(self):
        self.after("Execute")
        self.parts.back("two")
        self.tell("Idle")
        self.parts.plant.batches = ["b"]
        self.parts.plant.answers.extend([{"did": {"do": "broke", "step": "s", "state": 512}},
                                         {"did": {"do": "left", "step": "s", "state": 512}}, {"closed": "Broken"}])
        self.assertEqual(self.parts.reports.aborted(*KEY, "dan"), {"done": True})
        told = [event.get("batch") or event["StateCur"] for event in self.parts.plant.told[1:]]
        self.assertEqual(told, [256, 512, "b", "b", "b", 32768, 16])
        self.assertEqual(self.parts.codes(), [])

    def test_what_stands_is_over_once_the_service_is_as_pol_has_it(self):
        self.after("Execute")
        self.tell("Idle")
        self.tell("Execute")
        self.assertEqual((self.parts.codes(), self.parts.reports.stuck), ([], {}))

    def test_a_command_waits_until_it_is_known_which_way_a_service_went(self):
        self.after("Execute")
        order = given(COMMANDS["Stop"], "Execute")
        self.parts.commands.give(order)
        self.parts.commands.gone(TAG)
        self.parts.back("two")
        self.tell("Idle")
        self.parts.commands.decide(TAG)
        self.assertEqual((len(self.parts.wire.written), self.parts.codes()), (1, ["restarted"]))

    def test_a_module_that_is_away_tells_nothing(self):
        self.after("Idle")
        self.parts.plant.ticket = 1
        self.tell("Starting")
        self.assertEqual(self.parts.plant.told, [])
