"""Commands in moments that no real module can be brought to: settings that aren't answered, connections that break
between two writes, a station that falls behind an answer."""
import unittest
import unittest.mock

from adapters.codes import BY_HAND, BY_RECIPE, COMMANDS
from adapters.told import REFUSED, UNANSWERED
from checks.stand_ins import KEY, LIFE, SERVICE, TAG, Parts, fields, given
from operating import commands
from operating.alarms import now
from operating.notes import Notes

START, STOP, HOLD = (COMMANDS[name] for name in ("Start", "Stop", "Hold"))
SETTINGS = (("amount", 1500), ("speed", 60))
WRITES = [("amount", 1500, BY_RECIPE), ("speed", 60, BY_RECIPE), (START, 1, BY_RECIPE)]
SOON = 0.02


class Orders(unittest.TestCase):
    def setUp(self):
        for name in ("EFFECT", "SETTLE"):
            self.enterContext(unittest.mock.patch.object(commands, name, SOON))
        self.parts = Parts()
        self.addCleanup(self.parts.close)

    def settle(self):
        self.parts.turns.run(4 * SOON)

    def test_settings_go_first_and_each_once_the_one_before_is_done(self):
        self.parts.here()
        self.parts.commands.give(given(START, settings=SETTINGS))
        for count in (1, 2, 3):
            self.assertEqual(self.parts.wire.written, WRITES[:count])
            self.parts.end()
        self.parts.commands.reported(TAG, SERVICE, fields("Starting")["StateCur"])
        self.settle()
        self.assertEqual((self.parts.wire.written, self.parts.codes(), self.parts.commands.open), (WRITES, [], {}))

    def test_a_setting_that_fails_keeps_the_start_back_until_a_person_says_so(self):
        for outcome in (REFUSED, UNANSWERED):
            parts = Parts()
            self.addCleanup(parts.close)
            parts.here()
            parts.commands.give(given(START, settings=SETTINGS))
            parts.end(outcome, "why")
            self.assertEqual((parts.wire.written, parts.codes()), (WRITES[:1], [f"command_{outcome}"]))
            self.assertTrue(parts.commands.again(*KEY))
            for _ in range(3):
                parts.end()
            self.assertEqual((parts.wire.written, parts.codes()), (WRITES[:1] + WRITES, []))

    def test_a_command_that_had_no_effect(self):
        self.parts.here()
        self.parts.commands.give(given(START))
        self.parts.end()
        self.settle()
        self.assertEqual(self.parts.codes(), ["command_no_effect"])
        self.parts.commands.reported(TAG, SERVICE, fields("Execute")["StateCur"])
        self.assertEqual((self.parts.codes(), self.parts.commands.again(*KEY)), ([], False))

    def test_a_state_that_comes_by_itself_is_no_effect_of_a_hold(self):
        self.parts.here("Starting")
        self.parts.commands.give(given(HOLD, "Starting"))
        self.parts.end()
        self.parts.commands.reported(TAG, SERVICE, fields("Execute")["StateCur"])
        self.assertIn(KEY, self.parts.commands.open)
        self.parts.commands.reported(TAG, SERVICE, fields("Holding")["StateCur"])
        self.assertEqual(self.parts.commands.open, {})

    def test_what_the_map_does_not_have(self):
        self.parts.here()
        with unittest.mock.patch.object(self.parts.wire, "command", side_effect=LookupError("no dose")):
            self.parts.commands.give(given(START))
        self.assertEqual(self.parts.codes(), ["command_unfit"])

    def test_a_command_by_hand_is_written_as_an_operators(self):
        self.parts.here()
        self.parts.commands.give(given(STOP, is_by_hand=True, batch=None, step=None))
        self.assertEqual(self.parts.wire.written, [(STOP, 1, BY_HAND)])

    def test_a_newer_command_takes_the_place_of_an_older_one(self):
        self.parts.here()
        self.parts.commands.give(given(START, settings=SETTINGS))
        self.parts.commands.give(given(STOP))
        self.parts.end(number=1)
        self.assertEqual(self.parts.wire.written, [WRITES[0], (STOP, 1, BY_RECIPE)])

    def test_a_batch_that_is_over_sends_nothing_more_but_its_stops(self):
        self.parts.here()
        for code, is_left in ((START, False), (STOP, True)):
            self.parts.commands.give(given(code, settings=SETTINGS))
            self.parts.commands.closed("b")
            self.assertEqual(KEY in self.parts.commands.open, is_left)
        written = len(self.parts.wire.written)
        self.parts.end(number=1)
        self.assertEqual(len(self.parts.wire.written), written)

    # Connections that break.

    def broken(self, order, outcome=REFUSED):
        """The connection breaks while this command is written."""
        self.parts.here()
        self.parts.commands.give(order)
        self.parts.commands.gone(TAG)
        self.parts.end(outcome, "gone")

    def test_what_had_no_effect_is_sent_again_once_the_module_is_back(self):
        self.broken(given(START, settings=SETTINGS))
        self.assertEqual(self.parts.codes(), [])
        self.parts.back()
        self.assertEqual(len(self.parts.wire.written), 1)
        self.settle()
        self.assertEqual(self.parts.wire.written, [WRITES[0], WRITES[0]])

    def test_what_had_its_effect_is_not(self):
        self.broken(given(START), UNANSWERED)
        self.parts.plant.report(KEY, fields("Execute"))
        self.parts.back()
        self.settle()
        self.assertEqual((len(self.parts.wire.written), self.parts.codes(), self.parts.commands.open), (1, [], {}))

    def test_a_person_is_asked_where_the_module_was_restarted_or_it_is_late(self):
        for life, age, mask, code in (("two", 0, START, "command_restarted"), (LIFE, 120_000, START, "command_old"),
                                      (LIFE, 0, STOP, "command_not_enabled")):
            parts = self.parts = Parts()
            self.addCleanup(parts.close)
            self.broken(given(START, at=now() - age))
            parts.plant.report(KEY, fields("Idle", mask))
            parts.back(life)
            self.settle()
            self.assertEqual((len(parts.wire.written), parts.codes()), (1, [code]))
            self.assertTrue(parts.commands.again(*KEY))
            self.assertEqual((len(parts.wire.written), parts.codes()), (2, []))

    def test_a_command_to_a_module_that_is_gone_waits(self):
        self.parts.plant.report(KEY, fields("Idle"))
        self.parts.commands.give(given(START))
        self.assertEqual((self.parts.wire.written, self.parts.codes()), ([], ["command_not_sent"]))
        self.assertFalse(self.parts.commands.again(*KEY))
        self.parts.back()
        self.settle()
        self.assertEqual(self.parts.wire.written, [(START, 1, BY_RECIPE)])

    # A station that falls.

    def fallen(self, order, is_sent):
        """The station falls behind the answer: before it sent the command, or behind that."""
        self.parts.here()
        if is_sent:
            self.parts.commands.give(order)
        self.parts.notes.close()
        self.parts.begin()

    def taken_up(self, order, life=LIFE):
        self.parts.commands.take_up([order])
        self.parts.back(life)
        self.settle()
        return self.parts.wire.written

    def test_what_was_never_sent_is_sent(self):
        order = given(START)
        self.fallen(order, False)
        self.assertEqual(self.taken_up(order, "two"), [(START, 1, BY_RECIPE)])

    def test_what_may_have_been_sent_is_decided_by_the_module(self):
        order = given(START)
        for state, life, count, codes in (("Idle", LIFE, 1, []), ("Starting", LIFE, 0, []),
                                          ("Idle", "two", 0, ["command_restarted"])):
            self.parts = Parts()
            self.addCleanup(self.parts.close)
            self.parts.here()
            self.parts.commands.give(order)
            # What counts is written once the station begins again, by the commands behind which no report came.
            self.parts.notes.begin([order])
            self.parts.restart()
            self.parts.plant.report(KEY, fields(state))
            self.assertEqual((len(self.taken_up(order, life)), self.parts.codes()), (count, codes), (state, life))

    def test_a_command_by_hand_is_never_sent_late_by_itself(self):
        order = given(STOP, is_by_hand=True, batch=None, step=None)
        self.fallen(order, False)
        self.assertEqual((self.taken_up(order), self.parts.codes()), ([], ["command_old"]))

    def test_what_a_person_does_not_want_any_more_does_not_come_back(self):
        order = given(START)
        self.parts.here()
        self.parts.commands.give(order)
        self.assertTrue(self.parts.commands.forget(*KEY))
        self.parts.notes.begin([order])
        self.parts.restart()
        self.assertEqual(self.taken_up(order), [])

    def test_a_note_that_was_cut_off_says_nothing(self):
        order = given(START)
        self.parts.here()
        self.parts.commands.give(order)
        self.parts.notes.close()
        with open(self.parts.notes.path, "a", encoding="utf-8") as file:
            file.write('{"sends":[1,')
        self.parts.notes = Notes(self.parts.notes.path.parent)
        self.assertEqual(self.parts.notes.sent, {order.name: LIFE})
        self.assertEqual(self.parts.notes.lives, {TAG: LIFE})
        self.parts.notes.begin([order])
