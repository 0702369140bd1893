"""What an adapter tells and sends, over a transport that is none: forms of reports and values, and how writes end."""
import decimal
import threading
import unittest

from adapters import forms
from adapters.adapter import Adapter, places_of
from adapters.codes import COMMANDS
from adapters.told import (DONE, PARAMETER, REFUSED, SERVICE, UNANSWERED, VARIABLE, Back, Bad, Gone, Report, Setting,
                           Value, Written)
from adapters.turns import Turns
from checks.reading import read_module
from making.modules import DOSER, HARD, mixer

CONTROL = {"StateCur": 16, "CommandEn": 268, "ProcedureCur": 0, "StateOffAct": False, "StateOpAct": False,
           "StateAutAct": True, "SrcIntAct": False, "SrcExtAct": True, "WQC": 255}
IDLE = {"StateCur": 16, "CommandEn": 268, "Mode": "Automatic", "Src": "External", "ProcedureCur": 0}
MANUAL, OFF = {"StateAutAct": False, "StateOpAct": True}, {"StateAutAct": False, "StateOffAct": True}
NO_SOURCE, INTERNAL = {"SrcExtAct": False}, {"SrcExtAct": False, "SrcIntAct": True}
# What differs in a service control, and what differs in its report, or words of why it has none.
REPORTS = [
    ({}, {}), ({"WQC": 128}, {}), ({"Further": "x"}, {}), ({"StateCur": 131072}, {"StateCur": 131072}),
    ({"CommandEn": 2**32 - 1, "ProcedureCur": 65535}, {"CommandEn": 2**32 - 1, "ProcedureCur": 65535}),
    (MANUAL, {"Mode": "Operator"}), (OFF, {"Mode": "Off"}), (INTERNAL, {"Src": "Internal"}),
    (MANUAL | NO_SOURCE, {"Mode": "Operator", "Src": "Internal"}),
    ({"WQC": 127}, "quality is uncertain (WQC 127)"), ({"WQC": 64}, "uncertain"),
    ({"WQC": 63}, "quality is bad (WQC 63)"), ({"WQC": 256}, "WQC is 256, not 0 to 255"),
    ({"WQC": None}, "WQC is None"),
    ({"StateCur": 5}, "StateCur is 5, which is no state"), ({"StateCur": 1}, "which is no state"),
    ({"StateCur": "16"}, "StateCur is '16', not "), ({"StateCur": None}, "StateCur is None"),
    ({"StateCur": decimal.Decimal("16.0")}, "StateCur is "),
    ({"CommandEn": 2**32}, "CommandEn is 4294967296, not 0 to 4294967295"),
    ({"CommandEn": -1}, "CommandEn is -1"), ({"ProcedureCur": 65536}, "ProcedureCur is 65536, not 0 to 65535"),
    ({"StateOpAct": True}, "not one of its modes"), ({"StateAutAct": 1}, "not one of its modes"),
    ({"StateAutAct": False}, "not one of its modes"), (NO_SOURCE, "not one of its sources"),
    ({"SrcIntAct": True}, "its sources"),
]
ANALOGUE, WHOLE = {"kind": "AnaView", "factor": 1000}, {"kind": "DIntView", "factor": 1}
TRUTH, TEXT = {"kind": "BinView"}, {"kind": "StringView"}
# An entry of the map, the value that came, and what it is for pol.
VALUES = [
    (ANALOGUE, 12.5, 12500), (ANALOGUE, decimal.Decimal("0.0005"), 0), (ANALOGUE, decimal.Decimal("0.0015"), 2),
    (ANALOGUE, -3, -3000), (ANALOGUE, 0.1, 100), (ANALOGUE, decimal.Decimal("9223372036854775.807"), 2**63 - 1),
    (ANALOGUE, decimal.Decimal("-9223372036854775.808"), -2**63), (WHOLE, 2**31 - 1, 2**31 - 1),
    (ANALOGUE, decimal.Decimal("-1e-999999999"), 0), ({"kind": "AnaMon", "factor": 1000}, 1, 1000), (WHOLE, 7, 7),
    (WHOLE, decimal.Decimal("7.0"), 7), (WHOLE, -2**31, -2**31), ({"kind": "BinMon"}, True, True),
    (TRUTH, False, False), (TEXT, "x" * 254, "x" * 254), (TEXT, "", ""),
]
# The same of what is nothing for pol, with words of why.
NO_VALUES = [
    (ANALOGUE, decimal.Decimal("9223372036854775.808"), "beyond what pol holds"), (ANALOGUE, float("nan"), "beyond"),
    (ANALOGUE, decimal.Decimal("-9223372036854775.809"), "beyond"), (WHOLE, -2**31 - 1, "beyond"),
    (ANALOGUE, float("-inf"), "beyond"), (ANALOGUE, decimal.Decimal("1e999999999"), "beyond"),
    (ANALOGUE, True, "is no number"), (ANALOGUE, "5", "is no number"), (ANALOGUE, None, "is no number"),
    (WHOLE, 2**31, "beyond"), (TRUTH, 1, "is no truth value"), (TEXT, "x" * 255, "has 255 bytes"),
    (TEXT, 5, "is no text"), (TEXT, "\udfff", "half a letter"),
]
# A setting as a recipe has it, and as the module takes it.
SETTINGS = [(1000, 1500000, 1500), (1000, 12500, 12.5), (1000, 1500123, 1500.123), (1000, -1, -0.001), (1, 7, 7),
            (1, True, True), (1, "x", "x")]
DOSE, AMOUNT, WEIGHT = (SERVICE, "dose"), (PARAMETER, "dose", "1", "amount"), (VARIABLE, "weight")


class Fake(Adapter):
    """A transport that carries nothing, and keeps what it would have sent."""

    def __init__(self, wait=60.0):
        self.told, self.sent, self.subscribed = [], [], []
        super().__init__(Turns(), self.told.append, wait)

    def subscribe(self, tag):
        self.subscribed.append(tag)

    def unsubscribe(self, tag):
        self.subscribed.remove(tag)

    def send(self, number, tag, place, items):
        self.sent.append((number, tag, place, items))


def doser(wait=60.0):
    """A transport that follows a doser which is there."""
    made = Fake(wait)
    made.follow("D1", read_module(DOSER).plug.map)
    made.there("D1", "one")
    made.told.clear()
    return made


class Forms(unittest.TestCase):
    def test_reports(self):
        for changed, wanted in REPORTS:
            if isinstance(wanted, str):
                with self.assertRaises(forms.Unfit, msg=changed) as raised:
                    forms.report_of(CONTROL | changed)
                self.assertIn(wanted, str(raised.exception))
            else:
                self.assertEqual(forms.report_of(CONTROL | changed), IDLE | wanted)

    def test_each_item_of_a_report_is_asked_for(self):
        for item in ("StateCur", "CommandEn", "ProcedureCur", "StateAutAct", "SrcExtAct"):
            with self.assertRaises(forms.Unfit):
                forms.report_of({name: value for name, value in CONTROL.items() if name != item})

    def test_values(self):
        for entry, value, wanted in VALUES:
            seen = forms.value_of(entry, {"V": value}, ("V",))
            self.assertEqual((seen, type(seen)), (wanted, type(wanted)), (entry, value))
        for entry, value, words in NO_VALUES:
            with self.assertRaises(forms.Unfit, msg=(entry, value)) as raised:
                forms.value_of(entry, {"V": value}, ("V",))
            self.assertIn(words, str(raised.exception))

    def test_what_is_said_is_short(self):
        for value in ("x" * 1000, int("9" * 4000), decimal.Decimal("9" * 1000), [0] * 1000):
            for entry in (ANALOGUE, TRUTH, {"kind": "BinView"}):
                with self.assertRaises(forms.Unfit) as raised:
                    forms.value_of(entry, {"V": value}, ("V",))
                self.assertLess(len(str(raised.exception)), 150)

    def test_settings(self):
        for factor, value, wanted in SETTINGS:
            self.assertEqual(repr(forms.of_module({"factor": factor}, value)), repr(wanted))


class Told(unittest.TestCase):
    def test_a_module_is_told_as_gone_and_back_once(self):
        made = Fake()
        made.follow("D1", read_module(DOSER).plug.map)
        made.gone("D1", "no broker")
        made.gone("D1", "still none")
        for life in ("one", "one", "two"):
            made.there("D1", life)
        self.assertEqual(made.told, [Gone("D1", "no broker"), Back("D1", "one"), Gone("D1", "it was started anew"),
                                     Back("D1", "two")])

    def test_reports_values_and_settings(self):
        made = doser()
        made.took("D1", DOSE, CONTROL)
        made.took("D1", WEIGHT, {"V": 12.5, "WQC": 255})
        made.took("D1", AMOUNT, {"VOut": 1500, "VReq": 7})
        self.assertEqual(made.told, [Report("D1", "dose", IDLE), Value("D1", "weight", 12500),
                                     Setting("D1", "dose", 1, "amount", 1500000)])

    def test_what_is_as_before_is_not_told_again(self):
        made = doser()
        for items in (CONTROL, CONTROL | {"ProcedureReq": 1}, CONTROL | {"StateCur": 8}, CONTROL):
            made.took("D1", DOSE, items)
        self.assertEqual([thing.fields["StateCur"] for thing in made.told], [16, 8, 16])

    def test_a_bad_value_is_told_as_bad_and_a_good_one_behind_it_again(self):
        made = doser()
        for quality in (255, 0, 0, 255):
            made.took("D1", WEIGHT, {"V": 5, "WQC": quality})
        good = Value("D1", "weight", 5000)
        self.assertEqual(made.told, [good, Bad("D1", WEIGHT, "its quality is bad (WQC 0)"), good])

    def test_what_the_map_does_not_have_is_passed_over(self):
        made = doser()
        for place in ((VARIABLE, "mass"), (SERVICE, "stir"), (PARAMETER, "dose", "9", "amount"), (PARAMETER, "dose"),
                      ("x",), ()):
            made.took("D1", place, CONTROL)
            made.odd("D1", place, "x")
        made.took("D2", DOSE, CONTROL)
        made.there("D2", "x")
        self.assertEqual(made.told, [])

    def test_a_module_that_is_followed_anew_is_told_anew(self):
        made = doser()
        made.took("D1", DOSE, CONTROL)
        made.follow("D1", read_module(DOSER).plug.map)
        self.assertEqual(made.subscribed, ["D1"])
        made.there("D1", "one")
        made.took("D1", DOSE, CONTROL)
        self.assertEqual(made.told, [Report("D1", "dose", IDLE), Back("D1", "one"), Report("D1", "dose", IDLE)])
        made.leave("D1")
        made.took("D1", DOSE, CONTROL | {"StateCur": 8})
        self.assertEqual((len(made.told), made.subscribed), (3, []))

    def test_each_place_of_a_map_has_its_entry(self):
        for module in (DOSER, HARD, mixer("1.0.0")):
            made, plug = Fake(), read_module(module).plug
            made.follow("T", plug.map)
            places = places_of(plug.map)
            self.assertEqual(len(places), len(set(places)))
            self.assertTrue(all(made.entry("T", place)["items"] for place in places))
            self.assertEqual([place for place in places if place[0] == VARIABLE],
                             [(VARIABLE, each["name"]) for each in plug.description["variables"]])


class Writes(unittest.TestCase):
    def test_each_kind_of_write(self):
        made = doser()
        made.set_parameter("D1", "dose", 1, "amount", 1500500)
        made.command("D1", "dose", COMMANDS["Start"], 2)
        made.command("D1", "dose", COMMANDS["Start"])
        made.command("D1", "dose", COMMANDS["Hold"], 2)
        made.command("D1", "dose", COMMANDS["Start"], 1, by="Op")
        made.choose("D1", "dose", "Operator")
        made.choose("D1", "dose", "Internal")
        self.assertEqual([(place, items) for _, _, place, items in made.sent], [
            (AMOUNT, {"VExt": 1500.5}), (DOSE, {"ProcedureExt": 2, "CommandExt": 4}), (DOSE, {"CommandExt": 4}),
            (DOSE, {"CommandExt": 16}), (DOSE, {"ProcedureOp": 1, "CommandOp": 4}), (DOSE, {"StateOpOp": True}),
            (DOSE, {"SrcIntOp": True})])
        self.assertEqual(list(made.sent[1][3]), ["ProcedureExt", "CommandExt"])
        self.assertEqual([number for number, *_ in made.sent], [1, 2, 3, 4, 5, 6, 7])

    def test_each_ends_once(self):
        made = doser()
        numbers = [made.command("D1", "dose", COMMANDS["Hold"]) for _ in range(2)]
        made.ended(numbers[1], REFUSED, "not now")
        made.ended(numbers[0], DONE)
        made.ended(numbers[0], REFUSED, "too late")
        made.ended(77, DONE)
        self.assertEqual(made.told, [Written("D1", numbers[1], REFUSED, "not now"),
                                     Written("D1", numbers[0], DONE, "")])

    def test_one_without_an_answer_ends_when_its_time_is_up(self):
        made = doser(wait=0.05)
        number = made.command("D1", "dose", COMMANDS["Hold"])
        answered = made.command("D1", "dose", COMMANDS["Hold"])
        made.ended(answered, DONE)
        self.assertTrue(made.turns.until(lambda: len(made.told) > 1, 60))
        made.ended(number, DONE)
        made.turns.run(0.1)
        self.assertEqual(made.told, [Written("D1", answered, DONE, ""),
                                     Written("D1", number, UNANSWERED, "no answer within 0.05 s")])

    def test_to_a_module_that_is_gone_nothing_is_sent(self):
        made = doser()
        made.gone("D1", "x")
        number = made.command("D1", "dose", COMMANDS["Hold"])
        self.assertTrue(made.turns.until(lambda: len(made.told) > 1, 60))
        self.assertEqual(made.told[1:], [Written("D1", number, REFUSED, "D1 is gone, so nothing was sent")])
        self.assertEqual(made.sent, [])

    def test_what_the_map_does_not_have_is_the_caller_s_fault(self):
        made = doser()
        for call in (lambda: made.command("D2", "dose", 4), lambda: made.command("D1", "stir", 4),
                     lambda: made.set_parameter("D1", "dose", 2, "amount", 5),
                     lambda: made.set_parameter("D1", "dose", 1, "mass", 5),
                     lambda: made.choose("D1", "dose", "Manual"), lambda: made.leave("D2")):
            self.assertRaises(LookupError, call)
        del made.followed["D1"].map["services"]["dose"]["items"]["CommandOp"]
        with self.assertRaisesRegex(LookupError, "service/dose of D1 has no item CommandOp in its map"):
            made.command("D1", "dose", 4, by="Op")
        with self.assertRaisesRegex(LookupError, "^no service/stir in the map of D1$"):
            made.command("D1", "stir", 4)
        with self.assertRaisesRegex(LookupError, "^D2 isn't followed$"):
            made.command("D2", "dose", 4)
        self.assertEqual((made.sent, made.pending), ([], {}))


class InTurn(unittest.TestCase):
    def test_calls_are_made_in_their_order_by_the_thread_that_runs(self):
        turns, seen = Turns(), []
        for number in range(3):
            turns.put(lambda number=number: seen.append((number, threading.get_ident())))
        self.assertTrue(turns.until(lambda: len(seen) == 3, 60))
        self.assertEqual(seen, [(number, threading.get_ident()) for number in range(3)])

    def test_what_comes_within_a_time_is_made(self):
        turns, seen = Turns(), []
        turns.put(lambda: seen.append("put"))
        turns.later(0.02, lambda: seen.append("later"))
        turns.later(60, lambda: seen.append("much later"))
        turns.run(1)
        self.assertEqual(seen, ["put", "later"])

    def test_what_is_handed_on_is_dealt_with_when_it_comes_back(self):
        turns, seen = Turns(), []

        def give():
            turns.hand(lambda: seen.append("dealt with"))
            seen.append("forgotten")
        other = threading.Thread(target=give)
        other.start()
        self.assertTrue(turns.until(lambda: "dealt with" in seen, 60))
        other.join(60)
        self.assertEqual(seen, ["dealt with", "forgotten"])

    def test_one_that_fails_is_not_forgotten(self):
        turns, seen = Turns(), []

        def give():
            turns.hand(lambda: 1 / 0)
            seen.append("forgotten")
        threading.Thread(target=give, daemon=True).start()
        with self.assertRaises(ZeroDivisionError):
            turns.until(lambda: False, 60)
        turns.run(0.05)
        self.assertEqual(seen, [])

    def test_what_is_for_later_comes_when_it_is_due(self):
        turns, seen = Turns(), []
        for seconds in (0.04, 0.02, 0.0):
            turns.later(seconds, lambda seconds=seconds: seen.append(seconds))
        turns.put(lambda: seen.append("put"))
        self.assertTrue(turns.until(lambda: len(seen) == 4, 60))
        self.assertEqual([each for each in seen if each != "put"], [0.0, 0.02, 0.04])
        self.assertFalse(turns.until(lambda: False, 0.01))
