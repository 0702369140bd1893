"""A simulated module without a connection: its parameters, what its views show while time goes on, and what goes wrong
when it is told to."""
import decimal
import random
import unittest

from adapters import forms, topics
from adapters.adapter import made_of
from adapters.codes import COMMANDS
from adapters.told import PARAMETER, SERVICE, VARIABLE
from checks.reading import read_module
from making.chance import Chance
from making.modules import DOSER, HARD, TANK, Assembly, Module, Parameter, Procedure, Service, mixer, scale
from simulation import faults
from simulation.module import Module as Simulated
from simulation.refused import Refused
from simulation.service import PASSING, WORK

START, COMPLETE, RESTART = ({"CommandExt": COMMANDS[command]} for command in ("Start", "Complete", "Restart"))
AMOUNT = (PARAMETER, "dose", "1", "amount")
KETTLE = Module("Kettle", "1.0.0", (Service("heat", (Procedure("to_temp", 1, is_default=True, parameters=(
    Parameter("temp_setting", "AnaServParam", 0, 150), Parameter("note", "StringServParam"),
    Parameter("fast", "BinServParam"), Parameter("turns", "DIntServParam", -5, 5))),)),),
    (Assembly("temp", "AnaView", scale(1001, 0, 200)), Assembly("count", "DIntView", {"VSclMin": 0, "VSclMax": 10})))
# Views with what they show at rest, after ten seconds of work with a setting of 80, and twenty seconds after its end.
VIEWS = [
    ("level", "AnaView", scale(1038, 100, 200), 100, 150, 140), ("plain", "AnaView", {}, 0, 50, 40),
    ("count", "DIntView", {"VSclMin": 0, "VSclMax": 10}, 0, 5, 4),
    ("TI1", "AnaView", scale(1001, -50, 150), 20, 71.8799, 20.9502),
    ("temp_oil", "AnaView", {}, 20, 71.8799, 20.9502), ("kelvin", "AnaView", scale(1000, 0, 1000), 293.15, None, None),
    ("fahrenheit", "AnaView", scale(1002, 0, 300), 68, None, None),
]
OVEN = Module("Oven", "1.0.0", (Service("run", (Procedure("on", 1, is_default=True, parameters=(
    Parameter("temp_note", "StringServParam"), Parameter("temp_setting", "AnaServParam", 0, 160),)),)),),
    tuple(Assembly(name, kind, facts) for name, kind, facts, *_ in VIEWS))
# What is written to a parameter, and words of why it isn't taken; none where it is.
WRITES = [
    ("temp_setting", 60, None), ("temp_setting", decimal.Decimal("60.5"), None), ("temp_setting", 0, None),
    ("temp_setting", 150, None), ("temp_setting", decimal.Decimal("150.0001"), "150.0001 is above 150"),
    ("temp_setting", decimal.Decimal("-0.0001"), "-0.0001 is below 0"), ("temp_setting", "60", "which is no number"),
    ("temp_setting", True, "which is no number"), ("temp_setting", None, "which is no number"),
    ("temp_setting", decimal.Decimal("1e999999999"), "beyond what pol holds"),
    ("turns", 5, None), ("turns", -6, "-6 is below -5"), ("turns", decimal.Decimal("1.5"), "is no whole number"),
    ("turns", decimal.Decimal("2.0"), None), ("note", "é" * 127, None), ("note", "é" * 128, "has 256 bytes"),
    ("note", "\ud800", "half a letter"), ("note", 5, "which is no text"), ("fast", True, None),
    ("fast", 1, "no truth value"),
]
# What is asked for as a fault, and words of why it isn't taken.
WRONG_FAULTS = [
    ({}, "None is no fault; there are lose, "), ({"fault": "burn"}, "'burn' is no fault"),
    ({"fault": ["lose"]}, "is no fault"),
    ({"fault": "lose", "seconds": -1}, "lose: seconds is -1, not 0 to 3600"),
    ({"fault": "lose", "seconds": "5"}, "lose: seconds is '5'"),
    ({"fault": "lose", "seconds": True}, "seconds is True"),
    ({"fault": "drop", "count": decimal.Decimal("1.5")}, "drop: count is "),
    ({"fault": "drop", "count": 1001}, "not 0 to 1000"),
    ({"fault": "quality", "code": 256}, "quality: code is 256, not 0 to 255"),
    ({"fault": "slow", "count": 1}, "slow: count isn't known; its words are seconds"),
]


def simulated(module):
    return Simulated(read_module(module).plug)


def refusal(module, place, items):
    try:
        module.write(place, items)
    except Refused as fault:
        return str(fault)
    return None


def pass_time(module, seconds, step=0.5):
    for _ in range(round(seconds / step)):
        module.step(step)


def shown(module, variable):
    items = module.items((VARIABLE, variable))
    return items.get("V", items.get("Text"))


class Parameters(unittest.TestCase):
    def test_each_write_is_taken_or_refused_with_its_reason(self):
        module = simulated(KETTLE)
        for name, value, words in WRITES:
            place = (PARAMETER, "heat", "1", name)
            before = module.items(place)["VReq"]
            why = refusal(module, place, {"VExt": value})
            if words is None:
                self.assertIsNone(why, (name, value))
                self.assertEqual(module.items(place)["VReq"], value)
            else:
                self.assertIn(words, why or "", (name, value))
                self.assertEqual(module.items(place)["VReq"], before)

    def test_what_is_set_holds_from_the_next_start_on(self):
        module = simulated(DOSER)
        self.assertEqual(module.items(AMOUNT)["VOut"], 2500)
        module.write(AMOUNT, {"VExt": 750})
        self.assertEqual([module.items(AMOUNT)[name] for name in ("VReq", "VOut")], [750, 2500])
        module.write((SERVICE, "dose"), START)
        self.assertEqual([module.items(AMOUNT)[name] for name in ("VOut", "VFbk")], [750, 750])
        module.write(AMOUNT, {"VExt": 800})
        pass_time(module, PASSING)
        self.assertEqual(module.items(AMOUNT)["VOut"], 750)

    def test_it_holds_from_a_restart_on_too(self):
        module = simulated(KETTLE)
        place = (PARAMETER, "heat", "1", "temp_setting")
        module.write((SERVICE, "heat"), START)
        pass_time(module, PASSING)
        module.write(place, {"VExt": 100})
        self.assertEqual(module.items(place)["VOut"], 75)
        module.write((SERVICE, "heat"), RESTART)
        self.assertEqual(module.items(place)["VOut"], 100)

    def test_one_that_another_procedure_has_is_not_applied(self):
        module = simulated(DOSER)
        module.write(AMOUNT, {"VExt": 750})
        module.write((SERVICE, "dose"), {"ProcedureExt": 2, **START})
        self.assertEqual(module.items(AMOUNT)["VOut"], 2500)

    def test_one_of_a_service_is_one_at_each_of_its_procedures(self):
        module = simulated(HARD)
        first, second = ((PARAMETER, "Heizen_Kuehlen", number, "Rampe") for number in "12")
        module.write(first, {"VExt": decimal.Decimal("0.25")})
        self.assertEqual(module.items(second)["VReq"], 0.25)

    def test_who_may_command_may_set(self):
        module = simulated(DOSER)
        self.assertIn("mode Automatic", refusal(module, AMOUNT, {"VOp": 5}))
        module.write((SERVICE, "dose"), {"StateOpOp": True})
        self.assertIn("mode Operator", refusal(module, AMOUNT, {"VExt": 5}))
        self.assertIsNone(refusal(module, AMOUNT, {"VOp": 5}))

    def test_at_first_each_has_the_middle_of_its_range(self):
        rows = [("AnaServParam", 0, 5, 2.5), ("AnaServParam", 3, None, 3), ("AnaServParam", None, -2, -2),
                ("AnaServParam", -3, None, 0), ("AnaServParam", None, None, 0), ("DIntServParam", 1, 4, 2),
                ("DIntServParam", None, 7, 0), ("BinServParam", None, None, False), ("StringServParam", None, None, "")]
        for kind, low, high, wanted in rows:
            parameter = Parameter("x", kind, low, high)
            services = (Service("s", (Procedure("p", 1, is_default=True, parameters=(parameter,)),)),)
            items = simulated(Module("M", "1.0.0", services)).items((PARAMETER, "s", "1", "x"))
            self.assertEqual(repr(items["VOut"]), repr(wanted), (kind, low, high))

    def test_each_begins_within_its_range(self):
        for made in (DOSER, HARD, KETTLE, mixer("1.0.0")):
            for parameter in simulated(made).parameters.values():
                if parameter.low is not None:
                    self.assertTrue(parameter.low <= parameter.applied <= parameter.high, parameter.name)


class Writes(unittest.TestCase):
    def test_what_is_not_there_or_not_written_is_refused(self):
        module = simulated(DOSER)
        for place, items, words in [
                ((SERVICE, "dose"), {}, "nothing is to be written"),
                ((SERVICE, "dose"), {"Command": 4}, "has no item Command"),
                ((SERVICE, "stir"), START, "service/stir has no item"),
                ((VARIABLE, "weight"), {"V": 5}, "V can't be written"),
                ((SERVICE, "dose"), {"StateCur": 64}, "can't be written"), (AMOUNT, {"VOut": 5}, "can't be written"),
                ((SERVICE, "dose"), {"CommandInt": 4}, "can't be written"), (("dose",), START, "has no item")]:
            self.assertIn(words, refusal(module, place, items) or "", (place, items))

    def test_items_are_taken_in_their_order(self):
        module = simulated(DOSER)
        self.assertIsNone(refusal(module, (SERVICE, "dose"), {"ProcedureExt": 2, **START}))
        self.assertEqual(module.items((SERVICE, "dose"))["ProcedureCur"], 2)
        module = simulated(DOSER)
        self.assertIn("no procedure 3", refusal(module, (SERVICE, "dose"), {"ProcedureExt": 3, **START}))
        self.assertEqual(module.items((SERVICE, "dose"))["StateCur"], 16)


class Moving(unittest.TestCase):
    def test_views_move_at_their_speed(self):
        module, moments = simulated(OVEN), []

        def look():
            moments.append({name: shown(module, name) for name, *_ in VIEWS})
        look()
        module.write((SERVICE, "run"), START)
        pass_time(module, PASSING + 10)
        look()
        module.write((SERVICE, "run"), COMPLETE)
        pass_time(module, 20)
        look()
        for name, kind, _, *wanted in VIEWS:
            for moment, value in zip(moments, wanted):
                if value is not None:
                    self.assertAlmostEqual(moment[name], value, 3, name)
                    self.assertIs(type(moment[name]), int if kind == "DIntView" else float)

    def test_a_level_rises_while_it_is_filled_and_stays_in_its_scale(self):
        module = simulated(TANK)
        levels = [shown(module, "level")]
        module.write((SERVICE, "fill"), START)
        for _ in range(40):
            module.step(0.5)
            levels.append(shown(module, "level"))
        top = max(levels)
        rising = levels[:levels.index(top) + 1]
        self.assertEqual(rising, sorted(rising))
        self.assertTrue(0 == levels[0] < top <= 2000)
        pass_time(module, 400)
        self.assertEqual(shown(module, "level"), 0)

    def test_it_sinks_while_it_is_drained(self):
        services = (*TANK.services, Service("drain", (Procedure("all", 1, is_default=True),)))
        module = simulated(Module("T", "1.0.0", services, TANK.assemblies))
        module.values["level"].value = 1000.0
        module.write((SERVICE, "drain"), START)
        pass_time(module, PASSING)
        before = shown(module, "level")
        pass_time(module, 5)
        self.assertAlmostEqual(before - shown(module, "level"), 500, delta=60)

    def test_a_temperature_goes_to_its_setting_and_back(self):
        module = simulated(KETTLE)
        self.assertEqual(shown(module, "temp"), 20)
        module.write((PARAMETER, "heat", "1", "temp_setting"), {"VExt": 80})
        module.write((SERVICE, "heat"), START)
        pass_time(module, 60)
        self.assertAlmostEqual(shown(module, "temp"), 80, delta=0.1)
        module.write((SERVICE, "heat"), COMPLETE)
        pass_time(module, 60)
        self.assertAlmostEqual(shown(module, "temp"), 20, delta=0.1)

    def test_what_is_reported_goes_to_the_setting_and_stays(self):
        module = simulated(DOSER)
        module.write(AMOUNT, {"VExt": decimal.Decimal("400.25")})
        module.write((SERVICE, "dose"), START)
        pass_time(module, PASSING + WORK / 2)
        self.assertAlmostEqual(shown(module, "dose_by_weight_dosed"), 200, delta=25)
        pass_time(module, WORK)
        self.assertEqual(shown(module, "dose_by_weight_dosed"), 400.25)
        pass_time(module, WORK)
        self.assertEqual(shown(module, "dose_by_weight_dosed"), 400.25)

    def test_what_one_procedure_reports_another_leaves_alone(self):
        module = simulated(DOSER)
        self.assertEqual(shown(module, "dose_by_weight_dosed"), 0)
        module.write((SERVICE, "dose"), {"ProcedureExt": 2, **START})
        pass_time(module, PASSING + WORK)
        self.assertEqual(shown(module, "dose_by_weight_dosed"), 0)

    def test_a_temperature_without_a_setting_goes_to_the_middle_of_its_scale(self):
        module = simulated(mixer("1.0.0"))
        module.write((SERVICE, "stir"), START)
        pass_time(module, 60)
        self.assertAlmostEqual(shown(module, "temp"), 75, delta=0.1)

    def test_the_others_show_that_something_works(self):
        module = simulated(mixer("1.0.0"))
        views = ("full", "gear", "program")
        self.assertEqual([shown(module, name) for name in views], [False, 0, ""])
        self.assertEqual(module.items((VARIABLE, "program")), {"Text": "", "WQC": 255})
        module.write((SERVICE, "stir"), START)
        pass_time(module, 2 * PASSING)
        self.assertEqual([shown(module, name) for name in views], [True, 2, "until_told"])

    def test_all_that_is_shown_has_a_form_for_pol(self):
        for made in (DOSER, HARD, KETTLE, TANK, mixer("1.0.0")):
            module = simulated(made)
            for service in module.services:
                module.write((SERVICE, service), START)
            for _ in range(30):
                module.step(0.5)
                for name, entry in module.map["variables"].items():
                    forms.value_of(entry, module.items((VARIABLE, name)), ("V", "Text"))
                for name in module.services:
                    forms.report_of(module.items((SERVICE, name)))


class ByChance(unittest.TestCase):
    def test_whatever_module_a_package_has_it_runs(self):
        """With odd names, numbers and scales. What is told has a form, but for numbers that no REAL can hold."""
        count = 0
        for seed in range(30):
            read = read_module(Chance(random.Random(seed)).module())
            if not read.has_errors():
                count += 1
                self.run_all(Simulated(read.plug))
        self.assertGreater(count, 5)

    def run_all(self, module):
        for service in module.services:
            module.write((SERVICE, service), START)
        for _ in range(4):
            module.step(PASSING)
            for place in module.places:
                items = topics.unpacked(topics.packed(module.items(place)).encode())
                try:
                    made_of("T", place, module.entry(place), items)
                except forms.Unfit as fault:
                    self.assertIn("beyond what pol holds", str(fault))


class Faults(unittest.TestCase):
    def test_wrong_ones_are_refused_with_what_to_do(self):
        for items, words in WRONG_FAULTS:
            with self.assertRaises(Refused) as raised:
                faults.read(items)
            self.assertIn(words, str(raised.exception))

    def test_what_is_left_out_has_its_first_value(self):
        self.assertEqual(faults.read({"fault": "drop", "id": "x"}), ("drop", {"count": 1}))
        self.assertEqual(faults.read({"fault": "lose"}), ("lose", {"seconds": 0.0}))
        self.assertEqual(faults.read({"fault": "lose", "seconds": 3600}), ("lose", {"seconds": 3600.0}))
        self.assertEqual(faults.Faults().skips(), False)
        self.assertEqual(faults.read({"fault": "quality", "place": "variable/level"}),
                         ("quality", {"place": "variable/level", "code": 0}))
        self.assertEqual(faults.read({"fault": "slow", "seconds": decimal.Decimal("2.5")}), ("slow", {"seconds": 2.5}))

    def test_faults_of_commands_come_in_their_order(self):
        made = faults.Faults(["drop", "mute"])
        self.assertEqual([made.of_next_command() for _ in range(3)], ["drop", "mute", faults.AS_EVER])
        made.skipped = 2
        self.assertEqual([made.skips() for _ in range(3)], [True, True, False])
