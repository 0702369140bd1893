"""Names, versions and ranges: what of a package's form becomes which form of `pol`."""
import random
import unittest

from checks.reading import DONE, answers, read_module
from making.chance import NAMES
from making.modules import DOSER, Assembly, Module, Parameter, Procedure, Service
from package.names import fitted, is_name, twice
from package.versions import three_parts

VERSIONS = [
    ("1.2.3", "1.2.3"), ("1.2", "1.2.0"), ("1", "1.0.0"), ("v2.1", "2.1.0"), ("V2.1", "2.1.0"), (" 1.2 ", "1.2.0"),
    ("1.2.3\n", "1.2.3"), ("01.2.3", "1.2.3"), ("1.2.3.4", "1.2.3+4"), ("1.2.3.4+b", "1.2.3+4.b"),
    ("1.0-rc.1", "1.0.0-rc.1"), ("1.0.0-01", None), ("1.0.0-0a", "1.0.0-0a"), ("1.0.0+01", "1.0.0+01"),
    ("1.0.0+b..c", None), ("1.0.0-", None), ("1.0.0 (beta)", None), ("next", None), ("", None), ("1..2", None), ("１.0", None),
    ("18446744073709551615.0.0", "18446744073709551615.0.0"), ("18446744073709551616.0.0", None), ("1" * 5000, None),
    ("1.2.3-" + "a" * 58, "1.2.3-" + "a" * 58), ("1.2.3-" + "a" * 59, None), ("1.2-" + "a" * 60, None),
]
LOWEST, HIGHEST = -2**63, 2**63 - 1
# Kind, VMin, VMax, and the limits for `pol`, or None where no range is left.
RANGES = [
    ("AnaServParam", "0.0", "5000.0", (0, 5000000)),
    ("AnaServParam", "-0.0005", "180.12345", (0, 180123)),
    ("AnaServParam", "-1.0005", "1.0005", (-1000, 1000)),
    ("AnaServParam", "0.100000001490116", "0.100000001490116", (100, 100)),
    ("AnaServParam", "1e-9", "1E+2", (1, 100000)),
    ("AnaServParam", "-1e-9", ".5", (0, 500)),
    ("AnaServParam", "1000000.0005", "1000000.0015", (1000000001, 1000000001)),
    ("AnaServParam", "-INF", "INF", (LOWEST, HIGHEST)),
    ("AnaServParam", "NaN", None, (LOWEST, HIGHEST)),
    ("AnaServParam", "-9223372036854775.808", "9223372036854775.807", (LOWEST, HIGHEST)),
    ("AnaServParam", "-1e300", "1e999", (LOWEST, HIGHEST)),
    ("AnaServParam", "1e300", "1e301", None),
    ("AnaServParam", "-1e301", "-1e300", None),
    ("AnaServParam", "0.0001", "0.0009", None),
    ("AnaServParam", "2", "1", None),
    ("AnaServParam", "12,5", "13", None),
    ("AnaServParam", "0", "1_0", None),
    ("AnaServParam", "0", "1e9999999999", None),
    ("AnaServParam", "0", "9" * 70, None),
    ("DIntServParam", "0", "1500.0", (0, 1500)),
    ("DIntServParam", "-0.5", "7.9", (0, 7)),
    ("DIntServParam", "-3000000000", "3000000000", (-2**31, 2**31 - 1)),
    ("DIntServParam", "3000000000", "3000000001", None),
]


def parameter_of(kind, low, high, is_read=False):
    """The parameter of a description that comes of these limits, with what was told."""
    procedure = Procedure("p", 1, is_default=True, parameters=(Parameter("x", kind, low, high, is_read),))
    read = read_module(Module("M", "1.0.0", (Service("s", (procedure,)),)))
    return read.plug.description["services"][0]["procedures"][0]["params"][0], read


class Names(unittest.TestCase):
    def test_a_name_stays_and_another_is_spelled(self):
        rows = {"dose": "dose", "TI-301.b": "TI-301.b", "Heizen/Kühlen": "Heizen_Kuehlen", "Größe": "Groesse",
                "café": "cafe", "": "x", "  ": "x", "°C": "C", "x" * 32: "x" * 32, "_": "_"}
        self.assertEqual({text: fitted([text])[0] for text in rows}, rows)

    def test_a_long_name_is_cut_and_told_from_another_with_its_beginning(self):
        long = ["Ein sehr langer Name eines Dienstes", "Ein sehr langer Name eines Dienstes, und noch einer", "y" * 33]
        self.assertEqual(fitted(long), ["Ein_sehr_langer_Name_eines__da31", "Ein_sehr_langer_Name_eines__abc2",
                                        "y" * 27 + "_d7ba"])

    def test_a_name_keeps_its_form_before_others_are_made(self):
        self.assertEqual(fitted(["a b", "a_b"])[1], "a_b")
        self.assertNotEqual(*fitted(["a b", "a_b"]))

    def test_no_two_become_one(self):
        draw = random.Random(1)
        for _ in range(300):
            texts = [draw.choice(NAMES) + draw.choice(["", "", "_", " ", "x"]) + draw.choice(NAMES) for _ in range(40)]
            made = fitted(texts)
            self.assertTrue(all(map(is_name, made)), made)
            self.assertEqual(len(set(made)), len(set(texts)))
            again = dict(zip(made, fitted(made)))
            self.assertTrue(all(name == same for name, same in again.items()))

    def test_a_name_that_others_foresaw_is_free(self):
        texts = ["a b", "a_b"]
        for _ in range(40):
            texts.append(fitted(texts)[0])
        self.assertEqual(len(set(fitted(texts))), len(texts))

    def test_names_that_stand_twice_are_found(self):
        self.assertEqual(twice(["a", "b", "a", "c", "b", "a"]), ["a", "b"])


class Versions(unittest.TestCase):
    def test_each_version_has_three_parts_or_is_none(self):
        self.assertEqual([(text, three_parts(text)) for text, _ in VERSIONS], VERSIONS)

    def test_the_program_takes_each(self):
        lines = [read_module(DOSER, version=text).line for text, made in VERSIONS if made]
        self.assertEqual(answers(lines), [DONE] * len(lines))


class Ranges(unittest.TestCase):
    def test_each_range_is_whole_and_never_wider(self):
        for kind, low, high, wanted in RANGES:
            made, read = parameter_of(kind, low, high)
            seen = None if read.has_errors() else (made["min"], made["max"])
            self.assertEqual(seen, wanted, (kind, low, high, read.notes))

    def test_the_program_takes_each(self):
        lines = [parameter_of(kind, low, high)[1].line for kind, low, high, wanted in RANGES if wanted]
        self.assertEqual(answers(lines), [DONE] * len(lines))

    def test_of_a_limit_that_the_module_tells_the_file_has_a_default(self):
        for low, high, wanted in [("0", "10", (0, 10)), ("3", None, (3, 2**31 - 1)), ("0", "0", (-2**31, 2**31 - 1))]:
            made, read = parameter_of("DIntServParam", low, high, is_read=True)
            self.assertEqual((made["min"], made["max"]), wanted)
            self.assertTrue(any("read from the module while it runs" in note for note in read.of_kind("lost")), read.notes)

    def test_what_has_no_range_says_none(self):
        for kind in ("BinServParam", "StringServParam"):
            self.assertEqual(parameter_of(kind, None, None)[0], {"name": "x", "kind": kind})


class Shown(unittest.TestCase):
    """What the map says of how a value is shown."""

    def entry(self, kind, facts):
        module = Module("M", "1.0.0", DOSER.services, (Assembly("v", kind, facts),))
        return read_module(module).plug.map["variables"]["v"]

    def test_units_scales_and_texts(self):
        rows = [
            ("AnaView", {"VUnit": "1088", "VSclMin": "0", "VSclMax": "5e3"},
             {"unit": {"code": "1088", "text": "kg"}, "scale": {"from": 0.0, "to": 5000.0}, "factor": 1000}),
            ("AnaView", {"VUnit": "9999", "VSclMin": "0", "VSclMax": "1e999"},
             {"unit": {"code": "9999"}, "factor": 1000}),
            ("AnaMon", {"VUnit": "kg"}, {"unit": {"text": "kg"}, "factor": 1000}),
            ("DIntView", {"VState0": "off", "VState12": "fast"}, {"texts": {"0": "off", "12": "fast"}, "factor": 1}),
            ("DIntView", {"VEnum": {"-1": "left", "1": "right", "Name": "where"}},
             {"texts": {"-1": "left", "1": "right"}, "factor": 1}),
            ("BinView", {"VState0": "closed", "VState1": "open"}, {"texts": {"0": "closed", "1": "open"}}),
            ("StringView", {}, {}),
        ]
        for kind, facts, wanted in rows:
            entry = self.entry(kind, facts)
            seen = {key: entry[key] for key in ("unit", "scale", "texts", "factor") if key in entry}
            self.assertEqual(seen, wanted, kind)
