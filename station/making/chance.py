"""Modules by chance, with the names, numbers, versions and sizes that are most likely to go wrong."""
from making.items import ITEMS
from making.modules import Assembly, Module, Parameter, Procedure, Service

NAMES = ["", " ", "a b", "a_b", "Ü", "Ue", "x" * 40, "Ventil/1", "a", "A", "ÄÖÜ", "温度", "n\u202en", ".", "-", "x" * 32,
         "x" * 33, "x" * 4000,
         "q'\"<&>", "line\nfeed", "{brace}", "RefID", "e\u0301", "é", "𝕬", "/", "..", "\u00ad"]
NUMBERS = ["0", "-1", "-0", "+7", "1e3", "1E-9", "NaN", "INF", "-INF", "12,5", "", "1e300", "1e-300", "1e999999999",
           "9223372036854775.807", "9223372036854775.9", "-9223372036854775.808", "0x10", "1.0005", "0.100000001490116",
           "16777216.5", "2147483648", "-2147483649",
           "true", " 7 ", "1_0", "٣", ".5", "5.", ".", "9" * 70, "1000000.0005"]
VERSIONS = ["1.0.0", "1.0", "1", "v2.3.4", "1.2.3.4", "1.2.3.4+b", "01.2.3", "1.0.0-rc.1", "1.0-rc.1", "1.0.0-01",
            "1.0.0-0a", "1.0.0+b..c", "1.0.0+01", "x", "", "99999999999999999999.0.0", "18446744073709551615.0.0",
            "18446744073709551616.0.0", " 1.2 ", "1.2.3-" + "a" * 80,
            "1.2.3-" + "a" * 58, "1.2.3-" + "a" * 59, "1" * 5000, "1.0.0 (beta)", "1.0.0\n", "１.0.0"]
PROCEDURE_NUMBERS = ["0", "65536", "-1", "x", "", "²", "1.0", "9" * 5000, "01", "65535"]
PARAMETERS = ["AnaServParam", "DIntServParam", "BinServParam", "StringServParam"]
VIEWS = ["AnaView", "AnaMon", "DIntView", "BinView", "BinMon", "StringView"]
FACTS = [{}, {}, {"VUnit": 1088}, {"VUnit": "kg"}, {"VUnit": "1e300"}, {"VSclMin": "0", "VSclMax": "0.01"},
         {"VSclMin": "1e300", "VSclMax": "NaN"}, {"VSclMin": "-1e999", "VSclMax": "1e999"},
         {"VState0": "off", "VState7": "on"}, {"VAHLim": 7}, {"V": 5}]


class Chance:
    """Draws modules. The same `draw`, a random.Random, gives the same ones."""

    def __init__(self, draw):
        self.draw = draw

    def one_in(self, most):
        return self.draw.randrange(most) == 0

    def often(self, value, *seldom, one_in=10):
        """Mostly the first."""
        return self.draw.choice(seldom) if self.one_in(one_in) else value

    def module(self):
        count = self.often(self.draw.randrange(1, 4), 0, 32, 33, one_in=30)
        assemblies = [Assembly(self.name(number), self.draw.choice(VIEWS), self.draw.choice(FACTS))
                      for number in range(self.often(self.draw.randrange(5), 63, 64, 65, one_in=30))]
        others = [Assembly("V001", kind) for kind in ("MonBinVlv", "PIDCtrl", "HealthStateView") if self.one_in(3)]
        return Module(self.often("Doser", *NAMES, one_in=3), self.often("1.2.3", *VERSIONS, one_in=2),
                      tuple(self.service(number, count) for number in range(count)), tuple(assemblies + others))

    def name(self, number):
        """A name of its own for each number, but where it is an odd one."""
        return self.often(f"n{number}", *NAMES, *(f"{name}{number}" for name in NAMES), one_in=8)

    def service(self, number, services):
        count = self.often(self.draw.randrange(1, 3), 0, 16, 17, one_in=30)
        return Service(self.name(number), tuple(self.procedure(each, count * services) for each in range(count)),
                       tuple(self.parameter(90 + each) for each in range(self.often(0, 1, one_in=4))))

    def procedure(self, number, procedures):
        """Only where procedures are few has one many parameters: a manifest is to be read in a moment."""
        most = self.often(self.draw.randrange(3), 31, 32, 33, one_in=40) if procedures < 8 else self.draw.randrange(2)
        return Procedure(self.name(number), self.often(number + 1, *PROCEDURE_NUMBERS, one_in=20), self.one_in(2),
                         self.one_in(2), tuple(self.parameter(each) for each in range(most)), ("r",) * self.draw.randrange(2))

    def parameter(self, number):
        kind = self.draw.choice(PARAMETERS)
        odd = [self.draw.choice(NUMBERS), self.draw.choice(NUMBERS)]
        low, high = self.draw.choice([(0, 10), (-5.5, 1e3), (None, None), self.often((0, 1), odd, one_in=2)])
        return Parameter(self.name(number), kind, low, high, is_read=self.one_in(5))


assert set(PARAMETERS + VIEWS) <= set(ITEMS)
