"""Modules to try with, as their makers would plan them: a doser, mixers, a tank, a hard one and a faulty one."""
import dataclasses

KILOGRAM, CELSIUS, LITRE = 1088, 1001, 1038


@dataclasses.dataclass(frozen=True)
class Parameter:
    """`low` and `high` may be any text; None leaves them to the server, and so does `is_read`, beside what the file says."""
    name: str
    kind: str
    low: object = None
    high: object = None
    is_read: bool = False


@dataclasses.dataclass(frozen=True)
class Procedure:
    """`reports` are the names of values that it reports at its end."""
    name: str
    number: object
    is_default: bool = False
    is_self_completing: bool = False
    parameters: tuple = ()
    reports: tuple = ()


@dataclasses.dataclass(frozen=True)
class Service:
    name: str
    procedures: tuple
    parameters: tuple = ()


@dataclasses.dataclass(frozen=True)
class Assembly:
    """A view, or a data assembly of another kind; `facts` are the constants that the file has of it; a
    table of texts by their numbers may be one."""
    name: str
    kind: str
    facts: dict = dataclasses.field(default_factory=dict)


@dataclasses.dataclass(frozen=True)
class Module:
    type: str
    version: str
    services: tuple
    assemblies: tuple = ()


def scale(unit, low, high):
    return {"VUnit": unit, "VSclMin": low, "VSclMax": high}


DOSER = Module("Doser", "1.2.0", (
    Service("dose", (
        Procedure("by_weight", 1, is_default=True, is_self_completing=True, reports=("dosed",),
                  parameters=(Parameter("amount", "AnaServParam", 0.0, 5000.0),)),
        Procedure("rinse", 2, is_self_completing=True))),),
    (Assembly("weight", "AnaView", scale(KILOGRAM, 0, 5000)), Assembly("V001", "MonBinVlv"), Assembly("L001", "LockView4")))


def mixer(version):
    return Module("Mixer", version, (
        Service("stir", (
            Procedure("until_told", 1, is_default=True, parameters=(Parameter("speed", "DIntServParam", 0, 1500),)),)),
        Service("drain", (Procedure("all", 1, is_default=True, is_self_completing=True),))),
        (Assembly("temp", "AnaMon", scale(CELSIUS, 0, 150)),
         Assembly("full", "BinView", {"VState0": "not full", "VState1": "full"}),
         Assembly("gear", "DIntView", {"VState0": "off", "VState1": "slow", "VState2": "fast"}),
         Assembly("program", "StringView"), Assembly("TIC001", "PIDCtrl")))


TANK = Module("Tank", "1.0.0", (
    Service("fill", (Procedure("to_level", 1, is_default=True, is_self_completing=True),)),),
    (Assembly("level", "AnaView", scale(LITRE, 0, 2000)),))

# All that has no place for `pol`, or stands there in another form.
HARD = Module("Reaktor R-301 (Mehrzweck, beheizbar, 500 l)", "V2.1", (
    Service("Heizen/Kühlen", (
        Procedure("Auf Temperatur", 1, is_default=True, parameters=(
            Parameter("Solltemperatur [°C]", "AnaServParam", -0.0005, 180.12345), Parameter("Programm", "StringServParam"),
            Parameter("Mit Rückfluss", "BinServParam"), Parameter("Grenze", "AnaServParam", "INF", "NaN"))),
        Procedure("Halten", 2, is_default=True)), (Parameter("Rampe", "AnaServParam", 0.0001, 0.5, is_read=True),)),
    Service("Ein sehr langer Name eines Dienstes, der keinem hilft", (
        Procedure("x", 1, is_self_completing=True,
                  parameters=(Parameter("Zahl", "DIntServParam", -3000000000, 3000000000),)),))),
    (Assembly("TI301 Temperatur innen", "AnaMon"), Assembly("TI301_Temperatur_innen", "AnaView"),
     Assembly("QI_Leitfähigkeit", "AnaView", {"VSclMin": 0, "VSclMax": 0.02}),
     *(Assembly(f"AI{number:03}", "AnaView") for number in range(70))))

FAULTY = Module("Pump", "next", (Service("run", (Procedure("a", 0), Procedure("b", 70000))),))
