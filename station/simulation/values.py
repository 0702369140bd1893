"""What the views of a module show, and how it moves while time goes on: plausible, and no more."""
import math
import typing

from simulation.service import Service

# In seconds of the simulation: in which an amount goes from end to end of its scale while a service works, in which it
# falls back otherwise, and in which a temperature is most of the way where it goes.
FILLS, FALLS, WARMS = 20.0, 200.0, 5.0
TEMPERATURES = {"K": 293.15, "°C": 20.0, "°F": 68.0}
EMPTIES = ("drain", "empty", "entleer", "ablass")
SCALE, DIGITS = {"from": 0.0, "to": 100.0}, 6


class Work(typing.NamedTuple):
    """A service that executes, with the parameters of its procedure."""
    service: Service
    parameters: list


def rounded(number):
    return float(f"{number:.{DIGITS}g}")


def clamped(number, low, high):
    return min(max(number, low), high)


class Amount:
    """A level, a weight, a pressure: it rises while a service works and falls while one empties."""

    def __init__(self, entry):
        scale = entry.get("scale", SCALE)
        self.low, self.high, self.is_whole = scale["from"], scale["to"], entry["kind"].startswith("DInt")
        self.value = self.low

    def move(self, seconds, works):
        span = self.high - self.low
        names = [work.service.name.lower() for work in works]
        empties = any(word in name for name in names for word in EMPTIES)
        per_second = span / FILLS if names and not empties else -span / FILLS if empties else -span / FALLS
        self.value = clamped(self.value + per_second * seconds, self.low, self.high)

    def shown(self):
        return round(self.value) if self.is_whole else rounded(self.value)


class Temperature(Amount):
    """It goes to the setting of a procedure that runs, else to the middle of its scale; and back to that of a room."""

    def __init__(self, entry):
        super().__init__(entry)
        self.unit = entry.get("unit", {}).get("text")
        self.room = clamped(TEMPERATURES.get(self.unit, TEMPERATURES["°C"]), self.low, self.high)
        self.value = self.room

    def aim(self, works):
        if not works:
            return self.room
        settings = [parameter.number() for work in works for parameter in work.parameters if self.is_set_by(parameter)]
        return clamped(settings[0], self.low, self.high) if settings else (self.low + self.high) / 2

    def is_set_by(self, parameter):
        is_temperature = "temp" in parameter.name.lower() or parameter.entry.get("unit", {}).get("text") in TEMPERATURES
        return is_temperature and parameter.number() is not None

    def move(self, seconds, works):
        left = math.exp(-seconds / WARMS)
        self.value = self.aim(works) + (self.value - self.aim(works)) * left


class Reported:
    """What a procedure reports: it goes to the first setting that is a number, with the work that is done, and stays
    there."""

    def __init__(self, entry, service, number):
        self.entry, self.service, self.number, self.value = entry, service, number, 0.0

    def move(self, _seconds, works):
        for work in works:
            if work.service.name == self.service and work.service.running == self.number:
                numbers = [parameter.number() for parameter in work.parameters if parameter.number() is not None]
                whole = numbers[0] if numbers else self.entry.get("scale", SCALE)["to"]
                self.value = whole * work.service.share_done()

    def shown(self):
        return round(self.value) if self.entry["kind"].startswith("DInt") else rounded(self.value)


class Choice:
    """A number with texts: the last one while a service works, else the first."""

    def __init__(self, entry):
        numbers = sorted(map(int, entry["texts"]))
        self.first, self.last, self.works = numbers[0], numbers[-1], False

    def move(self, _seconds, works):
        self.works = bool(works)

    def shown(self):
        return self.last if self.works else self.first


class Truth:
    """True while a service works."""

    def __init__(self, _entry):
        self.works = False

    def move(self, _seconds, works):
        self.works = bool(works)

    def shown(self):
        return self.works


class Text:
    """The name of the procedure that works, and nothing otherwise."""

    def __init__(self, _entry):
        self.name = ""

    def move(self, _seconds, works):
        self.name = works[0].service.procedure_name() if works else ""

    def shown(self):
        return self.name


def moving(name, entry, reports):
    """How the view of this entry moves. `reports` has the service and the procedure of each view that one reports."""
    kind = entry["kind"]
    if kind == "StringView":
        return Text(entry)
    if kind in ("BinView", "BinMon"):
        return Truth(entry)
    if name in reports:
        return Reported(entry, *reports[name])
    if kind.startswith("DInt") and "texts" in entry:
        return Choice(entry)
    is_temperature = "temp" in name.lower() or entry.get("unit", {}).get("text") in TEMPERATURES
    return Temperature(entry) if is_temperature else Amount(entry)
