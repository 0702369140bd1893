"""Parameters of procedures: set by a recipe or by hand, and taken over at the next Start."""
import decimal

from adapters import forms
from simulation.refused import Refused

NUMBERS = ("AnaServParam", "DIntServParam")


class Parameter:
    """Of one data assembly; several procedures may share it. `low` and `high` are the description's limits, in the
    numbers of `pol`, and so is what is wanted and what is applied."""

    def __init__(self, description, entry):
        self.entry, self.name, self.kind = entry, description["name"], description["kind"]
        self.low, self.high = description.get("min"), description.get("max")
        self.wanted = self.applied = self.at_first()

    def at_first(self):
        """The middle of its range; where that has no end, 0 or what is nearest."""
        if self.kind not in NUMBERS:
            return False if self.kind == "BinServParam" else ""
        lowest, highest = forms.NUMBER_BOUNDS[self.kind[:3]]
        if lowest < self.low and self.high < highest:
            return (self.low + self.high) // 2
        return min(max(0, self.low), self.high)

    def want(self, value):
        """Takes a value of the module for the next Start."""
        try:
            wanted = forms.value_of(self.entry, {"V": value}, ("V",))
        except forms.Unfit as fault:
            raise Refused(f"{self.name}: {fault}") from fault
        if self.kind in NUMBERS:
            self.ask_range(value)
        self.wanted = wanted

    def ask_range(self, value):
        exact = decimal.Decimal(str(value)) * self.entry["factor"]
        for is_outside, side, limit in ((exact < self.low, "below", self.low), (exact > self.high, "above", self.high)):
            if is_outside:
                raise Refused(f"{self.name}: {forms.quoted(value)} is {side} {forms.of_module(self.entry, limit)}")
        if self.kind == "DIntServParam" and exact != int(exact):
            raise Refused(f"{self.name}: {forms.quoted(value)} is no whole number")

    def apply(self):
        self.applied = self.wanted

    def number(self):
        """What is applied, in the module's units; None where it is no number."""
        return forms.of_module(self.entry, self.applied) if self.kind in NUMBERS else None

    def items(self):
        applied = forms.of_module(self.entry, self.applied)
        return {"VReq": forms.of_module(self.entry, self.wanted), "VOut": applied, "VFbk": applied}
