"""Ranges of parameters as `pol` has them: whole numbers, of an analogue one whole thousandths, never wider than the
module's."""
import decimal
import math
import re

# How many of `pol`'s numbers one unit of the module is.
FACTORS = {"AnaServParam": 1000, "AnaView": 1000, "DIntServParam": 1, "DIntView": 1}
BOUNDS = {"AnaServParam": (-2**63, 2**63 - 1), "DIntServParam": (-2**31, 2**31 - 1)}
NUMBER = re.compile(r"[+-]?(?:[0-9]+\.?[0-9]*|\.[0-9]+)(?:[eE][+-]?[0-9]{1,3})?")
MOST_LETTERS = 64
ENDLESS = {"nan", "inf", "+inf", "-inf"}
EXACT = decimal.Context(prec=100)
# A REAL of 32 bits has 24 binary digits, so 0.1 may stand in a file as 0.100000001. What it can't tell apart is one
# number, up to a hundredth of a step.
REAL, HUNDREDTH = decimal.Decimal(2) ** -23, decimal.Decimal("0.01")


def number_of(text):
    """A number as XML writes it; None where the text is none, or none that ends."""
    is_number = len(text) <= MOST_LETTERS and NUMBER.fullmatch(text)
    return decimal.Decimal(text) if is_number else None


def is_endless(text):
    return text.lower() in ENDLESS


def steps_of(number, kind):
    """A number of the module, counted in `pol`'s whole numbers; what a REAL can't tell from a whole one is one."""
    steps = EXACT.multiply(number, FACTORS[kind])
    low, high = BOUNDS[kind]
    if not low <= steps <= high:
        return steps
    near = steps.to_integral_value()
    apart = abs(EXACT.subtract(steps, near))
    return near if apart <= min(EXACT.multiply(abs(steps), REAL), HUNDREDTH) else steps


def whole(steps, is_lower):
    """The nearest whole number that isn't outside."""
    return math.ceil(steps) if is_lower else math.floor(steps)
