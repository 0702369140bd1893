"""Between what a module shows and what `pol` takes: reports of service controls, and values in the numbers of `pol`."""
import decimal

from adapters.codes import GOOD, LEAST_GOOD, LEAST_UNCERTAIN, MODES, QUALITY, SHOWS, SOURCES, STATE_NAMES
from package.told import short

TEXT_KINDS, TRUTH_KINDS = ("StringView", "StringServParam"), ("BinView", "BinMon", "BinServParam")
NUMBER_BOUNDS = {"Ana": (-2**63, 2**63 - 1), "DIn": (-2**31, 2**31 - 1)}
MOST_TEXT_BYTES = 254
LARGEST_MASK, LARGEST_PROCEDURE, LARGEST_QUALITY = 2**32 - 1, 65535, 255


class Unfit(Exception):
    """What came of a module has no form for `pol`, or isn't good enough. Its text says why."""


def quoted(value):
    """A value within a sentence: in one line, and not longer than that bears."""
    return short(str(value) if isinstance(value, decimal.Decimal) else repr(value))


def is_whole(value, low, high):
    return isinstance(value, int) and not isinstance(value, bool) and low <= value <= high


def ask_quality(items):
    """Refuses what isn't of good quality. What has no quality code is good."""
    code = items.get(QUALITY, GOOD)
    if not is_whole(code, 0, LARGEST_QUALITY):
        raise Unfit(f"its {QUALITY} is {quoted(code)}, not 0 to {LARGEST_QUALITY}")
    if code < LEAST_GOOD:
        raise Unfit(f"its quality is {'uncertain' if code >= LEAST_UNCERTAIN else 'bad'} ({QUALITY} {code})")


def report_of(items):
    """The fields of a report, of all items of a service control."""
    ask_quality(items)
    state = number(items, "StateCur", LARGEST_MASK)
    if state not in STATE_NAMES:
        raise Unfit(f"its StateCur is {state}, which is no state")
    mode = chosen(items, MODES)
    if mode is None:
        raise Unfit("not one of its modes is on")
    source = chosen(items, SOURCES)
    if source is None and mode == "Automatic":
        raise Unfit("not one of its sources is on")
    return {"StateCur": state, "CommandEn": number(items, "CommandEn", LARGEST_MASK), "Mode": mode,
            "Src": source or "Internal", "ProcedureCur": number(items, "ProcedureCur", LARGEST_PROCEDURE)}


def number(items, name, most):
    value = items.get(name)
    if not is_whole(value, 0, most):
        raise Unfit(f"its {name} is {quoted(value)}, not 0 to {most}")
    return value


def chosen(items, words):
    """The one word whose item is true; None where none is, or several are."""
    found = [word for word, item in words.items() if items.get(item + SHOWS) is True]
    return found[0] if len(found) == 1 else None


def value_of(entry, items, names):
    """A value as `pol` has it, of the items of a view or a parameter: the first of these names that is there."""
    ask_quality(items)
    value, kind = next((items[name] for name in names if name in items), None), entry["kind"]
    if kind in TEXT_KINDS:
        return text_of(value)
    if kind in TRUTH_KINDS:
        if not isinstance(value, bool):
            raise Unfit(f"its value is {quoted(value)}, which is no truth value")
        return value
    return steps_of(value, entry["factor"], *NUMBER_BOUNDS[kind[:3]])


def text_of(value):
    if not isinstance(value, str):
        raise Unfit(f"its value is {quoted(value)}, which is no text")
    try:
        length = len(value.encode())
    except UnicodeEncodeError as fault:
        raise Unfit("its text has half a letter, which no line can have") from fault
    if length > MOST_TEXT_BYTES:
        raise Unfit(f"its text has {length} bytes; pol takes {MOST_TEXT_BYTES}")
    return value


def steps_of(value, factor, low, high):
    """A number counted in the whole numbers of `pol`, rounded."""
    if isinstance(value, bool) or not isinstance(value, (int, float, decimal.Decimal)):
        raise Unfit(f"its value is {quoted(value)}, which is no number")
    exact = decimal.Decimal(str(value))
    # Only what is near enough is multiplied: 1e999999999 would have as many digits.
    if not exact.is_finite() or not low <= exact <= high or not low <= exact * factor <= high:
        raise Unfit(f"its value {quoted(value)} is beyond what pol holds")
    return int((exact * factor).to_integral_value())


def of_module(entry, value):
    """A setting of a recipe as the module takes it."""
    factor = entry.get("factor", 1)
    if isinstance(value, (bool, str)) or factor == 1:
        return value
    return value // factor if value % factor == 0 else value / factor
