"""The limits of a parameter: VMin and VMax as `pol` has them."""
from package import ranges
from package.classes import LIMITS
from package.told import short, shown

LOWER, UPPER = LIMITS


def limits_of(assembly, where, told):
    """`min` and `max` of a parameter of the kinds that have them; else nothing."""
    if assembly.kind not in ranges.BOUNDS:
        return {}
    low, high = ranges.BOUNDS[assembly.kind]
    names = () if is_left_open(assembly, where, told) else LIMITS
    numbers = {name: said(assembly, name, where, told) for name in names}
    made = {"min": limit(assembly, LOWER, numbers, low, where, told),
            "max": limit(assembly, UPPER, numbers, high, where, told)}
    if made["min"] > made["max"]:
        told.error(where, f"{between(assembly, numbers)}; ask its maker for a range that a recipe can set")
    return made


def is_left_open(assembly, where, told):
    """Whether the module tells both limits while it runs, and the file has one default for both: that is no range."""
    low, high = (assembly.constant(name) if assembly.is_reference(name) else "" for name in LIMITS)
    is_open = low == high != ""
    if is_open:
        told.lost(where, f"VMin and VMax are read from the module while it runs; the file has {shown(low)} for both: "
                         "no limit")
    return is_open


def between(assembly, numbers):
    """Why no value is left."""
    if numbers[LOWER] is not None and numbers[UPPER] is not None and numbers[LOWER] > numbers[UPPER]:
        return "its VMin is above its VMax"
    step = "thousandth" if ranges.FACTORS[assembly.kind] > 1 else "number"
    return f"no whole {step} that pol has lies from its VMin to its VMax"


def said(assembly, name, where, told):
    """The number that the file has for a limit; None where it has none."""
    text = assembly.constant(name)
    if assembly.is_reference(name):
        has = short(text) or "no limit"
        told.lost(where, f"{name} is read from the module while it runs; pol has what the file tells: {has}")
    elif not text:
        told.changed(where, f"no {name} in the file: no limit")
    if not text:
        return None
    number = ranges.number_of(text)
    if ranges.is_endless(text):
        told.changed(where, f"{name} is {text}: no limit")
    elif number is None:
        told.error(where, f"{name} is {shown(text)}, which is no number; write one with a point in the manifest")
    return number


def limit(assembly, name, numbers, bound, where, told):
    """A limit in `pol`'s numbers, never outside of what the module takes; `bound` where it has none."""
    number = numbers.get(name)
    if number is None:
        return bound
    steps, is_lower = ranges.steps_of(number, assembly.kind), name == LOWER
    if steps < bound if is_lower else steps > bound:
        told.changed(where, f"{name} {assembly.constant(name)} is beyond what pol holds: it is {bound}")
        return bound
    made = ranges.whole(steps, is_lower)
    if made != steps:
        lies = "two thousandths: it is" if ranges.FACTORS[assembly.kind] > 1 else "two whole numbers: it is"
        told.changed(where, f"{name} {assembly.constant(name)} lies between {lies} {made}")
    return made
