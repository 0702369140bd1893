"""What a driver and a page need of a data assembly and `pol` doesn't keep: an entry of the map."""
import math
import re

from package import classes
from package.ranges import FACTORS, number_of


def entry(name, assembly, items):
    """All that is known of a view or a parameter. What the package doesn't say stands in no key."""
    facts = {"name": name, "assembly": assembly.name, "kind": assembly.kind, "items": items_entry(items),
             "factor": FACTORS.get(classes.VIEWS.get(assembly.kind, assembly.kind)), "unit": unit_of(assembly),
             "scale": scale_of(assembly), "texts": texts_of(assembly),
             "description": assembly.constant("TagDescription")}
    return {key: fact for key, fact in facts.items() if fact not in (None, {}, "")}


def items_entry(items):
    return {name: {"server": item.server, "node": item.node, "namespace": item.namespace, "access": item.access}
            for name, item in items.items()}


def unit_of(assembly):
    """The unit: its code and its sign where the code is known, or what stands there if it is no code."""
    said = assembly.constant(classes.UNIT)
    code = number_of(said)
    if code is None:
        return {"text": said} if said else None
    sign = classes.UNITS.get(int(code)) if code == code.to_integral_value() and abs(code) < 10**6 else None
    return {"code": said, "text": sign} if sign else {"code": said}


def scale_of(assembly):
    """From where to where the value is drawn."""
    low, high = (float_of(assembly.constant(name)) for name in classes.SCALE)
    return {"from": low, "to": high} if math.isfinite(low) and math.isfinite(high) else None


def float_of(text):
    """A number as JSON bears it; where the text is none, NaN."""
    number = number_of(text)
    return math.nan if number is None else float(number)


def texts_of(assembly):
    """The text of each truth value or number."""
    found = [texts_in(name, attribute) for name, attribute in assembly.attributes.items()]
    return {number: text for texts in found for number, text in texts.items() if text}


def texts_in(name, attribute):
    """The texts in one attribute: VState0, VState1 and on have one each; within others they stand by their numbers."""
    state = re.fullmatch(classes.STATE_TEXT, name)
    if state:
        return {state[1]: attribute.constant()}
    numbered = {number: each for number, each in attribute.within.items() if re.fullmatch(classes.NUMBER, number)}
    return {number: each.constant() for number, each in numbered.items()}
