"""The topics and payloads by which modules and a station speak over MQTT; station/MODULES.md has them as a table."""
import decimal
import json

from package.told import short

ROOT, SET, LIFE = "mtp", "set", "life"
# Beside the places of a module: whether it is there, its answers to writes, and what a simulated one is to do wrong.
LINK, ANSWER, FAULT = ("link",), ("answer",), ("fault",)


class Unreadable(Exception):
    """A payload that isn't in its form. Its text says why."""


def topic(tag, place, *more):
    return "/".join((ROOT, tag, *place, *more))


def place_of(topic):
    """The tag and the place of a topic."""
    _, tag, *place = topic.split("/")
    return tag, tuple(place)


def packed(items):
    return json.dumps(items, separators=(",", ":"), allow_nan=False)


def unpacked(payload):
    """The object of a payload. Numbers with a point are exact."""
    try:
        items = json.loads(payload.decode(), parse_float=decimal.Decimal, parse_constant=no_constant)
    except (ValueError, ArithmeticError, RecursionError) as fault:
        raise Unreadable(f"what came is no JSON: {short(str(fault))}") from fault
    if not isinstance(items, dict):
        raise Unreadable("what came is no JSON object")
    return items


def written(payload):
    """The name of a write, by which it is answered, and its items."""
    found = unpacked(payload)
    name, items = found.get("id"), found.get("items")
    if not isinstance(name, str) or not isinstance(items, dict):
        raise Unreadable("a write has an id, which is a text, and items, which are an object")
    return name, items


def no_constant(word):
    raise ValueError(f"{word} is no number")
