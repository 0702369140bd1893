"""What a simulated module does wrong when it is told to, over the topic `mtp/TAG/fault`."""
import dataclasses
import decimal

from adapters.forms import quoted
from package.told import short
from simulation.refused import Refused

MOST_SECONDS, MOST_TIMES = 3600.0, 1000
# What becomes of the next commands: whether one is carried out, and whether it is answered.
REFUSE, DROP, IGNORE, MUTE = "refuse", "drop", "ignore", "mute"
AS_EVER = "as ever"
IS_CARRIED_OUT = {AS_EVER: True, MUTE: True, REFUSE: False, DROP: False, IGNORE: False}
IS_ANSWERED = {AS_EVER: True, REFUSE: True, IGNORE: True, MUTE: False, DROP: False}
# The others: the words of each, and what each word may be.
LOSE, RESTART, QUALITY, SLOW, SKIP = "lose", "restart", "quality", "slow", "skip"
SECONDS, TIMES, CODE = (0.0, MOST_SECONDS), (0, MOST_TIMES), (0, 255)
WORDS = {LOSE: {"seconds": SECONDS}, RESTART: {"seconds": SECONDS}, SLOW: {"seconds": SECONDS},
         QUALITY: {"code": CODE}, **{fault: {"count": TIMES} for fault in (SKIP, REFUSE, DROP, IGNORE, MUTE)}}
AT_FIRST = {"seconds": 0.0, "count": 1, "code": 0}
TEXTS = {QUALITY: ("place",)}


@dataclasses.dataclass
class Faults:
    """What is still to go wrong: the next commands, each with its fault, and how many reports aren't told."""
    commands: list = dataclasses.field(default_factory=list)
    skipped: int = 0

    def of_next_command(self):
        return self.commands.pop(0) if self.commands else AS_EVER

    def skips(self):
        """Whether the next report isn't told."""
        is_skipped = self.skipped > 0
        self.skipped -= is_skipped
        return is_skipped


def read(items):
    """A fault and its words, of what stood on the topic."""
    items = {key: item for key, item in items.items() if key != "id"}
    fault = items.pop("fault", None)
    if not isinstance(fault, str) or fault not in WORDS:
        raise Refused(f"{quoted(fault)} is no fault; there are {', '.join(WORDS)}")
    texts = {name: items.pop(name, "") for name in TEXTS.get(fault, ())}
    numbers = {name: number(fault, name, items.pop(name, AT_FIRST[name]), *bounds)
               for name, bounds in WORDS[fault].items()}
    if items:
        known = ", ".join((*WORDS[fault], *texts))
        raise Refused(f"{fault}: {short(', '.join(items))} isn't known; its words are {known}")
    return fault, {**texts, **numbers}


def number(fault, name, value, low, high):
    """A count or a code is a whole number; seconds are any number."""
    kinds = (int,) if isinstance(low, int) else (int, float, decimal.Decimal)
    if isinstance(value, bool) or not isinstance(value, kinds) or not low <= value <= high:
        raise Refused(f"{fault}: {name} is {quoted(value)}, not {low:g} to {high:g}")
    return type(low)(value)
