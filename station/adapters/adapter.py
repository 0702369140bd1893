"""What a station asks of its modules' connections, whatever carries them. A transport is made by the calls that end in
NotImplementedError here, and tells what it meets by `there`, `gone`, `took`, `odd` and `ended`."""
import dataclasses
import itertools

from adapters import forms
from adapters.codes import BY_RECIPE, CHOOSES, COMMANDS, MODES, SOURCES
from adapters.told import (PARAMETER, REFUSED, SERVICE, UNANSWERED, VARIABLE, Back, Bad, Gone, Report, Setting,
                           Value, Written)

# Where a parameter's value stands, and a view's: the text of a StringView may have a name of its own.
VALUES = {PARAMETER: ("VOut",), VARIABLE: ("V", "Text")}


@dataclasses.dataclass
class Followed:
    """A module that is followed: its map, whether it is there (None where nobody knows yet) in which life, and what was
    told last of each place."""
    map: dict
    is_there: bool | None = None
    life: str = ""
    last: dict = dataclasses.field(default_factory=dict)


class Adapter:
    """All calls come from the thread that runs the turns, and the listener is called in that thread, once for each
    thing told. A transport that can hold back what isn't dealt with yet forgets it only once the listener came back."""

    def __init__(self, turns, listener, wait):
        """`wait` is how many seconds a write may go without an answer."""
        self.turns, self.listener, self.wait = turns, listener, wait
        self.followed, self.pending, self.numbers = {}, {}, itertools.count(1)

    # What a station calls.

    def open(self):
        """Begins to connect. Modules that were followed before this lose nothing that was kept for the station."""
        raise NotImplementedError

    def close(self):
        raise NotImplementedError

    def follow(self, tag, map):
        """From here on tells what the module of this map does: first whether it is there, and each place as it is
        now."""
        if tag in self.followed:
            self.leave(tag)
        self.followed[tag] = Followed(map)
        self.subscribe(tag)

    def leave(self, tag):
        """Tells nothing more of a module."""
        del self.followed[tag]
        self.unsubscribe(tag)

    def set_parameter(self, tag, service, procedure, parameter, value, by=BY_RECIPE):
        """Writes a setting, in the numbers of a recipe. This and the calls below give the number of the write; how it
        ended is told by a Written. The module has the setting from its next Start on."""
        entry = self.entry(tag, (PARAMETER, service, str(procedure), parameter))
        return self.write(tag, (PARAMETER, service, str(procedure), parameter),
                          {f"V{by}": forms.of_module(entry, value)})

    def command(self, tag, service, code, procedure=None, by=BY_RECIPE):
        """Writes a command by its code, a Start behind its procedure."""
        asked = {f"Procedure{by}": procedure} if code == COMMANDS["Start"] and procedure is not None else {}
        return self.write(tag, (SERVICE, service), {**asked, f"Command{by}": code})

    def choose(self, tag, service, word):
        """Puts a service into a mode, or gives it a source, as an operator does."""
        return self.write(tag, (SERVICE, service), {(MODES | SOURCES)[word] + CHOOSES: True})

    # What a transport gives.

    def subscribe(self, tag):
        raise NotImplementedError

    def unsubscribe(self, tag):
        raise NotImplementedError

    def send(self, number, tag, place, items):
        """Writes items at a place, in their order, and once only: a command that comes late does harm."""
        raise NotImplementedError

    # What a transport tells.

    def there(self, tag, life):
        """The module is there."""
        module = self.followed.get(tag)
        if module is None or module.is_there and module.life == life:
            return
        if module.is_there:
            self.gone(tag, "it was started anew")
        module.is_there, module.life = True, life
        self.listener(Back(tag, life))

    def gone(self, tag, why):
        """The module isn't there."""
        module = self.followed.get(tag)
        if module is not None and module.is_there is not False:
            module.is_there = False
            self.listener(Gone(tag, why))

    def took(self, tag, place, items):
        """All items of a place came, of one moment. What is as it was told last isn't told again."""
        entry = self.entry_or_none(tag, place)
        if entry is not None:
            try:
                self.tell(tag, place, made_of(tag, place, entry, items))
            except forms.Unfit as fault:
                self.odd(tag, place, str(fault))

    def odd(self, tag, place, why):
        """What came of a place can't be passed on."""
        if self.entry_or_none(tag, place) is not None:
            self.tell(tag, place, Bad(tag, place, why))

    def ended(self, number, outcome, why=""):
        """A write ended. Of several words on it the first counts."""
        if number in self.pending:
            self.listener(Written(self.pending.pop(number), number, outcome, why))

    # What both stand on.

    def tell(self, tag, place, thing):
        module = self.followed[tag]
        if module.last.get(place) != thing:
            module.last[place] = thing
            self.listener(thing)

    def write(self, tag, place, items):
        """Sends items to a module that is there. To one that is gone nothing is sent."""
        known = self.entry(tag, place)["items"]
        lacking = [name for name in items if name not in known]
        if lacking:
            raise LookupError(f"{'/'.join(place)} of {tag} has no item {', '.join(lacking)} in its map")
        number = next(self.numbers)
        self.pending[number] = tag
        if self.followed[tag].is_there:
            self.send(number, tag, place, items)
            self.turns.later(self.wait, lambda: self.ended(number, UNANSWERED, f"no answer within {self.wait:g} s"))
        else:
            self.turns.put(lambda: self.ended(number, REFUSED, f"{tag} is gone, so nothing was sent"))
        return number

    def entry(self, tag, place):
        """What the map has of a place."""
        found = self.entry_or_none(tag, place)
        if found is None:
            is_followed = tag in self.followed
            raise LookupError(f"no {'/'.join(place)} in the map of {tag}" if is_followed else f"{tag} isn't followed")
        return found

    def entry_or_none(self, tag, place):
        module = self.followed.get(tag)
        return entry_of(module.map, place) if module else None


def entry_of(map, place):
    """The entry of a map at a place; None where it has none."""
    match place:
        case (kind, name) if kind == SERVICE:
            return map["services"].get(name)
        case (kind, name) if kind == VARIABLE:
            return map["variables"].get(name)
        case (kind, service, procedure, name) if kind == PARAMETER:
            procedures = map["services"].get(service, {}).get("procedures", {})
            return procedures.get(procedure, {}).get("params", {}).get(name)
    return None


def places_of(map):
    """All places of a map, services first."""
    services = [(SERVICE, name) for name in map["services"]]
    parameters = [(PARAMETER, service, number, name) for service, each in map["services"].items()
                  for number, procedure in each["procedures"].items() for name in procedure["params"]]
    return services + parameters + [(VARIABLE, name) for name in map["variables"]]


def made_of(tag, place, entry, items):
    """What is told of a place by its items."""
    if place[0] == SERVICE:
        return Report(tag, place[1], forms.report_of(items))
    value = forms.value_of(entry, items, VALUES[place[0]])
    if place[0] == VARIABLE:
        return Value(tag, place[1], value)
    return Setting(tag, place[1], int(place[2]), place[3], value)
