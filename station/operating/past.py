"""What the history tells and no question does: the commands behind which no report came, the steps that are active,
recipes, descriptions, and what happened last. Made of the entries, as they stand there and as they come."""
import collections
import dataclasses
import re

from adapters.codes import COMMAND_NAMES, COMMANDS
from operating import machine
from operating.left import LeftRunning
from operating.standing import Standing, nodes

# What a batch's log says that sends a command, with that command.
SENDS = {"start": "Start", "finish": "Complete", "reset": "Reset", "stop": "Stop", "hold": "Hold", "unhold": "Unhold"}
# The commands that count though their batch is over.
OUTLIVES = ("Stop", "Hold", "Abort")
MOST_LAST = 60
# The names that the station gives to batches.
NAMED = re.compile("b([0-9]{1,9})")
FIELDS = ("StateCur", "CommandEn", "Mode", "Src", "ProcedureCur")


@dataclasses.dataclass(frozen=True)
class Entry:
    """An entry of the history, with who asked, where somebody was named. One of an earlier file has no place."""
    place: int | None
    event: dict
    answer: dict
    by: str | None


@dataclasses.dataclass(frozen=True)
class Given:
    """A command that an answer asks for. `before` is the state that its service had reported, `at` the event's
    stamp."""
    at: int
    tag: str
    service: str
    code: int
    is_by_hand: bool
    procedure: int | None
    settings: tuple
    batch: str | None
    step: str | None
    before: int | None

    @property
    def name(self):
        """By what it is known again, also in another file of the plant, where its entry stands elsewhere."""
        return self.at, self.tag, self.service, self.code

    def outlives(self):
        """Whether it is sent though its batch is over."""
        return COMMAND_NAMES[self.code] in OUTLIVES


def tests(value):
    """The role and the variable of each test in a part of a chart."""
    if isinstance(value, dict):
        if "test" in value:
            yield value["role"], value["test"]
        value = list(value.values())
    if isinstance(value, list):
        for each in value:
            yield from tests(each)


def number_in(batch):
    """The number in a batch's name, where it is one that the station gives."""
    found = NAMED.fullmatch(batch)
    return int(found[1]) if found else 0


class Past:
    """`reports` has the last two reports of each service since it was docked, the older first, `values` the last value
    of each variable, `standings` where each open batch stands, `named` the highest number in a batch's name, `left` the
    services that closed batches left running."""

    def __init__(self, entries):
        self.left, self.binds = LeftRunning(), {}
        self.recipes, self.descriptions, self.recipe_of, self.standings, self.tests_of = {}, {}, {}, {}, {}
        self.reports, self.values, self.given, self.unplugged, self.count, self.named = {}, {}, {}, set(), 0, 0
        self.last = collections.deque(maxlen=MOST_LAST)
        self.refused = collections.deque(maxlen=MOST_LAST)
        for each in entries:
            self.take(each["event"], each["answer"], each.get("by"))

    def take(self, event, answer, by):
        """An entry that stands in the history now. Gives the command that it asks for, or None."""
        entry = Entry(self.count, event, answer, by)
        self.count += 1
        self.last.append(entry)
        if "refused" in answer:
            self.refused.append(entry)
            return None
        if hasattr(self, f"take_{event['ev']}"):
            getattr(self, f"take_{event['ev']}")(event)
        if "closed" in answer:
            self.close(event["batch"], event["at"])
        return self.take_did(entry, answer["did"]) if "did" in answer else None

    # What each kind of event brings.

    def take_plug(self, event):
        self.dock(event["tag"])
        self.descriptions[event["tag"]] = event["desc"]
        self.unplugged.discard(event["tag"])

    take_exchange_end = take_plug

    def take_exchange_begin(self, event):
        self.dock(event["tag"])

    take_exchange_cancel = take_exchange_begin

    def take_unplug(self, event):
        self.dock(event["tag"])
        del self.descriptions[event["tag"]]
        self.unplugged.add(event["tag"])

    def dock(self, tag):
        """Nothing that was reported of a module counts any more."""
        for known in (self.reports, self.values, self.given):
            for key in [key for key in known if key[0] == tag]:
                del known[key]
        self.left.docked(tag)

    def take_report(self, event):
        key, fields = (event["tag"], event["service"]), {name: event[name] for name in FIELDS}
        self.reports.setdefault(key, collections.deque(maxlen=2)).append(fields)
        self.left.reported(key, fields["StateCur"])
        given = self.given.get(key)
        if given and machine.had_effect(given.code, given.before, fields["StateCur"]):
            del self.given[key]

    def take_variable(self, event):
        self.values[event["tag"], event["name"]] = event["value"]

    def take_recipe(self, event):
        self.recipes[event["recipe"]] = event

    def take_start(self, event):
        self.recipe_of[event["batch"]] = event["recipe"]
        self.named = max(self.named, number_in(event["batch"]))
        self.standings[event["batch"]] = Standing(self.recipes[event["recipe"]]["chart"])
        self.binds[event["batch"]] = event["bind"]
        for tag in event["bind"].values():
            self.left.others(self.left.of_module(tag))

    def close(self, batch, at):
        """A batch is over: what it asked for and nobody sent isn't sent any more. What it runs goes on without it."""
        for key in self.unended(batch):
            if key in self.reports:
                self.left.closed(key, batch, at, self.reports[key][-1]["StateCur"], self.given.get(key))
        for known in (self.standings, self.recipe_of, self.binds):
            known.pop(batch, None)
        for key, given in list(self.given.items()):
            if given.batch == batch and not given.outlives():
                del self.given[key]

    def take_did(self, entry, did):
        """What a batch did, or an operator asked for."""
        if "batch" in entry.event:
            self.standings[entry.event["batch"]].take(did)
        if did["do"] not in SENDS and did["do"] != "asked":
            return None
        given = self.given_by(entry, did)
        if given.is_by_hand:
            self.left.others([(given.tag, given.service)])
        self.given[given.tag, given.service] = given
        return given

    def given_by(self, entry, did):
        is_by_hand, batch, step = did["do"] == "asked", entry.event.get("batch"), did.get("step")
        told = self.reports.get((did["tag"], did["service"]))
        return Given(entry.event["at"], did["tag"], did["service"],
                     did["command"] if is_by_hand else COMMANDS[SENDS[did["do"]]], is_by_hand, did.get("procedure"),
                     self.settings_told(entry, did), batch, step, told[-1]["StateCur"] if told else None)

    def settings_told(self, entry, did):
        """The settings of a step that starts: of the answer, or, since an entry doesn't say them, of the recipe."""
        if did["do"] != "start":
            return ()
        told = entry.answer.get("settings") or self.settings(entry.event["batch"], did["step"])
        return tuple((each["name"], each["value"]) for each in told)

    # A shorter file.

    def remember(self, unplugged, named, left):
        """What earlier files of the plant told, and this one doesn't."""
        self.unplugged, self.named = self.unplugged | unplugged, max(self.named, named)
        self.left.remember(left, self.reports)

    def renew(self, count):
        """From here on the plant has a file of so many entries. What was known of it holds on; only where an entry
        stood says nothing any more."""
        self.count = count
        for known in (self.last, self.refused):
            placeless = [dataclasses.replace(each, place=None) for each in known]
            known.clear()
            known.extend(placeless)

    # What is asked of it.

    def step_of(self, batch, step):
        """A step as the recipe of a batch has it."""
        chart = self.recipes[self.recipe_of[batch]]["chart"]
        return next(node for node in nodes(chart) if node.get("step") == step)

    def unended(self, batch):
        """The services that have a step of a batch that is active, or was left as it ran."""
        steps = [self.step_of(batch, step) for step in self.standings[batch].unended()]
        return [(self.binds[batch][step["role"]], step["service"]) for step in steps]

    def settings(self, batch, step):
        """What the recipe of a batch sets for a step."""
        return self.step_of(batch, step).get("settings", [])

    def roles(self, recipe):
        """The roles of a recipe, each with its type, and whether its module is only read."""
        known = self.recipes[recipe]
        stepped = {node["role"] for node in nodes(known["chart"]) if "step" in node}
        return [{"role": each["role"], "type": each["type"], "is_read": each["role"] not in stepped}
                for each in known["roles"]]

    def tested(self, recipe):
        """The role and the variable of each test of a recipe, which never changes."""
        if recipe not in self.tests_of:
            self.tests_of[recipe] = set(tests(self.recipes[recipe]["chart"]))
        return self.tests_of[recipe]

    def before_last(self, tag, service):
        """The report before the last one of a service; None where there is none."""
        told = self.reports.get((tag, service), ())
        return told[0] if len(told) == 2 else None
