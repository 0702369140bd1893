"""What stands in for a plant and an adapter, so that a part of a station is tried by itself, in moments that no real
module can be brought to."""
import collections
import pathlib
import tempfile

from adapters.codes import STATE_NAMES, STATES
from adapters.told import DONE, Written
from adapters.turns import Turns
from operating.alarms import Alarms, now
from operating.batches import Batches
from operating.commands import Commands
from operating.notes import Notes
from operating.past import FIELDS, Given
from operating.reports import Reports
from simulation.machine import BY_COMMAND, BY_ITSELF

TAG, SERVICE, KEY = "M1", "dose", ("M1", "dose")
LIFE, ALL = "one", 2047


def fields(state, mask=ALL, mode="Automatic", procedure=1):
    return dict(zip(FIELDS, (STATES[state], mask, mode, "External", procedure)))


def given(code, before="Idle", **more):
    """A command as an answer asks for it."""
    told = {"at": now(), "is_by_hand": False, "procedure": 1, "settings": (), "batch": "b", "step": "s",
            **more}
    return Given(tag=TAG, service=SERVICE, code=code, before=STATES[before], **told)


class Pretended:
    """A plant of one module that judges reports by the edges, and knows no batch but those that it is told of."""

    def __init__(self):
        self.told, self.views, self.reports, self.batches = [], {}, {}, []
        self.recipes, self.descriptions = {}, {TAG: {"services": [{"name": SERVICE, "procedures": [
            {"number": 1, "self_completing": True}, {"number": 2, "self_completing": False}]}]}}
        self.past, self.ticket, self.answers = self, None, collections.deque()

    def module(self, tag):
        return {"tag": tag, "ticket": self.ticket} if tag == TAG else None

    def view(self, *key):
        return self.views.get(key)

    def before_last(self, *key):
        told = self.reports.get(key, [])
        return told[-2] if len(told) > 1 else None

    def batches_of(self, tag):
        return self.batches if tag == TAG else []

    def would(self, _):
        return self.answers[0] if self.answers else {"wait": "Unmet", "step": "s"}

    def changed(self):
        """Nobody looks."""

    def tell(self, event, by=None):
        self.told.append({**event, **({"by": by} if by else {})})
        if event["ev"] != "report":
            return self.answers.popleft()
        key, old = (event["tag"], event["service"]), self.view(event["tag"], event["service"])
        if old and not is_edge(old["StateCur"], event["StateCur"]):
            return {"refused": 9, "rule": "NotAnEdge", "from": old["StateCur"], "to": event["StateCur"]}
        self.report(key, {name: event[name] for name in FIELDS})
        return {"done": True}

    def report(self, key, reported):
        self.views[key] = reported
        self.reports.setdefault(key, []).append(reported)

    def states(self):
        """The states that were told, in their order."""
        return [STATE_NAMES[event["StateCur"]] for event in self.told if event["ev"] == "report"]


def is_edge(one, other):
    one, other = STATE_NAMES[one], STATE_NAMES[other]
    return one == other or BY_ITSELF.get(one) == other or any(
        (start, end) == (one, other) for (start, _), end in BY_COMMAND.items())


class Wire:
    """An adapter that only keeps what is written, until a test says how it ended."""

    def __init__(self):
        self.written = []

    def set_parameter(self, tag, service, procedure, parameter, value, by):
        self.written.append((parameter, value, by))
        return len(self.written)

    def command(self, tag, service, code, procedure, by):
        self.written.append((code, procedure, by))
        return len(self.written)


class Parts:
    """The parts of a station that send and tell, on a pretended plant."""

    def __init__(self):
        self.room = tempfile.TemporaryDirectory(prefix="station-")
        self.turns, self.plant, self.alarms = Turns(), Pretended(), Alarms(lambda: None)
        self.begin()

    def begin(self):
        """Begins as after a crash: with the notes alone."""
        self.notes = Notes(pathlib.Path(self.room.name))
        self.notes.begin([])
        self.restart()

    def restart(self):
        self.commands = Commands(self.turns, self.plant, self.alarms, self.notes)
        self.wire = self.commands.adapter = Wire()
        self.batches = Batches(self.turns, self.plant, lambda tag: tag in self.commands.lives, self.commands.closed)
        self.reports = Reports(self.turns, self.plant, self.alarms, self.commands, self.batches, self.notes)

    def here(self, state="Idle", life=LIFE, **more):
        """The module is there, and its service is in this state."""
        self.plant.report(KEY, fields(state, **more))
        self.back(life)

    def back(self, life=LIFE):
        self.reports.back(TAG, life)
        self.commands.back(TAG, life)

    def end(self, outcome=DONE, why="", number=None):
        """The write that went out last ended so."""
        self.commands.written(Written(TAG, number or len(self.wire.written), outcome, why))

    def codes(self):
        return [alarm["code"] for alarm in self.alarms.shown()]

    def close(self):
        self.notes.close()
        self.room.cleanup()
