"""Reports on their way from modules to `pol`: those that it has are left out, states that were passed unseen are told
where there is one way alone, and else a person is asked which way a service went."""
import dataclasses

from adapters.codes import STATES
from operating import machine
from operating.commands import SETTLE

ABORTED = [STATES["Aborting"], STATES["Aborted"]]


@dataclasses.dataclass(frozen=True)
class Stuck:
    """A report that `pol` refuses, since no edge leads there from `start`."""
    fields: dict
    start: int
    is_restarted: bool

    def way(self):
        """The states by which the service may have gone."""
        return machine.shortest_way(self.start, self.fields["StateCur"])


class Reports:
    """By service: `stuck` has what was refused. `unsure` are those of which the next report may be an old one, and
    `held` has it; `restarted` are those whose module was."""

    def __init__(self, turns, plant, alarms, commands, batches, notes):
        self.turns, self.plant, self.alarms, self.commands = turns, plant, alarms, commands
        self.batches, self.notes, self.stuck = batches, notes, commands.stuck
        self.unsure, self.held, self.restarted = set(), {}, set()

    def back(self, tag, life):
        """A module is there. What comes first of its services may have been told before the connection broke."""
        self.unsure |= {key for key in self.plant.past.reports if key[0] == tag}
        if self.notes.lives.get(tag, life) != life:
            self.restarted |= {key for key in self.plant.past.reports if key[0] == tag}
        if self.notes.lives.get(tag) != life:
            self.notes.note(tag=tag, life=life)

    def left(self, tag):
        """Nothing that came of a module counts any more."""
        for known in (self.stuck, self.held):
            for key in [key for key in known if key[0] == tag]:
                del known[key]
        self.unsure, self.restarted = ({key for key in keys if key[0] != tag} for keys in (self.unsure, self.restarted))

    def take(self, told):
        """A report as an adapter tells it."""
        key, fields = (told.tag, told.service), told.fields
        if key in self.unsure and key not in self.held and self.may_be_old(key, fields):
            self.held[key] = fields
            self.turns.later(SETTLE, lambda: self.release(key, fields))
            return
        self.unsure.discard(key)
        self.held.pop(key, None)
        self.tell(key, fields)

    def may_be_old(self, key, fields):
        """Whether this is the report before the last one, which a broker may hand over once more. Then the last one
        comes next; where nothing does, it was new."""
        return fields == self.plant.past.before_last(*key) and fields != self.plant.view(*key)

    def release(self, key, fields):
        if self.held.get(key) is fields:
            del self.held[key]
            self.unsure.discard(key)
            self.tell(key, fields)

    def tell(self, key, fields):
        """Tells `pol` a report, unless it has it."""
        module = self.plant.module(key[0])
        if module is None or module["ticket"] is not None:
            return
        if fields != self.plant.view(*key):
            answer = self.tell_one(key, fields)
            if answer.get("rule") == "NotAnEdge":
                self.missed(key, fields, answer["from"])
                return
            if "done" not in answer:
                self.alarms.set(("report", *key), "report_refused", tag=key[0], service=key[1], answer=answer)
                return
        self.settle(key)

    def tell_one(self, key, fields, by=None):
        answer = self.plant.tell({"ev": "report", "tag": key[0], "service": key[1], **fields}, by)
        if "done" in answer:
            self.commands.reported(*key, fields["StateCur"])
            self.batches.touch(key[0])
        return answer

    def settle(self, key):
        """The service is as `pol` has it."""
        self.restarted.discard(key)
        self.alarms.clear("report", *key)
        if self.stuck.pop(key, None):
            self.alarms.clear("stuck", *key)
            self.commands.decide(key[0])

    # States that were passed unseen.

    def missed(self, key, fields, start):
        """A report that doesn't follow from the last one. In one life of the module, and where its state machine leaves
        one way alone, the service went that way."""
        is_restarted = key in self.restarted
        way = None if is_restarted else self.only_way(key, fields, start)
        if way is not None:
            self.tell_way(key, fields, way)
            return
        self.stuck[key] = stuck = Stuck(fields, start, is_restarted)
        self.alarms.set(("stuck", *key), "restarted" if is_restarted else "missed", tag=key[0], service=key[1],
                        start=start, state=fields["StateCur"], way=stuck.way(),
                        deeds=["restarted", "passed"] if is_restarted else ["passed", "restarted"])

    def only_way(self, key, fields, start):
        order = self.commands.open.get(key)
        code = order.given.code if order else None
        return machine.only_way(start, fields["StateCur"], code, self.is_self_completing(key, fields["ProcedureCur"]))

    def is_self_completing(self, key, number):
        services = self.plant.past.descriptions[key[0]]["services"]
        found = next(each for each in services if each["name"] == key[1])
        return any(each["number"] == number and each["self_completing"] for each in found["procedures"])

    def tell_way(self, key, fields, way, by=None):
        """Tells the states that were passed, whose masks nobody knows, and then the one that there is."""
        for state in way:
            self.tell_one(key, {**fields, "StateCur": state, "CommandEn": 0}, by)
        answer = self.tell_one(key, fields, by)
        if "done" in answer:
            self.settle(key)
        return answer

    # What a person says of that.

    def first_event(self, deed, tag, service):
        """The first report that such a word tells: by that `pol` says whether the person may give it."""
        stuck = self.stuck[tag, service]
        states = ABORTED if deed == "restarted" else [*stuck.way(), stuck.fields["StateCur"]]
        fields = {**stuck.fields, "StateCur": states[0], "CommandEn": 0}
        return {"ev": "report", "tag": tag, "service": service, **fields}

    def passed(self, tag, service, by):
        """A person's word that the service went through the states between. Gives what `pol` answered."""
        stuck = self.stuck.get((tag, service))
        return self.tell_way((tag, service), stuck.fields, stuck.way(), by) if stuck else None

    def aborted(self, tag, service, by):
        """A person's word that the module was restarted, so that the step didn't end: it is told as aborted, its batch
        goes on until it is closed, and then the way to what the service reports is told."""
        key, stuck = (tag, service), self.stuck.get((tag, service))
        if stuck is None:
            return None
        for state in ABORTED:
            answer = self.tell_one(key, {**stuck.fields, "StateCur": state, "CommandEn": 0}, by)
            if "done" not in answer:
                return answer
        self.batches.go_on(self.plant.batches_of(tag))
        return self.tell_way(key, stuck.fields, machine.shortest_way(ABORTED[-1], stuck.fields["StateCur"]), by)
