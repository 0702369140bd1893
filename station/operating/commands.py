"""Commands: each that `pol` answers with is sent once, behind its settings, and followed until a report shows its
effect. Where nobody knows whether one arrived, what the module reports decides."""
import dataclasses

from adapters.codes import BY_HAND, BY_RECIPE
from adapters.told import DONE, UNANSWERED
from operating import machine
from operating.alarms import now
from operating.past import Given

# In seconds: in which a command has its effect, in which a connection that is back has told all, and how old a command
# may be that is sent without a person's word.
EFFECT, SETTLE, LATE = 3.0, 2.0, 60.0
WAITS, WRITES, SENT, STANDS = "waits", "writes", "sent", "stands"


@dataclasses.dataclass
class Order:
    """A command until its effect shows. It waits for its module, is written, was sent, or stands until a person says
    what is to be. `life` is that of the module when it may have been sent first; None where it never was."""
    given: Given
    phase: str = WAITS
    left: list = dataclasses.field(default_factory=list)
    life: str | None = None
    is_last: bool = False

    @property
    def key(self):
        return self.given.tag, self.given.service


class Commands:
    """`adapter` reaches the modules, `lives` has the life of each that is there."""

    def __init__(self, turns, plant, alarms, notes):
        self.turns, self.plant, self.alarms, self.notes = turns, plant, alarms, notes
        self.adapter, self.lives, self.open, self.writes, self.stuck = None, {}, {}, {}, {}

    def take_up(self, given):
        """The commands behind which no report came, as the history has them when the station begins."""
        for each in given:
            if each.name not in self.notes.over:
                self.open[each.tag, each.service] = Order(each, life=self.notes.sent.get(each.name))

    def give(self, given):
        """A command that an answer asks for. It takes the place of one that is still open there."""
        order = Order(given)
        self.drop(order.key)
        self.open[order.key] = order
        if given.tag in self.lives:
            self.begin(order)
        else:
            self.alarm(order, "not_sent")

    def begin(self, order):
        """Sends a command: first what is to be set, then the command itself."""
        given = order.given
        self.alarms.clear("command", *order.key)
        order.life, order.left, order.is_last = self.lives[given.tag], list(given.settings), False
        self.notes.note(sends=given.name, life=order.life)
        self.go_on(order)

    def go_on(self, order):
        given, by = order.given, BY_HAND if order.given.is_by_hand else BY_RECIPE
        order.phase, order.is_last = WRITES, not order.left
        try:
            if order.left:
                name, value = order.left.pop(0)
                number = self.adapter.set_parameter(given.tag, given.service, given.procedure, name, value, by)
            else:
                number = self.adapter.command(given.tag, given.service, given.code, given.procedure, by)
        except LookupError as fault:
            self.stand(order, "unfit", str(fault))
            return
        self.writes[number] = order

    def written(self, told):
        """How a write ended. Only once a setting is done the next thing is written."""
        order = self.writes.pop(told.number, None)
        if order is None or self.open.get(order.key) is not order or order.phase != WRITES:
            return
        if told.outcome == DONE and not order.is_last:
            self.go_on(order)
        elif told.outcome == DONE or told.outcome == UNANSWERED and order.is_last:
            order.phase = SENT
            why = "unanswered" if told.outcome == UNANSWERED else "no_effect"
            self.turns.later(0 if told.outcome == UNANSWERED else EFFECT, lambda: self.ask_effect(order, why))
        elif order.given.tag not in self.lives:
            order.phase = WAITS
        else:
            self.stand(order, told.outcome, told.why)

    def ask_effect(self, order, why):
        """By now a command should have had its effect."""
        if self.open.get(order.key) is order and order.phase == SENT:
            self.stand(order, why)

    def reported(self, tag, service, state):
        """A service reported a state: so its command arrived, or it still is where it was."""
        order = self.open.get((tag, service))
        if order and machine.had_effect(order.given.code, order.given.before, state):
            self.drop(order.key)

    def closed(self, batch):
        """A batch is over: what it didn't send yet isn't sent."""
        for key, order in list(self.open.items()):
            if order.given.batch == batch and not order.given.outlives():
                self.drop(key)

    def drop(self, key):
        self.open.pop(key, None)
        self.alarms.clear("command", *key)

    # Connections that break, and commands of which nobody knows.

    def gone(self, tag):
        self.lives.pop(tag, None)
        for order in self.of_module(tag):
            if order.phase in (WRITES, SENT):
                order.phase = WAITS

    def back(self, tag, life):
        self.lives[tag] = life
        self.turns.later(SETTLE, lambda: self.decide(tag))

    def of_module(self, tag):
        return [order for key, order in list(self.open.items()) if key[0] == tag]

    def decide(self, tag):
        """What is to become of the commands that wait, now that the module told all."""
        for order in self.of_module(tag):
            if order.phase == WAITS and tag in self.lives and order.key not in self.stuck:
                self.decide_one(order)

    def decide_one(self, order):
        given, view = order.given, self.plant.view(*order.key)
        if view is None or given.before is None:
            self.stand(order, "unreported")
        elif machine.had_effect(given.code, given.before, view["StateCur"]):
            self.drop(order.key)
        elif order.life not in (None, self.lives[given.tag]):
            self.stand(order, "restarted")
        elif given.is_by_hand or now() - given.at > LATE * 1000:
            self.stand(order, "old")
        elif not view["CommandEn"] & given.code:
            self.stand(order, "not_enabled")
        else:
            self.begin(order)

    def again(self, tag, service):
        """A person's word to send a command again. Gives whether there is one, and its module is there."""
        order = self.open.get((tag, service))
        if order is None or order.phase not in (STANDS, WAITS) or tag not in self.lives:
            return False
        self.begin(order)
        return True

    def forget(self, tag, service):
        """A person's word that a command isn't wanted any more. Gives whether there was one."""
        order = self.open.get((tag, service))
        if order is None:
            return False
        self.notes.note(over=order.given.name)
        self.drop(order.key)
        return True

    def stand(self, order, code, why=""):
        order.phase = STANDS
        self.alarm(order, code, why)

    def alarm(self, order, code, why=""):
        given = order.given
        self.alarms.set(("command", given.tag, given.service), f"command_{code}", tag=given.tag, service=given.service,
                        command=given.code, why=why, batch=given.batch, deeds=["again", "forget"])
