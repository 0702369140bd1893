"""The plant as `pol` has it: told events, and asked what stands there. What was told since the last question makes the
next one a new one; nothing of `pol`'s rules is known here. What was reported last the past has: by definition it is
what was taken last."""
import json

from operating.alarms import now
from operating.past import Past
from operating.pol import is_entry

BINDINGS, NEARLY_FULL = "bindings", 180_000
IS_REFUSED = ("refused", "denied", "bad")
# Events that change neither which modules there are, nor who holds and watches them, nor which batches are open. An
# advance does only where it closes one.
CHANGE_LITTLE = ("report", "variable", "recipe", "desk", "freeze", "thaw", "stop")


def is_permitted(answer):
    """Whether an event with this answer does what it asks for."""
    return not any(key in answer for key in IS_REFUSED)


class Plant:
    """`denied` is called with each event that the policy denied, `given` with each command that an answer asks for,
    `changed` where something is to be shown anew."""

    def __init__(self, pol, denied, given, changed):
        self.pol, self.denied, self.given, self.changed = pol, denied, given, changed
        self.past, self.fresh, self.answers, self.standing = Past(pol.entries()), {}, {}, None

    def tell(self, event, by=None):
        """Tells an event, for whom it names, and gives its answer."""
        event = {"ev": event["ev"], "at": now(), **event, **({"by": by} if by else {})}
        answer = self.pol.tell(event)
        self.take(event, answer, by)
        return answer

    def tell_all(self, events):
        """Tells several events for nobody, which are kept together."""
        events = [{"ev": event["ev"], "at": now(), **event} for event in events]
        for event, answer in zip(events, self.pol.tell_all(events)):
            self.take(event, answer, None)

    def take(self, event, answer, by):
        """An event was answered: what was asked before it holds no more."""
        self.fresh, self.answers = {}, {}
        if event["ev"] not in CHANGE_LITTLE and (event["ev"] != "advance" or "closed" in answer):
            self.standing = None
        if "denied" in answer:
            self.denied(event, answer)
        elif is_entry(answer):
            given = self.past.take({key: event[key] for key in event if key != "by"}, answer, by)
            if given:
                self.given(given)
        self.changed()

    def renew(self, change):
        """Has a change made to the file that keeps what stands here, while nothing has it open. Gives what `change`
        gave."""
        done = self.pol.between(change)
        self.fresh, self.answers, self.standing = {}, {}, None
        self.past.renew(self.pol.kept)
        self.changed()
        return done

    def would(self, event, by=None):
        """What an event would be answered now."""
        return self.would_all([(event, by)])[0]

    def would_all(self, asked):
        """The same for several events, each with who would give it. What was asked since the last event has its answer:
        that depends on the history alone."""
        keys = [(json.dumps(event), by) for event, by in asked]
        lacking = {key: pair for key, pair in zip(keys, asked) if key not in self.answers}
        questions = [{"ask": "would", "event": {"at": 0, **event, **({"by": by} if by else {})}}
                     for event, by in lacking.values()]
        self.answers |= {key: answer["would"] for key, answer in zip(lacking, self.pol.ask_all(questions))}
        return [self.answers[key] for key in keys]

    def bindings(self):
        """How each recipe could be bound now."""
        if BINDINGS not in self.answers:
            self.answers[BINDINGS] = self.pol.ask({"ask": "bindings"})["bindings"]
        return self.answers[BINDINGS]

    def state(self, by=None):
        """All that stands in the plant, with what this person may command."""
        if by not in self.fresh:
            self.fresh[by] = self.pol.ask({"ask": "plant", **({"by": by} if by else {})})["plant"]
        return self.fresh[by]

    def near(self):
        """The rules whose limits are nearly reached. An older program tells them not: then it is counted here."""
        state = self.state()
        return state["near"] if "near" in state else ["HistoryFull"] * (state["entries"] > NEARLY_FULL)

    # What seldom changes: it is asked anew only where it may have. Of a module that is who has it and its ticket, of a
    # batch what it binds; what a service reported isn't looked up here.

    def stands(self):
        """The modules by their tags, and the open batches by their names."""
        if self.standing is None:
            state = self.state()
            self.standing = ({module["tag"]: module for module in state["modules"]},
                             {batch["batch"]: batch for batch in state["batches"] if batch["outcome"] == "Running"})
        return self.standing

    def modules(self):
        return self.stands()[0]

    def module(self, tag):
        """A module that is docked or away; None where there is none."""
        return self.modules().get(tag)

    def open_batches(self):
        return self.stands()[1]

    def view(self, tag, service):
        """What a service reported last since its module was docked; None where it reported nothing."""
        told = self.past.reports.get((tag, service))
        return told[-1] if told else None

    def value(self, tag, variable):
        """The value by which `pol` decides; None where it was told none."""
        return self.past.values.get((tag, variable))

    def batches_of(self, tag):
        """The open batches that hold or watch a module, the one that holds it first."""
        module = self.module(tag)
        return [*filter(None, [module["holder"]]), *module["watchers"]] if module else []
