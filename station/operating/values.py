"""Values on their way from modules to `pol`: only those that an open batch tests, each at most so often, and none of
bad quality. The page has all of them."""
import dataclasses

from operating.pol import MOST_AT_ONCE

# In seconds: how often one value is told at most, since a history has room for 200,000 entries; and for how long values
# are gathered, since those that are told together are kept together.
EVERY, GATHER = 0.5, 0.05


@dataclasses.dataclass
class Shown:
    """What a variable shows. `is_good` is whether it may be decided by."""
    value: object
    is_good: bool


class Values:
    """`shown` has each variable of each module by its tag and name."""

    def __init__(self, turns, plant, alarms, batches, every=EVERY):
        self.turns, self.plant, self.alarms, self.batches, self.every = turns, plant, alarms, batches, every
        self.shown, self.resting, self.due = {}, set(), {}

    def take(self, told):
        key = told.tag, told.variable
        self.shown[key] = Shown(told.value, True)
        self.alarms.clear("quality", *key)
        self.plant.changed()
        self.tell(key)

    def bad(self, tag, variable, why):
        """A value of bad quality. `pol` goes on deciding by the last good one: there is no event that takes it back."""
        old = self.shown.get((tag, variable))
        self.shown[tag, variable] = Shown(old.value if old else None, False)
        self.alarms.set(("quality", tag, variable), "quality", tag=tag, variable=variable, why=why)

    def left(self, tag):
        for key in [key for key in self.shown if key[0] == tag]:
            del self.shown[key]

    def tell(self, key):
        """A value is told soon, with others, where it is one to be told."""
        if self.is_news(key):
            if not self.due:
                self.turns.later(GATHER, self.tell_all)
            self.due[key] = None

    def is_news(self, key):
        """Whether a value is tested, good, not as it was told, and wasn't told just now."""
        shown = self.shown.get(key)
        return (shown is not None and shown.is_good and key not in self.resting and self.is_tested(*key)
                and self.plant.value(*key) != shown.value)

    def tell_all(self):
        """Tells the values that were gathered, as they are now. Of many each group has a turn of its own."""
        keys, self.due = [key for key in self.due if self.is_news(key)], {}
        keys, later = keys[:MOST_AT_ONCE], keys[MOST_AT_ONCE:]
        if later:
            self.due = dict.fromkeys(later)
            self.turns.put(self.tell_all)
        self.plant.tell_all([{"ev": "variable", "tag": tag, "name": name, "value": self.shown[tag, name].value}
                             for tag, name in keys])
        for key in keys:
            self.rest(key)
            self.batches.touch(key[0])

    def rest(self, key):
        """A value was just told; the next one waits a little."""
        self.resting.add(key)

        def wake():
            self.resting.discard(key)
            self.tell(key)
        self.turns.later(self.every, wake)

    def is_tested(self, tag, variable):
        """Whether an open batch tests it, on a module that isn't away."""
        module = self.plant.module(tag)
        if module is None or module["ticket"] is not None:
            return False
        batches = self.plant.open_batches()
        return any((role, variable) in self.plant.past.tested(batches[name]["recipe"])
                   for name in self.plant.batches_of(tag) for role in roles_of(batches[name], tag))

    def started(self, tags):
        """A batch was started on these modules, so more of their values may be tested."""
        for key in [key for key in self.shown if key[0] in tags]:
            self.tell(key)


def roles_of(batch, tag):
    """The roles that a module plays in a batch."""
    return [role for role, played in {**batch["bind"], **batch["watch"]}.items() if played == tag]
