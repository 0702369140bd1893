"""What is late: a service in a state that only passes, for longer than it should. `pol` has no clock."""
from adapters.codes import STATE_NAMES, STATES
from operating.alarms import now
from simulation.machine import BY_ITSELF

PASSING = {STATES[state] for state in BY_ITSELF} - {STATES["Execute"]}


class Late:
    """`since` has since when each service is in its state; `patience` is how many seconds one may only pass."""

    def __init__(self, turns, plant, alarms, patience):
        self.turns, self.plant, self.alarms, self.patience, self.since = turns, plant, alarms, patience, {}

    def reported(self, key, state):
        """A service is in this state now."""
        if key in self.since and self.since[key][0] == state:
            return
        mark = self.since[key] = (state, now())
        self.alarms.clear("late", *key)
        if state in PASSING:
            self.turns.later(self.patience, lambda: self.ask(key, mark))

    def ask(self, key, mark):
        view = self.plant.view(*key)
        if self.since.get(key) is mark and view and view["StateCur"] == mark[0]:
            self.alarms.set(("late", *key), "late", tag=key[0], service=key[1], state=mark[0], began=mark[1],
                            name=STATE_NAMES[mark[0]])

    def left(self, tag):
        for key in [key for key in self.since if key[0] == tag]:
            del self.since[key]
