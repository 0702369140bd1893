"""The services that a closed batch left running. Nothing takes them along any more and no wait tells of them, so a
person has to go and look, until each is at rest again or its module isn't there any more."""
import dataclasses

from adapters.codes import COMMANDS, STATE_NAMES
from simulation.machine import AT_REST


@dataclasses.dataclass(frozen=True)
class Left:
    """A service that a batch left when it was closed, at this stamp. One that was at rest and had just been told to
    start `has_begun` only once a report says so."""
    tag: str
    service: str
    batch: str
    at: int
    has_begun: bool


def is_at_rest(state):
    return STATE_NAMES.get(state) in AT_REST


class LeftRunning:
    """`known` has them by tag and service."""

    def __init__(self):
        self.known = {}

    def closed(self, key, batch, at, state, given):
        """A batch is over whose step here was active, or was left. `given` is the command that had no effect yet."""
        may_begin = given is not None and given.batch == batch and given.code == COMMANDS["Start"]
        if not is_at_rest(state) or may_begin:
            self.known[key] = Left(*key, batch, at, not is_at_rest(state))

    def reported(self, key, state):
        """What a service reports ends it, or shows that it began."""
        left = self.known.get(key)
        if left and not is_at_rest(state):
            self.known[key] = dataclasses.replace(left, has_begun=True)
        elif left and left.has_begun:
            del self.known[key]

    def others(self, keys):
        """What begins on these services from here on is somebody else's."""
        for key in keys:
            if key in self.known and not self.known[key].has_begun:
                del self.known[key]

    def of_module(self, tag):
        return [key for key in self.known if key[0] == tag]

    def docked(self, tag):
        for key in self.of_module(tag):
            del self.known[key]

    def remember(self, left, reports):
        """What was known of earlier files of the plant, where nothing that was reported since says otherwise."""
        for key, each in left.items():
            if key in reports and not (each.has_begun and is_at_rest(reports[key][-1]["StateCur"])):
                self.known.setdefault(key, each)

    def shown(self):
        """Those that run, the one that was left first before the others."""
        return sorted((each for each in self.known.values() if each.has_begun), key=lambda each: each.at)
