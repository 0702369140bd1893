"""Batches: one is taken along once something that it may wait for changed, and only where `pol` says beforehand that it
would do something. So no advance is kept that only waited."""
import dataclasses

from operating.alarms import now
from operating.past import SENDS

# What isn't asked for while its module is away from the broker: it would be a command to nobody. A Stop and a Hold of
# one service don't hold up those of others.
HELD_BACK = ("start", "finish", "reset", "unhold")
MOST_STEPS = 1000


@dataclasses.dataclass(frozen=True)
class Wait:
    """What a batch waits for, as an advance would be answered, and since when."""
    answer: dict
    since: int


class Batches:
    """`waits` has what each open batch waits for; `is_there` says whether a module is, `closed` is told what ended."""

    def __init__(self, turns, plant, is_there, closed):
        self.turns, self.plant, self.is_there, self.closed = turns, plant, is_there, closed
        self.due, self.waits, self.is_asked = {}, {}, False

    def touch(self, tag):
        """Something of a module changed."""
        self.want(self.plant.batches_of(tag))

    def want(self, batches):
        """These batches may go on. They do in a turn of their own, behind what came before."""
        self.due.update(dict.fromkeys(batches))
        if self.due and not self.is_asked:
            self.is_asked = True
            self.turns.put(self.step)

    def step(self):
        """One batch does one thing, and then others have their turn."""
        self.is_asked = False
        if self.due:
            batch = next(iter(self.due))
            del self.due[batch]
            self.want([batch] if self.advance(batch) else [])

    def go_on(self, batches):
        """Takes batches along at once until they wait or are over."""
        for batch in batches:
            for _ in range(MOST_STEPS):
                if not self.advance(batch):
                    break

    def advance(self, batch):
        """Lets a batch do its next thing. Gives whether it did one, and isn't over."""
        event = {"ev": "advance", "batch": batch}
        would = self.plant.would(event)
        if "did" in would and self.is_held_back(would["did"]):
            would = {"wait": "Gone", "tag": would["did"]["tag"]}
        if "did" not in would and "closed" not in would:
            self.wait(batch, would)
            return False
        answer = self.plant.tell(event)
        self.waits.pop(batch, None)
        if "closed" in answer:
            self.over(batch)
        return "did" in answer

    def is_held_back(self, did):
        return did["do"] in HELD_BACK and did["do"] in SENDS and not self.is_there(did["tag"])

    def wait(self, batch, answer):
        """A batch that waits for the same thing as before waits since then. One that the policy doesn't let go on waits
        too; one that is over is refused, and waits for nothing."""
        if "refused" in answer:
            self.waits.pop(batch, None)
        elif batch not in self.waits or self.waits[batch].answer != answer:
            self.waits[batch] = Wait(answer, now())
            self.plant.changed()

    def over(self, batch):
        self.waits.pop(batch, None)
        self.due.pop(batch, None)
        self.closed(batch)
