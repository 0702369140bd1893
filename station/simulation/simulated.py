"""A simulated module on its connection: tells what changes, answers what is written, and does wrong what it is told
to."""
import functools
import uuid

from adapters import topics
from adapters.forms import quoted
from adapters.told import SERVICE
from simulation import faults
from simulation.connection import Connection
from simulation.faults import Faults
from simulation.refused import Refused

TELL_EVERY = 0.25


class Simulated:
    """`faster` is how many seconds of the simulation a second has."""

    def __init__(self, turns, tag, module, broker, faster, up):
        self.turns, self.tag, self.module, self.faster, self.up = turns, tag, module, faster, up
        self.faults, self.told, self.since_values, self.slow = Faults(), {}, 0.0, 0.0
        self.kept, self.life = [], uuid.uuid4().hex
        self.connection = Connection(turns, tag, broker, self.connected, self.heard)

    def begin(self):
        self.connection.open(self.life)

    def connected(self):
        """Tells what a service went through while the connection was lost, then everything as it is now."""
        kept, self.kept, self.told = self.kept, [], {}
        for place, items in kept:
            self.put(place, items)
        self.tell(self.module.places)
        self.up(self.tag)

    def step(self, seconds):
        """Goes on for so many seconds of the simulation, and tells what changed: values before the states that come of
        them."""
        before = {name: service.state for name, service in self.module.services.items()}
        self.module.step(seconds)
        self.since_values += seconds / self.faster
        passes = any(service.state != before[name] for name, service in self.module.services.items())
        if passes or self.since_values >= TELL_EVERY:
            self.since_values = 0.0
            self.tell(place for place in self.module.places if place[0] != SERVICE)
        self.tell(place for place in self.module.places if place[0] == SERVICE)

    def tell(self, places):
        """Tells what isn't as it was told last."""
        for place in places:
            items = self.module.items(place)
            if self.told.get(place) != items:
                self.told[place] = items
                if place[0] != SERVICE or not self.faults.skips():
                    self.put(place, items)

    def put(self, place, items):
        if self.connection.is_up:
            self.connection.tell(place, {**items, topics.LIFE: self.life})
        elif place[0] == SERVICE:
            self.kept.append((place, items))

    # What is written.

    def heard(self, place, payload):
        """Carries a write out and answers it, or does with it what a fault says."""
        try:
            number, items = topics.written(payload)
        except topics.Unreadable:
            return  # Nobody can be answered.
        is_command = any(item.startswith("Command") for item in items)
        fault = self.faults.of_next_command() if is_command else faults.AS_EVER
        refused = "it was told to refuse this" if fault == faults.REFUSE else None
        if faults.IS_CARRIED_OUT[fault]:
            refused = self.carry_out(place, items)
        if faults.IS_ANSWERED[fault]:
            answer = {"id": number} if refused is None else {"id": number, "refused": refused}
            self.turns.later(self.slow / self.faster, functools.partial(self.answer, answer))
        self.tell(self.module.places)

    def answer(self, answer):
        self.connection.tell(topics.ANSWER, answer, is_kept=False)

    def carry_out(self, place, items):
        """Why it isn't; None where it is."""
        try:
            self.module.write(place, items)
        except Refused as fault:
            return str(fault)
        return None

    # What goes wrong.

    def fail(self, items):
        """Does what a fault says."""
        fault, words = faults.read(items)
        if fault in faults.IS_CARRIED_OUT:
            self.faults.commands += [fault] * words["count"]
        elif fault == faults.SKIP:
            self.faults.skipped += words["count"]
        elif fault == faults.SLOW:
            self.slow = self.module.slowness = words["seconds"]
        elif fault == faults.QUALITY:
            self.spoil(words["place"], words["code"])
        else:
            self.lose(words["seconds"], fault == faults.RESTART)

    def spoil(self, text, code):
        place = tuple(text.split("/")) if isinstance(text, str) else ()
        if place not in self.module.places:
            places = ", ".join("/".join(each) for each in self.module.places[:5])
            raise Refused(f"quality: place is {quoted(text)}; the module has {places}, ..")
        self.module.quality[place] = code
        self.tell([place])

    def lose(self, seconds, is_restart):
        """The connection is lost for so many seconds; the module goes on, or is off meanwhile and begins anew."""
        self.connection.lose()
        if is_restart:
            self.module.begin()
            self.kept, self.told, self.life = [], {}, uuid.uuid4().hex
        life = self.life
        self.turns.later(seconds / self.faster, lambda: self.come_back(life))

    def come_back(self, life):
        """The connection is opened again, if nothing else was told meanwhile."""
        if life == self.life and self.connection.client is None:
            self.connection.open(life)

    def close(self):
        self.connection.close()
