"""All simulated modules of one call, in one thread, and the topic by which they are told what to do wrong."""
import functools
import time
import uuid

from paho.mqtt import client as paho

from adapters import topics
from adapters.turns import Turns
from simulation.connection import leave
from simulation.refused import Refused
from simulation.simulated import Simulated

STEP, ONCE_AT_LEAST, KEEP_ALIVE = 0.05, 1, 60
ANY_TAG = "+"


class Plant:
    """Runs modules, each by its tag. `up` is called with the tag of each module that the broker has now."""

    def __init__(self, modules, broker, faster, up):
        self.turns, self.faster, self.now, self.has_begun = Turns(), faster, time.monotonic(), False
        self.modules = {tag: Simulated(self.turns, tag, module, broker, faster, up) for tag, module in modules.items()}
        self.client = paho.Client(client_id=f"simulate-{uuid.uuid4().hex}")
        self.client.reconnect_delay_set(1, 1)
        self.client.on_connect = lambda client, *_: client.subscribe(topics.topic(ANY_TAG, topics.FAULT), ONCE_AT_LEAST)
        self.client.on_subscribe = lambda *_: self.turns.put(self.begin)
        self.client.on_message = lambda *words: self.turns.put(functools.partial(self.fault, words[2]))
        self.client.connect_async(*broker, keepalive=KEEP_ALIVE)
        self.client.loop_start()

    def begin(self):
        """Connects the modules, now that a fault that is asked for is heard."""
        if not self.has_begun:
            self.has_begun = True
            for simulated in self.modules.values():
                simulated.begin()

    def run(self, is_over):
        """Goes on until it is over."""
        self.step()
        self.turns.until(is_over, float("inf"))

    def step(self):
        """Lets as much time pass as has passed, and comes again."""
        before, self.now = self.now, time.monotonic()
        for simulated in self.modules.values():
            simulated.step((self.now - before) * self.faster)
        self.turns.later(STEP, self.step)

    def fault(self, message):
        """A fault that is asked for is answered as a write is."""
        tag, _ = topics.place_of(message.topic)
        if tag not in self.modules:
            return
        answer = {}
        try:
            items = topics.unpacked(message.payload)
            answer["id"] = str(items.get("id", ""))
            self.modules[tag].fail(items)
        except (topics.Unreadable, Refused) as fault:
            answer["refused"] = str(fault)
        self.client.publish(topics.topic(tag, topics.ANSWER), topics.packed(answer), ONCE_AT_LEAST)

    def close(self):
        for simulated in self.modules.values():
            simulated.close()
        leave(self.client)
