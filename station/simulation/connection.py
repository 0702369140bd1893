"""The connection of a simulated module to the broker: it says that it is there, tells, and hears what is written to
it."""
import contextlib
import functools
import socket
import threading

from paho.mqtt import client as paho

from adapters import topics
from adapters.told import PARAMETER, SERVICE

ONCE_AT_LEAST = 1
HEARD = ((SERVICE, "+", topics.SET), (PARAMETER, "+", "+", "+", topics.SET))
KEEP_ALIVE, LONGEST_WAIT = 60, 2
IS_GONE = {"there": False}


class Connection:
    """`up` is called once the broker has it, `heard` with the place and the payload of each write, both as turns. A
    broker that goes is tried again and again."""

    def __init__(self, turns, tag, broker, up, heard):
        self.turns, self.tag, self.broker, self.up, self.heard = turns, tag, broker, up, heard
        self.client, self.is_up, self.last = None, False, None

    def open(self, life):
        """A new connection; of an old one nothing is left. What is written meanwhile isn't kept: a command that comes
        late does harm."""
        client = self.client = paho.Client(client_id=f"module-{self.tag}", clean_session=True)
        client.reconnect_delay_set(1, 1)
        client.will_set(topics.topic(self.tag, topics.LINK), topics.packed(IS_GONE), ONCE_AT_LEAST, retain=True)
        client.on_connect = lambda *words: self.turns.put(functools.partial(self.connected, client, life, words[3]))
        client.on_disconnect = lambda *_: self.turns.put(functools.partial(self.broke, client))
        client.on_message = lambda *words: self.turns.put(functools.partial(self.came, client, words[2]))
        client.connect_async(*self.broker, keepalive=KEEP_ALIVE)
        client.loop_start()

    def connected(self, client, life, code):
        if client is self.client and code == 0:
            self.is_up = True
            client.subscribe([(topics.topic(self.tag, place), ONCE_AT_LEAST) for place in HEARD])
            self.tell(topics.LINK, {"there": True, topics.LIFE: life})
            self.up()

    def broke(self, client):
        if client is self.client:
            self.is_up = False

    def came(self, client, message):
        if client is self.client:
            self.heard(topics.place_of(message.topic)[1][:-1], message.payload)

    def tell(self, place, items, is_kept=True):
        """Tells all items of a place. The broker lays them by for who comes later."""
        if self.is_up:
            self.last = self.client.publish(topics.topic(self.tag, place), topics.packed(items), ONCE_AT_LEAST, is_kept)

    def lose(self):
        """Breaks without a goodbye, as when a cable is pulled: the broker tells that the module is gone. What was told
        before is out."""
        client, self.client = self.client, None
        if client is None:
            return
        # Those that are raised say that the connection broke by itself just now.
        with contextlib.suppress(ValueError, RuntimeError):
            if self.is_up:
                self.last.wait_for_publish(LONGEST_WAIT)
        self.is_up = False
        client.on_disconnect = lambda *_: client.disconnect()
        connected = client.socket()
        with contextlib.suppress(OSError):
            if connected:
                connected.shutdown(socket.SHUT_RDWR)
        if not connected:
            client.disconnect()

    def close(self):
        """Says that the module goes, and takes leave."""
        if self.client:
            self.tell(topics.LINK, IS_GONE)
            leave(self.client)
            self.client = None


def leave(client):
    """Takes leave of the broker, and waits a little until it has it."""
    has_left = threading.Event()
    client.on_disconnect = lambda *_: has_left.set()
    is_connected = client.is_connected()
    client.disconnect()
    if is_connected:
        has_left.wait(LONGEST_WAIT)
