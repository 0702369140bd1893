"""Modules over MQTT, by python3-paho-mqtt and any broker. Its session is a lasting one: while the station is away the
broker keeps each report for it, and of each value the last."""
import functools
import threading
import uuid

from paho.mqtt import client as paho

from adapters import topics
from adapters.adapter import Adapter
from adapters.told import DONE, PARAMETER, REFUSED, SERVICE, VARIABLE
from package.told import short

ONCE_AT_LEAST, ONCE_AT_MOST = 1, 0
# In this order, so that it is known first whether a module is there. Values are taken at most once, or the broker would
# keep each one for a station that is away, until it has no place for reports.
SUBSCRIBED = ((topics.LINK, ONCE_AT_LEAST), (topics.ANSWER, ONCE_AT_LEAST), ((SERVICE, "+"), ONCE_AT_LEAST),
              ((PARAMETER, "+", "+", "+"), ONCE_AT_MOST), ((VARIABLE, "+"), ONCE_AT_MOST))
LONGEST_PAUSE, LEAVE, MOST_REASON = 5, 30, 500


class Mqtt(Adapter):
    """`name` is that of the station's session at the broker: another station there needs another one. `keep_alive` is
    after how many seconds without a word the broker is asked for one."""

    def __init__(self, turns, listener, host, port, name="station", wait=5.0, keep_alive=10):
        super().__init__(turns, listener, wait)
        self.keep_alive = keep_alive
        self.where, self.life, self.early, self.is_connected = (host, port), uuid.uuid4().hex, {}, False
        self.client = paho.Client(client_id=name, clean_session=False)
        self.client.reconnect_delay_set(1, LONGEST_PAUSE)
        self.client.on_connect = lambda *words: turns.put(functools.partial(self.connected, words[3]))
        self.client.on_connect_fail = lambda *_: turns.put(functools.partial(self.cut_off, "it can't be reached"))
        self.client.on_disconnect = lambda *_: turns.put(functools.partial(self.cut_off, "the connection broke"))
        # The broker forgets a message once this comes back.
        self.client.on_message = lambda *words: turns.hand(functools.partial(self.came, words[2]))

    def open(self):
        self.client.connect_async(*self.where, keepalive=self.keep_alive)
        self.client.loop_start()

    def close(self):
        """Takes leave of the broker. What comes until then is dealt with as ever, so this isn't for the listener to
        call."""
        self.client.disconnect()
        has_left = threading.Event()
        threading.Thread(target=self.leave_broker, args=(has_left,), daemon=True).start()
        self.turns.until(has_left.is_set, LEAVE)

    def leave_broker(self, has_left):
        """Waits for paho's thread, which may itself wait for a turn."""
        self.client.loop_stop()
        self.turns.put(has_left.set)

    def subscribe(self, tag):
        self.early[tag] = {}
        if self.is_connected:
            self.client.subscribe([(topics.topic(tag, place), quality) for place, quality in SUBSCRIBED])

    def unsubscribe(self, tag):
        self.early.pop(tag, None)
        if self.is_connected:
            self.client.unsubscribe([topics.topic(tag, place) for place, _ in SUBSCRIBED])

    def send(self, number, tag, place, items):
        payload = topics.packed({"id": f"{self.life}.{number}", "items": items})
        sent = self.client.publish(topics.topic(tag, place, topics.SET), payload, qos=ONCE_AT_MOST)
        if sent.rc == paho.MQTT_ERR_NO_CONN:
            why = "the connection to the broker just broke, so nothing was sent"
            self.turns.put(functools.partial(self.ended, number, REFUSED, why))

    # What comes of the broker.

    def connected(self, code):
        if code:
            self.cut_off(paho.connack_string(code))
            return
        self.is_connected = True
        for tag in self.followed:
            self.subscribe(tag)

    def cut_off(self, why):
        self.is_connected = False
        for tag in self.followed:
            self.gone(tag, f"the broker {self.where[0]}:{self.where[1]}: {why}")

    def came(self, message):
        tag, place = topics.place_of(message.topic)
        if not message.payload:
            return  # It only clears what the broker laid by.
        if tag not in self.followed:
            # An earlier station of this name followed it.
            self.unsubscribe(tag)
            return
        try:
            items = topics.unpacked(message.payload)
        except topics.Unreadable as fault:
            self.odd(tag, place, str(fault))
            return
        if place == topics.LINK:
            self.linked(tag, items)
        elif place == topics.ANSWER:
            self.answered(items)
        elif message.retain and not self.is_of_now(tag, items):
            self.early[tag][place] = items
        else:
            self.early[tag].pop(place, None)
            self.took(tag, place, items)

    def is_of_now(self, tag, items):
        """Whether what the broker had laid by holds now: the module is there, in the life in which it told this. Else
        it may be of any age, and waits until the module is there in that life."""
        module = self.followed[tag]
        return module.is_there and module.life == life_of(items)

    def linked(self, tag, items):
        if items.get("there") is not True:
            says_so = items.get("there") is False
            self.gone(tag, "its connection to the broker broke" if says_so else "its link isn't in its form")
            return
        self.there(tag, life_of(items))
        early, self.early[tag] = self.early[tag], {}
        for place, kept in early.items():
            if self.is_of_now(tag, kept):
                self.took(tag, place, kept)

    def answered(self, items):
        """An answer to a write; of those to an earlier life of the station nothing is known any more."""
        life, _, number = str(items.get("id", "")).rpartition(".")
        if life == self.life and number.isdecimal():
            why = items.get("refused")
            outcome = DONE if why is None else REFUSED
            self.ended(int(number), outcome, short(str(why), MOST_REASON) if outcome == REFUSED else "")


def life_of(items):
    return str(items.get(topics.LIFE, ""))
