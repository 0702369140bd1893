"""A broker of its own for tests, modules simulated on it, and a station that keeps what it is told."""
import importlib.util
import json
import pathlib
import shutil
import signal
import socket
import subprocess
import sys
import tempfile
import threading
import time
import uuid

from adapters.codes import STATE_NAMES
from adapters.told import DONE, Report, Value, Written
from adapters.turns import Turns
from checks.reading import STATION, read_file

# Other work may load the machine: this long is waited for what should come at once, and this long for nothing to come.
PATIENCE, QUIET = 120, 0.3
FASTER = 20
PATH = "/usr/local/sbin:/usr/local/bin:/usr/sbin:/usr/bin:/sbin:/bin"
QUEUE = 200


def ask_for_needs():
    """Fails with what is to be installed."""
    lacking = [package for package, is_there in (
        ("mosquitto", shutil.which("mosquitto", path=PATH)),
        ("mosquitto-clients", shutil.which("mosquitto_pub", path=PATH)),
        ("python3-paho-mqtt", importlib.util.find_spec("paho"))) if not is_there]
    if lacking:
        raise AssertionError(f"this needs {' and '.join(lacking)} (apt-get install {' '.join(lacking)}; run it by "
                             "Debian's own /usr/bin/python3)")


def wait_until(is_so, what):
    """Waits for something that another thread or process does."""
    end = time.monotonic() + PATIENCE
    while not is_so():
        if time.monotonic() > end:
            raise AssertionError(f"not within {PATIENCE} s: {what}")
        time.sleep(0.01)


def is_listening(port):
    try:
        socket.create_connection(("127.0.0.1", port), timeout=1).close()
    except OSError:
        return False
    return True


def free_port():
    with socket.socket() as some:
        some.bind(("127.0.0.1", 0))
        return some.getsockname()[1]


class Broker:
    """A mosquitto on a port of its own. It keeps at most QUEUE messages for who is away; when it ends, only one whose
    messages are `kept` on its disk."""

    def __init__(self, kept=False):
        ask_for_needs()
        self.kept = kept
        self.folder = tempfile.TemporaryDirectory(prefix="station-")
        self.port = free_port()
        self.start()

    def start(self):
        configuration = pathlib.Path(self.folder.name) / "mosquitto.conf"
        lines = [f"listener {self.port} 127.0.0.1", "allow_anonymous true", f"max_queued_messages {QUEUE}"]
        if self.kept:
            lines += ["persistence true", f"persistence_location {self.folder.name}/", "user root"]
        configuration.write_text("\n".join(lines) + "\n")
        self.process = subprocess.Popen([shutil.which("mosquitto", path=PATH), "-c", configuration],
                                        stdin=subprocess.DEVNULL, stdout=subprocess.DEVNULL, stderr=subprocess.DEVNULL)
        wait_until(lambda: is_listening(self.port) or self.process.poll() is not None, "mosquitto listens")
        if self.process.poll() is not None:
            raise AssertionError(f"mosquitto ended with status {self.process.returncode}")

    def stop(self):
        """Ends it at once; one that keeps its messages writes them first."""
        self.process.send_signal(signal.SIGTERM if self.kept else signal.SIGKILL)
        self.process.wait(PATIENCE)

    def close(self):
        self.stop()
        self.folder.cleanup()


class Tester:
    """Speaks over the broker as a module, or asks simulated modules to do wrong."""

    def __init__(self, port):
        from paho.mqtt import client as paho
        self.answers, self.is_connected = {}, threading.Event()
        self.client = paho.Client(client_id=f"tester-{uuid.uuid4().hex}")
        self.client.on_connect = lambda client, *_: client.subscribe("mtp/+/answer", 1)
        self.client.on_subscribe = lambda *_: self.is_connected.set()
        self.client.on_message = lambda *words: self.answered(json.loads(words[2].payload))
        self.client.connect_async("127.0.0.1", port)
        self.client.loop_start()
        if not self.is_connected.wait(PATIENCE):
            raise AssertionError("the tester isn't connected")

    def answered(self, answer):
        self.answers[answer["id"]] = answer

    def put(self, topic, payload, is_kept=True):
        """Tells a payload, and waits until the broker has it."""
        text = payload if isinstance(payload, (str, bytes)) else json.dumps(payload)
        self.client.publish(topic, text, qos=1, retain=is_kept).wait_for_publish(PATIENCE)

    def fault(self, tag, fault, **words):
        """Asks for a fault; gives why it is refused, or None."""
        number = uuid.uuid4().hex
        self.put(f"mtp/{tag}/fault", {"id": number, "fault": fault, **words}, is_kept=False)
        wait_until(lambda: number in self.answers, f"{tag} answers {fault}")
        return self.answers[number].get("refused")

    def close(self):
        self.client.disconnect()
        self.client.loop_stop()


class Plant:
    """station/simulate with these modules, until it is closed."""

    def __init__(self, port, folder, modules, faster=FASTER):
        words = ["--broker", f"127.0.0.1:{port}", "--faster", str(faster),
                 *(f"{tag}={folder / package}" for tag, package in modules.items())]
        self.process = subprocess.Popen([sys.executable, STATION / "simulate", *words], stdin=subprocess.DEVNULL,
                                        stdout=subprocess.PIPE, text=True)
        self.up = sorted(self.process.stdout.readline().strip() for _ in modules)

    def close(self):
        self.process.send_signal(signal.SIGTERM)
        self.process.stdout.close()
        return self.process.wait(PATIENCE)


class Station:
    """An adapter over MQTT with all that it told. `maps` has the map of each module to follow by its tag."""

    def __init__(self, port, maps, name=None, wait=float(PATIENCE), listener=None):
        from adapters.mqtt import Mqtt
        self.told, self.turns, self.maps = [], Turns(), maps
        self.adapter = Mqtt(self.turns, listener or self.told.append, "127.0.0.1", port, name or uuid.uuid4().hex, wait,
                            keep_alive=PATIENCE)
        for tag, each in maps.items():
            self.adapter.follow(tag, each)
        self.adapter.open()

    def until(self, is_so, what):
        if not self.turns.until(is_so, PATIENCE):
            raise AssertionError(f"not within {PATIENCE} s: {what}; told last: {self.told[-12:]}")

    def until_told(self, kind, tag, since=0, **facts):
        """Waits for something of a kind with these facts, told since a place; gives it."""
        def found():
            return [each for each in self.told[since:] if isinstance(each, kind) and each.tag == tag
                    and all(getattr(each, name) == fact for name, fact in facts.items())]
        self.until(found, f"{kind.__name__} of {tag}, {facts}")
        return found()[0]

    def reports(self, tag, service, since=0):
        return [each.fields for each in self.told[since:]
                if isinstance(each, Report) and (each.tag, each.service) == (tag, service)]

    def states(self, tag, service, since=0):
        """The states that a service reported, each once in a row."""
        names = [STATE_NAMES[fields["StateCur"]] for fields in self.reports(tag, service, since)]
        return [name for place, name in enumerate(names) if place == 0 or names[place - 1] != name]

    def until_state(self, tag, service, state, since=0):
        self.until(lambda: self.states(tag, service, since)[-1:] == [state], f"{service} of {tag} is in {state}")

    def values(self, tag, variable, since=0):
        return [each.value for each in self.told[since:]
                if isinstance(each, Value) and (each.tag, each.variable) == (tag, variable)]

    def outcome(self, number):
        """How a write ended."""
        def found():
            return [each for each in self.told if isinstance(each, Written) and each.number == number]
        self.until(found, f"the write {number} ended")
        return found()[0].outcome, found()[0].why

    def do(self, number):
        """Waits until a write is done."""
        outcome, why = self.outcome(number)
        if outcome != DONE:
            raise AssertionError(f"a write is {outcome}: {why}")

    def close(self):
        self.adapter.close()


def maps_of(folder, modules):
    """The maps of packages by their tags."""
    return {tag: read_file(folder / package).plug.map for tag, package in modules.items()}
