"""A plant for tests: a broker, simulated modules and station/run as processes of their own, on the program that was
built; what an operator sees and asks for over HTTP; and who hears all that goes over the broker."""
import contextlib
import http.client
import json
import pathlib
import shutil
import signal
import subprocess
import sys
import tempfile
import time
import urllib.request
import uuid

from adapters.codes import COMMANDS, STATE_NAMES
from checks import reading
from checks.broker import PATIENCE, Broker, Plant, Tester, free_port
from checks.reading import STATION

FASTER = 10
LEAD, SHIFT = "dan", "ann"
TAGS = {"DOS1": "doser.mtp", "DOS2": "doser-3.0.mtp", "MIX1": "mixer.mtp", "TNK1": "tank.mtp"}
UP = "the plant runs"
ENTRIES = {"ask": "entries", "from": 0, "most": 200000}


class Site:
    """The example as a folder, with the sample packages."""

    def __init__(self):
        self.room = tempfile.TemporaryDirectory(prefix="station-")
        self.folder = pathlib.Path(self.room.name) / "site"
        shutil.copytree(STATION / "example", self.folder)
        subprocess.run([sys.executable, STATION / "samples", self.folder / "packages"], check=True)

    def write(self, name, value):
        (self.folder / name).write_text(json.dumps(value))

    def close(self):
        self.room.cleanup()


class Listener:
    """Hears each state that a module tells, and each command and setting that is written to one, in their order."""

    HEARD = ("mtp/+/service/+", "mtp/+/service/+/set", "mtp/+/parameter/+/+/+/set")

    def __init__(self, port):
        from paho.mqtt import client as paho
        self.states, self.written = {}, []
        self.client = paho.Client(client_id=f"listener-{uuid.uuid4().hex}", clean_session=False)
        self.client.on_connect = lambda client, *_: client.subscribe([(topic, 1) for topic in self.HEARD])
        self.client.on_message = lambda *words: self.hear(words[2])
        self.client.reconnect_delay_set(1, 1)
        self.client.connect_async("127.0.0.1", port)
        self.client.loop_start()

    def hear(self, message):
        if not message.payload or message.retain:
            return
        _, tag, _, *place = message.topic.split("/")
        items = json.loads(message.payload)
        if place[-1] == "set":
            self.written += [(tag, "/".join(place[:-1]), value) for item, value in items["items"].items()
                             if item.startswith(("Command", "V"))]
            return
        told, state = self.states.setdefault((tag, place[0]), []), STATE_NAMES[items["StateCur"]]
        if told[-1:] != [state]:
            told.append(state)

    def starts(self, tag, service):
        """How often a service was started, and how often it was told to."""
        return (self.states.get((tag, service), []).count("Starting"),
                self.written.count((tag, service, COMMANDS["Start"])))

    def close(self):
        self.client.disconnect()
        self.client.loop_stop()


class Running:
    """station/run on a site, and its modules. Each part can be ended and begun again."""

    def __init__(self, faster=FASTER, kept=False, tags=None):
        self.site, self.broker = Site(), Broker(kept)
        if tags:
            self.site.write("site.json", {"modules": tags})
        self.modules = Plant(self.broker.port, self.site.folder / "packages", tags or TAGS, faster)
        self.tester, self.listener = Tester(self.broker.port), Listener(self.broker.port)
        self.port, self.process = free_port(), None

    # The station as a process.

    def up(self, *words):
        """Begins the station, and waits until its page is served."""
        self.process = subprocess.Popen(
            [sys.executable, STATION / "run", self.site.folder, "--pol", reading.PROGRAM[0],
             "--broker", f"127.0.0.1:{self.broker.port}", "--page", f"127.0.0.1:{self.port}", *words],
            stdin=subprocess.DEVNULL, stdout=subprocess.PIPE, text=True)
        if UP not in self.process.stdout.readline():
            raise AssertionError(f"the station ended with status {self.process.wait()}")

    def kill(self, word=signal.SIGKILL):
        self.process.send_signal(word)
        self.process.stdout.close()
        return self.process.wait(PATIENCE)

    def programs(self):
        """The processes that the station began: the program."""
        path = pathlib.Path(f"/proc/{self.process.pid}/task/{self.process.pid}/children")
        return [int(each) for each in path.read_text().split()]

    def close(self):
        if self.process and self.process.poll() is None:
            self.kill(signal.SIGTERM)
        self.listener.close()
        self.tester.close()
        self.modules.close()
        self.broker.close()
        self.site.close()

    # What a person does and sees.

    def do(self, deed, by=LEAD, **asked):
        """Asks for a deed, and gives the answer."""
        body = json.dumps({"do": deed, "by": by, **asked}).encode()
        request = urllib.request.Request(f"http://127.0.0.1:{self.port}/do", data=body,
                                         headers={"Content-Type": "application/json"})
        with urllib.request.urlopen(request, timeout=PATIENCE) as answer:
            return json.loads(answer.read())

    def ask_and_lose(self, deed):
        """Asks for a deed of a station that is killed before it answers."""
        with contextlib.suppress(OSError, http.client.HTTPException):
            self.do(deed)

    def live(self, by=LEAD):
        """What the page shows to a person."""
        with urllib.request.urlopen(f"http://127.0.0.1:{self.port}/live?by={by}", timeout=PATIENCE) as stream:
            for line in stream:
                if line.startswith(b"data: {"):
                    return Live(json.loads(line[6:]))
        raise AssertionError("the stream ended")

    def until(self, is_so, what, by=LEAD):
        """Waits until something is so of what the page shows; gives that."""
        end = time.monotonic() + PATIENCE
        while True:
            live = self.live(by)
            if is_so(live):
                return live
            if time.monotonic() > end:
                raise AssertionError(f"not within {PATIENCE} s: {what}: {json.dumps(live.told)[:4000]}")
            time.sleep(0.05)

    def until_state(self, tag, service, state):
        return self.until(lambda live: live.state(tag, service) == state, f"{service} of {tag} is in {state}")

    def until_closed(self, batch, outcome="Completed"):
        """Waits until a batch is over, as it should be."""
        live = self.until(lambda live: batch in live.outcomes(), f"{batch} is closed")
        if live.outcomes()[batch] != outcome:
            raise AssertionError(f"{batch} is {live.outcomes()[batch]}, not {outcome}")
        return live

    def until_alarm(self, code, is_there=True):
        return self.until(lambda live: (code in live.alarms()) == is_there, f"the alarm {code}: {is_there}")

    def until_ready(self):
        """All modules are there, and each service reported."""
        return self.until(lambda live: all(each["is_there"] and all(own["view"] for own in each["services"])
                                           for each in live.told["modules"]), "all modules are there")

    def fault(self, tag, fault, **words):
        why = self.tester.fault(tag, fault, **words)
        if why:
            raise AssertionError(f"{tag} refuses {fault}: {why}")

    def start(self, batch, recipe, **tags):
        """Starts a batch on a module for each role."""
        return self.do("start", batch=batch, recipe=recipe, tags=tags)

    # What the history has.

    def asked(self, question, folder=None):
        """The answer of a program that is begun once the station's is ended, or on another file."""
        lines = [json.loads((self.site.folder / "policy.json").read_text()), question]
        ran = subprocess.run([reading.PROGRAM[0], "--job", "operate"], cwd=folder or self.site.folder,
                             input="".join(json.dumps(line) + "\n" for line in lines).encode(),
                             stdout=subprocess.PIPE, check=True)
        return json.loads(ran.stdout.splitlines()[1])

    def entries(self):
        return self.asked(ENTRIES)["entries"]

    def files(self):
        """The entries of each file that the plant had, the oldest first, as those of the archive are read: each by its
        own."""
        for path in sorted((self.site.folder / "archive").glob("*.plant")):
            with tempfile.TemporaryDirectory(prefix="station-") as room:
                shutil.copy(path, pathlib.Path(room) / "pol.plant")
                (pathlib.Path(room) / "pol.plant").chmod(0o600)
                yield self.asked(ENTRIES, room)["entries"]
        yield self.entries()


class Live:
    """What the page shows, at one moment."""

    def __init__(self, told):
        self.told = told

    def module(self, tag):
        return next(each for each in self.told["modules"] if each["tag"] == tag)

    def service(self, tag, name):
        return next(each for each in self.module(tag)["services"] if each["name"] == name)

    def state(self, tag, name):
        view = self.service(tag, name)["view"]
        return STATE_NAMES[view["StateCur"]] if view else None

    def batch(self, name):
        return next((each for each in self.told["batches"] if each["batch"] == name), None)

    def wait(self, name):
        batch = self.batch(name)
        return ((batch or {}).get("wait") or {}).get("wait")

    def recipe(self, name):
        return next(each for each in self.told["recipes"] if each["recipe"] == name)

    def outcomes(self):
        return {each["batch"]: each["outcome"] for each in self.told["closed"]}

    def alarms(self):
        return {each["code"]: each for each in self.told["still"] if each["code"] != "batch"}
