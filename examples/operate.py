#!/usr/bin/env python3
"""operate.py SITE POLICY FOLDER BY [PROGRAM]: a driver of the operated plant that is kept in FOLDER under POLICY. It
follows SITE, the file of a site: it plugs its modules, tells its recipes, and runs its batches, which it starts in the
name of BY, until all are closed. Exchanges and commands of the site it passes over.

It stands between `pol` and the modules. It asks for the state of the plant, also after a crash, and keeps nothing of it
but the names of the batches that it started, in FOLDER/started: a plant that was renewed doesn't list those that are
closed. It asks what an event would do before it gives one, so no wait gets into the history. `Module` is what you
write; here it is simulated. docs/FORMATS.md says more: "For who writes a driver", "Questions to an operated plant".
"""
import json
import pathlib
import subprocess
import sys

IDLE, EXECUTE = 16, 64
# The code of the command that a log entry sends, and the states through which a service goes by it.
COMMANDS = {"start": 4, "finish": 1024, "reset": 2, "stop": 8, "hold": 16, "unhold": 32}
WAYS = {4: [8, EXECUTE], 1024: [65536, 131072], 2: [32768, IDLE], 8: [128, 4], 16: [1024, 2048], 32: [4096, EXECUTE]}
# The commands that a service takes in a state, as the sum of their codes; none while it is on its way.
ENABLED = {IDLE: 4, EXECUTE: 1048, 131072: 2, 4: 2, 2048: 40}


class Module:
    """A module. Here each of its services goes on by one state a round; yours reads and writes a real one."""

    def __init__(self, tag, desc, sim):
        self.tag, self.services, self.drifts = tag, {each["name"]: each for each in desc["services"]}, sim["drift"]
        self.states, self.ways = {}, {service: [IDLE] for service in self.services}
        self.procedures, self.values = dict.fromkeys(self.services, 0), {}
        self.unread = []  # What it tells stays here until `pol` has it, as in the queue of a subscription.

    def command(self, code, service, procedure, settings):
        """Takes a command. Settings and procedure are to be written to the module before it is sent."""
        self.procedures[service] = procedure or self.procedures[service]
        self.ways[service] = list(WAYS[code])

    def completes(self, service):
        """Whether the procedure that runs completes by itself."""
        return any(each["number"] == self.procedures[service] and each.get("self_completing")
                   for each in self.services[service].get("procedures", []))

    def go_on(self):
        for service, way in self.ways.items():
            if not way and self.states[service] == EXECUTE and self.completes(service):
                way += WAYS[COMMANDS["finish"]]
            if way:
                state = self.states[service] = way.pop(0)
                self.unread.append(("report", {
                    "service": service, "StateCur": state, "CommandEn": ENABLED.get(state, 0), "Mode": "Automatic",
                    "Src": "External", "ProcedureCur": self.procedures[service]}))
        for drift in self.drifts:
            old = self.values.get(drift["name"])
            new = drift["from"] if old is None else min(old + drift["by"], drift["to"])
            if old is None or new != old and EXECUTE in self.states.values():
                self.values[drift["name"]] = new
                self.unread.append(("variable", {"name": drift["name"], "value": new}))


class Pol:
    """A run of the job operate: a line in, a line out."""

    def __init__(self, policy, folder, program):
        # It runs in the plant's folder, from where a place such as ./pol isn't the same.
        place = pathlib.Path(program).resolve() if "/" in program else program
        self.process = subprocess.Popen([place, "--job", "operate"], cwd=folder, stdin=subprocess.PIPE,
                                        stdout=subprocess.PIPE)
        self.at = self.line(policy)["kept"]

    def line(self, line):
        self.process.stdin.write(json.dumps(line).encode() + b"\n")
        self.process.stdin.flush()
        answer = self.process.stdout.readline()
        if not answer:
            raise ConnectionError(f"pol ended with status {self.process.wait()}")
        return json.loads(answer)

    def ask(self, what, **fields):
        """The answer to a question, which changes nothing."""
        return self.line({"ask": what, **fields})[what]

    def tell(self, kind, **fields):
        """The answer to an event, which is on the disk by then. The stamps count the events."""
        self.at += 1
        return self.line({"ev": kind, "at": self.at, **fields})

    def close(self):
        """Ends the run. What follows the answers: a line for each batch, and the end line."""
        return self.process.communicate()[0]


class Started:
    """The names of the batches that were started, each a line of a file."""

    def __init__(self, path):
        self.path, self.names = path, set(path.read_text().split()) if path.exists() else set()

    def note(self, name):
        if name not in self.names:
            self.names.add(name)
            with open(self.path, "a") as file:
                print(name, file=file)


class Driver:
    def __init__(self, site, modules, by, pol, started):
        self.site, self.modules, self.by, self.pol, self.started = site, modules, by, pol, started
        stands = pol.ask("plant")
        self.send_again(stands)
        there = [module["tag"] for module in stands["modules"]]
        for each in site["modules"]:
            if each["tag"] not in there:
                pol.tell("plug", tag=each["tag"], desc=each["desc"])
        for each in site["recipes"]:
            if each["recipe"] not in stands["recipes"]:
                pol.tell("recipe", **each)

    def send_again(self, stands):
        """After a crash nobody may have read the last answer. A command in it is sent where it has no effect yet: where
        its service is in the state that was reported last."""
        last = self.pol.ask("entries", **{"from": max(stands["entries"] - 1, 0)})
        done = last[0]["answer"].get("did", {}) if last else {}
        if done.get("do") in COMMANDS:
            views = {(module["tag"], each["name"]): each["view"] for module in stands["modules"]
                     for each in module["services"]}
            place = done["tag"], done["service"]
            if views[place] and self.modules[place[0]].states.get(place[1]) == views[place]["StateCur"]:
                self.send(done, self.settings(stands, last[0]["event"]["batch"], done["step"]))

    def settings(self, stands, batch, step):
        """The settings of a step, by the recipe of its batch. An entry of the history doesn't repeat them."""
        recipe = next(each["recipe"] for each in stands["batches"] if each["batch"] == batch)
        nodes = [each["chart"] for each in self.site["recipes"] if each["recipe"] == recipe]
        for node in nodes:
            if isinstance(node, dict) and node.get("step") == step:
                return node.get("settings", [])
            nodes += node.values() if isinstance(node, dict) else node if isinstance(node, list) else []
        return []

    def send(self, done, settings):
        """Sends the command that a log entry asks for, if it asks for one."""
        if done["do"] in COMMANDS:
            self.modules[done["tag"]].command(COMMANDS[done["do"]], done["service"], done.get("procedure"), settings)

    def gives(self, kind, **fields):
        """Gives an event where it would do something, and sends what it asks for. Whether it did something."""
        would = self.pol.ask("would", event={"ev": kind, "at": self.pol.at + 1, **fields})
        if not {"done", "did", "closed"}.intersection(would):
            return False
        answer = self.pol.tell(kind, **fields)
        if "did" in answer:
            self.send(answer["did"], answer.get("settings", []))
        return "closed" not in answer

    def go_on(self):
        """A round: tells what the modules tell, and then each batch does what it can. Whether one is left."""
        for module in self.modules.values():
            module.go_on()
            while module.unread:
                kind, fields = module.unread[0]
                self.pol.tell(kind, tag=module.tag, **fields)
                module.unread.pop(0)
        outcomes = {each["batch"]: each["outcome"] for each in self.pol.ask("plant")["batches"]}
        for name in outcomes:
            self.started.note(name)
        left = [batch for batch in self.site["batches"]
                if batch["batch"] not in self.started.names or outcomes.get(batch["batch"]) == "Running"]
        for batch in left:
            name = batch["batch"]
            if name not in self.started.names and self.gives("start", by=self.by, **batch):
                self.started.note(name)
            while name in self.started.names and self.gives("advance", batch=name):
                pass
        return bool(left)


def main(site, policy, folder, by, program="./pol"):
    site, policy = (json.load(open(path)) for path in (site, policy))
    modules = {each["tag"]: Module(**each) for each in site["modules"]}
    driver = Driver(site, modules, by, Pol(policy, folder, program), Started(pathlib.Path(folder) / "started"))
    while driver.go_on():
        pass
    print(driver.pol.close().decode(), end="")


if __name__ == "__main__":
    main(*sys.argv[1:])
