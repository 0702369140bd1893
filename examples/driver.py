"""A driver: asks `pol` line by line over two pipes, and goes on after a crash.

It stands between `pol` and the modules. `Plant` is what you write: it sends a command to a module. What the modules report
comes to `Driver.ask` as events, one at a time. The parts are told in docs/FORMATS.md, "For who writes a driver".
"""
import json
import os
import subprocess


class Plant:
    """Sends commands to modules: here it only prints them."""

    def command(self, done, settings):
        """`done` is a log entry that sends a command; `settings` are to be written to the module before it."""
        print("send", done, "after writing", settings)

    def again(self, done, settings):
        """The last command before a crash, which may not have gone out: look at the module, and send it where it didn't."""
        print("look whether this arrived:", done)


class Driver:
    def __init__(self, journal, plant, program="./pol"):
        self.plant, self.charts, self.recipes, self.last = plant, {}, {}, None
        self.pol = subprocess.Popen([program, "--job", "replay"], stdin=subprocess.PIPE, stdout=subprocess.PIPE)
        self.journal = open(journal, "a+b")
        self.journal.seek(0)
        old = self.journal.read()
        self.journal.truncate(old.rfind(b"\n") + 1)  # a last line that a crash cut off was never asked
        for line in old[:old.rfind(b"\n") + 1].splitlines():  # the old lines again: their answers are read, not carried out
            if line.strip(b" \t\r"):
                self.learn(line, self.answer(line))
        if self.last:
            plant.again(*self.last)

    def answer(self, line):
        """The answer to one line. It comes before the next line is asked for, so nobody waits for more."""
        self.pol.stdin.write(line + b"\n")
        self.pol.stdin.flush()
        return json.loads(self.pol.stdout.readline())

    def learn(self, line, answer):
        """Keeps each chart and each batch's recipe, since an answer doesn't repeat a step's settings; and the last command."""
        event = json.loads(line) if "bad" not in answer else {}
        done = answer.get("did", {})
        if done.get("do") in ("start", "finish", "reset", "stop", "hold", "unhold", "asked"):
            self.last = done, self.settings(event["batch"], done["step"]) if done["do"] == "start" else []
        if answer == {"done": True}:
            if event["ev"] == "recipe":
                self.charts[event["recipe"]] = event["chart"]
            if event["ev"] == "start":
                self.recipes[event["batch"]] = event["recipe"]

    def ask(self, **event):
        """Tells an event and does what the answer says. The line is on the disk before it is asked."""
        line = json.dumps(event).encode()
        self.journal.write(line + b"\n")
        self.journal.flush()
        os.fsync(self.journal.fileno())
        said, answer = self.last, self.answer(line)
        self.learn(line, answer)
        if self.last is not said:
            self.plant.command(*self.last)
        return answer

    def settings(self, batch, step):
        """The settings of a step, found in the chart of the batch's recipe."""
        nodes = [self.charts[self.recipes[batch]]]
        while nodes:
            node = nodes.pop()
            if isinstance(node, dict) and node.get("step") == step:
                return node.get("settings", [])
            nodes += node.values() if isinstance(node, dict) else node if isinstance(node, list) else []
        return []

    def close(self):
        """Ends the journal: what follows the answers, a line for each batch and the end line."""
        self.pol.stdin.close()
        return self.pol.stdout.read()
