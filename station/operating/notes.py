"""The station's own file: which commands went out, and in which life of their modules; and what a shorter file of the
plant doesn't tell any more. It is written before a command is sent, so that after a crash one that was never sent is
told from one of which nobody knows."""
import dataclasses
import json
import os

from operating.left import Left

NAME, DENIED = "station.jsonl", "denied.jsonl"


class Notes:
    """`sent` has the life of the module by the command's name, `over` the commands that a person doesn't want any more,
    `lives` the last life of each module. Of earlier files of the plant `unplugged` has the tags whose modules were
    unplugged by hand, `named` is the highest number of a batch, and `left` are the services that closed batches left
    running."""

    def __init__(self, folder):
        self.path, self.denied_path = folder / NAME, folder / DENIED
        self.sent, self.over, self.lives, self.unplugged, self.named, self.left = {}, set(), {}, set(), 0, {}
        for told in lines_of(self.path):
            self.take(told)
        self.file = None

    def take(self, told):
        if "sends" in told:
            self.sent[tuple(told["sends"])] = told["life"]
        if "over" in told:
            self.over.add(tuple(told["over"]))
        if "tag" in told:
            self.lives[told["tag"]] = told["life"]
        if "unplugged" in told:
            self.unplugged, self.named = set(told["unplugged"]), told["named"]
        if "left" in told:
            self.left = {(tag, service): Left(tag, service, *more) for tag, service, *more in told["left"]}

    def begin(self, given):
        """Writes the file anew with what still counts: the lives, and these commands."""
        counts = {each.name for each in given}
        self.sent, self.over = {key: life for key, life in self.sent.items() if key in counts}, self.over & counts
        fresh = self.path.with_suffix(".new")
        with open(fresh, "w", encoding="utf-8") as file:
            for key, life in self.sent.items():
                put(file, {"sends": key, "life": life})
            for key in self.over:
                put(file, {"over": key})
            for tag, life in self.lives.items():
                put(file, {"tag": tag, "life": life})
            put(file, {"unplugged": sorted(self.unplugged), "named": self.named})
            put(file, {"left": told_of(self.left)})
            keep(file)
        os.replace(fresh, self.path)
        if self.file:
            self.file.close()
        self.file = open(self.path, "a", encoding="utf-8")

    def note(self, **told):
        """Keeps a note, on the disk once this comes back."""
        self.take(told)
        put(self.file, told)
        keep(self.file)

    def note_left(self, left):
        """Keeps which services closed batches left running, where that changed."""
        if left != self.left:
            self.note(left=told_of(left))

    def deny(self, event, answer):
        """Keeps a line that the policy denied: it is in no history."""
        with open(self.denied_path, "a", encoding="utf-8") as file:
            put(file, {"answer": answer, "event": event})

    def close(self):
        self.file.close()


def told_of(left):
    return [dataclasses.astuple(each) for each in left.values()]


def put(file, told):
    file.write(json.dumps(told, separators=(",", ":")) + "\n")


def keep(file):
    file.flush()
    os.fsync(file.fileno())


def lines_of(path):
    """The lines of a file; one that a crash cut off says nothing."""
    if not path.exists():
        return
    for line in path.read_text(encoding="utf-8", errors="replace").splitlines():
        try:
            yield json.loads(line)
        except ValueError:
            continue
