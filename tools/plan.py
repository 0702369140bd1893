"""What is left of a first run: its crates, side by side as `rt ci` proves them, by what each was measured to take.

`rt ci` begins what has the longest chain behind it, where there is memory for it, and gives a crate more jobs where
fewer are ready than there are processors.
"""
import typing

# Of a crate's proof so much can't be shared among jobs: chart_json took 196 seconds with one job and 100 with four.
ALONE = 0.35
MOST_JOBS = 4
# What one more job takes of the memory of the first.
MORE_MEMORY = 0.6
# So many seconds of a run are believed to be as planned, since the first crates are small and tell little of its speed.
BELIEVED = 120
# A crate that is being proved has so much of its proof ahead at least, however long that took so far.
LEAST_AHEAD = 0.1


class Machine(typing.NamedTuple):
    processors: int
    gigabytes: float


class Crate(typing.NamedTuple):
    """The crates that one stands on, the seconds of its proof, and the memory that `rt ci` wants to be free for it."""

    below: list
    seconds: float
    gigabytes: float


def longest_behind(crates):
    """Of each crate how long the longest chain is that begins with it."""
    behind = {}
    for name in reversed(crates):
        above = [behind[other] for other in behind if name in crates[other].below]
        behind[name] = crates[name].seconds + max(above, default=0)
    return behind


class Run:
    """A run by plan: what is proved by when, what runs until when, with how many jobs and how much memory."""

    def __init__(self, crates, machine):
        self.crates, self.machine, self.behind = crates, machine, longest_behind(crates)
        self.proved, self.running, self.now = {}, {}, 0.0

    def ready(self):
        """What can begin, the longest chain first."""
        waiting = [name for name in self.crates if name not in self.proved and name not in self.running]
        found = [name for name in waiting if all(low in self.proved for low in self.crates[name].below)]
        return sorted(found, key=self.behind.get, reverse=True)

    def begin(self, name, others):
        """Begins a crate where a processor and memory are free; others are ready beside it."""
        _, seconds, need = self.crates[name]
        idle = self.machine.processors - sum(jobs for _, jobs, _ in self.running.values())
        room = self.machine.gigabytes - sum(held for _, _, held in self.running.values())
        if idle < 1 or self.running and need > room:
            return
        jobs = max(1, min(MOST_JOBS, idle // (1 + others), 1 + int((room / need - 1) / MORE_MEMORY)))
        until = self.now + seconds * (ALONE + (1 - ALONE) / jobs)
        self.running[name] = until, jobs, need * (1 + MORE_MEMORY * (jobs - 1))

    def seconds(self):
        """How long it takes until all is proved."""
        while len(self.proved) < len(self.crates):
            ready = self.ready()
            for place, name in enumerate(ready):
                self.begin(name, len(ready) - place - 1)
            first = min(self.running, key=lambda name: self.running[name][0])
            self.now = self.proved[first] = self.running.pop(first)[0]
        return self.now


def left(crates, machine, taken, done, elapsed):
    """How many seconds are left, by what was taken so far, in seconds of a processor for each crate that was begun."""
    proved = [name for name in done if name in taken]
    speed = (BELIEVED + sum(taken[name] for name in proved)) / (BELIEVED + sum(crates[name].seconds for name in proved))
    kept = [name for name in done if name not in taken]
    whole = {name: each._replace(seconds=0 if name in kept else each.seconds * speed) for name, each in crates.items()}

    def ahead(name, seconds):
        return 0 if name in done else max(seconds - taken.get(name, 0), LEAST_AHEAD * seconds)

    rest = {name: each._replace(seconds=ahead(name, each.seconds)) for name, each in whole.items()}
    planned = Run(rest, machine).seconds()
    passed = max(0, Run(whole, machine).seconds() - planned)
    return planned * (BELIEVED + elapsed) / (BELIEVED + passed)
