"""What a job's clauses reach: from the record that says how the job ends along the names that each definition uses.

The record of each job is that of `pol_cli`: Tasks, where `SerialEnds` and `TaskEnds` have an equation for each task.
What holds of every job beside it is said by the records of EVERY_JOB. Definitions of the language's libraries and the
types of the code aren't counted.
"""
import re
from typing import NamedTuple

import definitions
from crates import ROOT

TASKS = "pol_cli", "Tasks"
EVERY = "every job"
EVERY_JOB = [(*TASKS, "GoesByWords"), ("pol_cli", "Journal", "JournalTheorem"), ("pol_cli", "Journal", "Laws")]
# A task whose word isn't its name.
WORDS_OF_TASKS = {"live": "plant"}
# How many lines that say something a reviewer can be asked to read for one job.
MOST = 400


class Reached(NamedTuple):
    """The definitions that a job reaches, nearest first, and those among them that every job has."""

    job: str
    places: tuple
    shared: frozenset


class Reading:
    """The definitions of a repository with their kinds, and what each job reaches of them."""

    def __init__(self, root=ROOT):
        self.made = definitions.definitions(root)
        self.kind = definitions.kinds(self.made)
        every = self.reach(EVERY_JOB)
        self.jobs = {EVERY: Reached(EVERY, every, frozenset())}
        for job, begun in self.begun().items():
            self.jobs[job] = Reached(job, self.reach(begun), frozenset(every))

    def begun(self):
        """Where the reading of each job begins: what its equation says of how it ends."""
        found = {}
        for name in ("SerialEnds", "TaskEnds"):
            ends = self.made[*TASKS, name]
            for task, *said in re.findall(rf"^ *{name} \(?(\w+)[^=\n]*=( .*|)((?:\n +.*)*)$", ends.body, re.M):
                named = [place for place in ends.uses if re.search(rf"\b{place[2]}\b", "".join(said))]
                if (*TASKS, "SerialEnds") not in named:
                    found[WORDS_OF_TASKS.get(task.lower(), task.lower())] = sorted(named)
        return found

    def reach(self, begun):
        """All that these definitions name, and what that names, the nearest first."""
        seen, order = set(begun), list(begun)
        for place in order:
            more = sorted(self.made[place].uses - seen)
            seen.update(more)
            order += more
        return tuple(order)

    def lines(self, places, kind):
        return sum(len(self.made[place].code) for place in places if self.kind[place] == kind)

    def counts(self, job):
        """The lines of a job by kind: all of them, and those that not every job has."""
        reached = self.jobs[job]
        own = [place for place in reached.places if place not in reached.shared]
        kinds = (definitions.FACT, definitions.WORKED_OUT, definitions.WORDS)
        return [(self.lines(reached.places, kind), self.lines(own, kind)) for kind in kinds]

    def row(self, job):
        """The row of a job in the table of what there is to read."""
        numbers = " | ".join(f"{whole:,} | {own:,}" for whole, own in self.counts(job))
        return f"| {job} | {numbers} |"

    def files(self):
        """The files with a definition that some job reaches."""
        return {place[:2] for reached in self.jobs.values() for place in reached.places}

    def remark(self, job):
        """What there is to say of a job with more lines than a reviewer can be asked to read; else nothing."""
        (facts, _), (worked_out, _), _ = self.counts(job)
        if facts + worked_out <= MOST:
            return ""
        return (f"{job}: {facts + worked_out:,} lines say something, more than {MOST}: {facts:,} of facts, "
                f"{worked_out:,} of what is worked out")
