"""What the modules reported since the station began, as lines over time: of each variable its values, of each service
its states. A line has a bounded number of places; each of them has the least, the greatest and the last that was
reported in its time."""
from adapters.codes import STATES
from adapters.told import SERVICE, VARIABLE
from operating.alarms import now

# How many places a line has at most; how long one lasts, in milliseconds: of the last minutes each place, of the whole
# time the first ones, since there two become one as often as it has to be.
PLACES, RECENT_LASTS, WHOLE_LASTS = 240, 2_500, 250
# The states from the calmest to the gravest: where several were in one place, the gravest is what shows.
BY_GRAVITY = ("Idle", "Completed", "Resetting", "Starting", "Completing", "Resuming", "Unholding", "Execute", "Pausing",
              "Paused", "Holding", "Held", "Stopping", "Stopped", "Aborting", "Aborted")
RANKS = {STATES[name]: rank for rank, name in enumerate(BY_GRAVITY)}
RECENT, WHOLE = "recent", "whole"
UNKNOWN = (None, None, None)


def joined(one, other):
    """Two places as one: the least and the greatest of both, and what the later one ends with."""
    known = [each for each in (*one[:2], *other[:2]) if each is not None]
    return min(known, default=None), max(known, default=None), other[2]


class Lines:
    """Lines over one span of time, which begins with the station. Where it `grows` it has all of that time, in longer
    places; else its last places."""

    def __init__(self, begin, lasts, grows):
        self.begin, self.lasts, self.grows, self.known = begin, lasts, grows, {}

    def put(self, key, at, value):
        """What was reported of one thing at a moment; None where nobody knows it any more."""
        place = self.place(at)
        line = self.known.setdefault(key, {})
        line[place] = joined(line.get(place, UNKNOWN), (value, value, value))
        if len(line) > PLACES:
            self.forget(line, place)

    def place(self, at):
        """The place of a moment. Where the lines grow they are made coarser, until it is one of the first."""
        since = max(0, at - self.begin)
        while self.grows and since // self.lasts >= PLACES:
            self.lasts *= 2
            self.known = {key: halved(line) for key, line in self.known.items()}
        return since // self.lasts

    def forget(self, line, place):
        """Of the last places leaves out what was before them, but for the last of it, which still held then."""
        old = [] if self.grows else sorted(each for each in line if each < place - PLACES)
        for each in old[:-1]:
            del line[each]

    def drop(self, tag):
        self.known = {key: line for key, line in self.known.items() if key[0] != tag}

    def shown(self, tags, end):
        """The lines of some modules: each place with its number and what it has."""
        last = self.place(end)
        asked = {key: line for key, line in self.known.items() if key[0] in tags}
        for line in asked.values():
            self.forget(line, last)
        lines = [{"tag": tag, "kind": kind, "name": name, "places": [[place, *line[place]] for place in sorted(line)]}
                 for (tag, kind, name), line in asked.items()]
        first = self.begin if self.grows else max(self.begin, end - PLACES * self.lasts)
        return {"begin": self.begin, "from": first, "to": end, "lasts": self.lasts, "lines": lines}


def halved(line):
    """A line of places that last twice as long."""
    made = {}
    for place in sorted(line):
        made[place // 2] = joined(made[place // 2], line[place]) if place // 2 in made else line[place]
    return made


class Trends:
    """The last minutes, and the whole time since the station began. `last` is what was told last of each thing."""

    def __init__(self):
        begin = now()
        self.spans = {RECENT: Lines(begin, RECENT_LASTS, False), WHOLE: Lines(begin, WHOLE_LASTS, True)}
        self.last = {}

    def value(self, tag, variable, value):
        """What a variable shows; None where its quality is bad. Texts have no line; a truth value is 0 or 1."""
        if not isinstance(value, str):
            self.tell((tag, VARIABLE, variable), None if value is None else int(value))

    def state(self, tag, service, state):
        self.tell((tag, SERVICE, service), RANKS[state])

    def tell(self, key, value):
        self.last[key] = value
        self.put(key, value)

    def put(self, key, value):
        at = now()
        for lines in self.spans.values():
            lines.put(key, at, value)

    def of_module(self, tag):
        return [key for key in self.last if key[0] == tag]

    def gone(self, tag):
        """A module isn't there: until it is back nobody knows anything of it."""
        for key in self.of_module(tag):
            self.put(key, None)

    def back(self, tag):
        """A module is there again. What it doesn't tell anew is as it was."""
        for key in self.of_module(tag):
            self.put(key, self.last[key])

    def left(self, tag):
        """Another module may stand there from here on."""
        for key in self.of_module(tag):
            del self.last[key]
        for lines in self.spans.values():
            lines.drop(tag)

    def shown(self, span, tags):
        """The lines of some modules over a span, up to now. A state is told by its place among `states`. In the first
        minutes the whole time has shorter places than the last minutes."""
        end, recent = now(), self.spans[RECENT]
        is_recent = span == RECENT and end - recent.begin > PLACES * RECENT_LASTS
        found = recent if is_recent else self.spans[WHOLE]
        return {"states": [STATES[name] for name in BY_GRAVITY], **found.shown(set(tags), end)}
