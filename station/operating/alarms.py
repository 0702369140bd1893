"""What a person has to look at, since when, and what may be pressed: by codes, whose words are the page's."""
import time


def now():
    """Milliseconds since 1970, as stamps are."""
    return time.time_ns() // 1_000_000


class Alarms:
    """`changed` is called where something is to be shown anew."""

    def __init__(self, changed):
        self.known, self.changed = {}, changed

    def set(self, key, code, **facts):
        """An alarm by its key, such as ("gone", "M1"). One that stands there already keeps its time."""
        old = self.known.get(key)
        since = old["since"] if old and old["code"] == code else now()
        self.known[key] = {"code": code, "since": since, **facts}
        if old != self.known[key]:
            self.changed()

    def clear(self, *key):
        if self.known.pop(key, None):
            self.changed()

    def clear_of(self, tag):
        """Nothing of a module is to be looked at any more."""
        for key in [key for key in self.known if key[1] == tag]:
            self.clear(*key)

    def shown(self):
        """All of them, the oldest first."""
        return sorted(self.known.values(), key=lambda alarm: alarm["since"])
