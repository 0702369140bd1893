"""A shorter file in the place of the plant's, by the script `renew`, while the station runs: nothing is told and
nothing is asked meanwhile, and what modules tell waits for its turn. What stands in the plant stays as it is."""
import json
import subprocess
import sys
import tempfile

# In seconds: so long the page has to tell that a renewal begins.
NOTICE = 0.5
# Who may give these lines may have the file renewed: it is for who cares for the plant as a whole.
KEEPERS = ({"ev": "unplug", "tag": "none"}, {"ev": "abandon", "batch": "none"})
MOST_WORDS = 300


class Renewal:
    """Of a station. `script` is where `renew` is."""

    def __init__(self, station, script):
        self.station, self.plant, self.script, self.may = station, station.plant, script, {}

    def is_keeper(self, by):
        """Whether the policy lets a person give the lines of who cares for the plant."""
        if by not in self.may:
            answers = self.plant.would_all([(event, by) for event in KEEPERS])
            self.may[by] = all("denied" not in answer for answer in answers)
        return self.may[by]

    def why_not(self, by):
        """Why a person may not have the file renewed now; None where the person may."""
        if not self.is_keeper(by):
            return {"denied": True}
        return {"station": "has_command"} if self.lost_commands() else None

    def lost_commands(self):
        """The commands on their way that a shorter file doesn't tell: those by hand, and those of batches that are
        over. If the station fell, nobody would know of them."""
        standings = self.plant.past.standings
        return [order for order in self.station.commands.open.values()
                if order.given.is_by_hand or order.given.batch not in standings]

    def begin(self, by, reply):
        """Has the file renewed, once the page could tell that it begins. Gives an answer where it doesn't begin."""
        why = self.why_not(by)
        if why is None:
            self.station.alarms.set(("renewal", None), "renewing")
            self.station.turns.later(NOTICE, lambda: reply(self.run(by)))
        return why

    def run(self, by):
        """Renews the file, and gives what is to be told of it."""
        why = self.why_not(by)
        if why is None:
            past = self.plant.past
            self.station.notes.note(unplugged=sorted(past.unplugged), named=past.named)
            done = self.plant.renew(self.change)
            self.station.notes.begin(past.given.values())
            why = {"station": "renewed", "why": str(past.count)} if done.returncode == 0 else {
                "station": "not_renewed", "why": done.stderr.strip()[-MOST_WORDS:]}
        self.station.alarms.clear("renewal", None)
        self.station.tell_near()
        return why

    def change(self):
        """Runs the script, while no program has the file. The policy is that of the station, in one line."""
        with tempfile.NamedTemporaryFile("w", suffix=".json") as policy:
            policy.write(json.dumps(self.plant.pol.policy) + "\n")
            policy.flush()
            words = [self.plant.pol.folder, "--policy", policy.name, "--program", self.plant.pol.command[0]]
            return subprocess.run([sys.executable, self.script, *words], stdin=subprocess.DEVNULL, capture_output=True,
                                  text=True, start_new_session=True, check=False)
