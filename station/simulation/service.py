"""A service: its state, mode, source and procedure; what it takes, and what it does by itself as time goes on."""
from adapters.codes import BY_HAND, BY_RECIPE, CHOOSES, COMMAND_NAMES, MODES, SHOWS, SOURCES, STATES
from adapters.forms import quoted
from simulation.machine import AT_REST, BY_COMMAND, BY_ITSELF, commands_from, mask
from simulation.refused import Refused

# In seconds of the simulation: how long a state lasts that only passes, and the work of a procedure that completes by
# itself.
PASSING, WORK = 1.0, 10.0
CHOICES = {item + CHOOSES: word for word, item in (MODES | SOURCES).items()}


class Service:
    """Made of the description of a service and its entry in the map."""

    def __init__(self, description, entry):
        self.name = description["name"]
        self.procedures = {each["number"]: each for each in description["procedures"]}
        self.names = {int(number): each["name"] for number, each in entry["procedures"].items()}
        self.default = next(number for number, each in self.procedures.items() if each["default"])
        self.begin()

    def begin(self):
        """As it is when the module is switched on."""
        self.mode, self.source, self.state = "Automatic", "External", "Idle"
        self.running, self.requested, self.passed, self.worked = 0, 0, 0.0, 0.0

    def is_self_completing(self):
        return self.procedures.get(self.running, {}).get("self_completing", False)

    def enabled(self):
        """The commands that it takes now."""
        return [] if self.mode == "Off" else commands_from(self.state, self.is_self_completing())

    def items(self):
        """Its service control, all of one moment."""
        modes = {item + SHOWS: word in (self.mode, self.source) for word, item in (MODES | SOURCES).items()}
        return {"StateCur": STATES[self.state], "CommandEn": mask(self.enabled()), "ProcedureCur": self.running,
                "ProcedureReq": self.requested, **modes}

    # What it is written.

    def ask_speaker(self, item, by):
        """Refuses who may not write an item now."""
        is_heard = self.mode == "Operator" if by == BY_HAND else (self.mode, self.source) == ("Automatic", "External")
        if not is_heard:
            raise Refused(f"{item}: the service {self.name} is in mode {self.mode}, source {self.source}")

    def write(self, item, value):
        """Takes the value of an item, or refuses it."""
        if item in CHOICES and value is True:
            self.choose(CHOICES[item])
        elif item in (f"Procedure{by}" for by in (BY_RECIPE, BY_HAND)):
            self.ask_speaker(item, item.removeprefix("Procedure"))
            self.request(value)
        elif item in (f"Command{by}" for by in (BY_RECIPE, BY_HAND)):
            self.ask_speaker(item, item.removeprefix("Command"))
            self.command(value)
        else:
            raise Refused(f"{item}: {quoted(value)} can't be written")

    def choose(self, word):
        if word in SOURCES:
            self.source = word
        elif word == "Off" and self.state not in AT_REST:
            raise Refused(f"the service {self.name} is in {self.state}: it is switched off only at rest")
        else:
            self.mode = word

    def request(self, number):
        """Takes the procedure of the next Start; 0 is the default."""
        if type(number) is not int or number not in (0, *self.procedures):
            raise Refused(f"the service {self.name} has no procedure {quoted(number)}")
        self.requested = number

    def command(self, code):
        name = COMMAND_NAMES.get(code) if type(code) is int else None
        if name is None:
            raise Refused(f"{quoted(code)} is no command")
        if name not in self.enabled():
            raise Refused(f"{name} isn't enabled in {self.state}")
        if name == "Start":
            self.running = self.requested or self.default
        self.enter(BY_COMMAND[self.state, name])

    # What it does by itself.

    def enter(self, state):
        self.state, self.passed = state, 0.0
        if state == "Starting":
            self.worked = 0.0

    def step(self, seconds, slowness):
        """Goes on for so many seconds: at most into the next state, so that each is told. `slowness` is by how many
        seconds states that pass last longer."""
        self.passed += seconds
        if self.state == "Execute":
            self.worked += seconds
            is_due = self.is_self_completing() and self.worked >= WORK
        else:
            is_due = self.state in BY_ITSELF and self.passed >= PASSING + slowness
        if is_due:
            self.enter(BY_ITSELF[self.state])

    def share_done(self):
        """How much of its work is done, from 0 to 1."""
        return min(1.0, self.worked / WORK)

    def procedure_name(self):
        return self.names.get(self.running, "") if self.state not in AT_REST else ""
