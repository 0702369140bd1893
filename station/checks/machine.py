"""The simulated state machine against the tables of docs/RULES.md: each state by each command, and what comes by
itself."""
import re
import unittest

from adapters import codes
from adapters.codes import COMMANDS, STATES
from checks.reading import STATION
from simulation import machine
from simulation.refused import Refused
from simulation.service import PASSING, WORK, Service

RULES = (STATION.parent / "docs" / "RULES.md").read_text()
NONE = "none"


def rows(head):
    """The cells of each row of the table with this head."""
    text = RULES[RULES.index(head):].split("\n\n")[0]
    return [[cell.strip() for cell in line.strip("|").split("|")] for line in text.splitlines()[2:]]


def states_of(text):
    """The states that a cell names."""
    but = re.fullmatch("every state but (.*)", text)
    named = (but[1] if but else text).split(", ")
    return [state for state in STATES if state not in named] if but else named


def edges():
    """Of RULES: the state to which each command leads from a state, and the one to which a state goes by itself."""
    commanded, alone = {}, {}
    for command, start, to in rows("| Command | From | To |"):
        if command == NONE:
            alone = dict(edge.split(" to ") for edge in start.split(", "))
        else:
            commanded |= {(state, command): to for state in states_of(start)}
    return commanded, alone


COMMANDED, ALONE = edges()


def service(state="Idle", is_self_completing=False, mode="Automatic", source="External"):
    """A service of two procedures, as it is in a state."""
    procedures = [{"number": 1, "default": True, "self_completing": is_self_completing, "params": []},
                  {"number": 7, "default": False, "self_completing": not is_self_completing, "params": []}]
    entry = {"procedures": {str(each["number"]): {"name": f"way {each['number']}"} for each in procedures}}
    made = Service({"name": "s", "procedures": procedures}, entry)
    made.state, made.mode, made.source, made.running = state, mode, source, 1
    return made


def refusal(made, item, value):
    """Why an item isn't taken; None where it is."""
    try:
        made.write(item, value)
    except Refused as fault:
        return str(fault)
    return None


class Tables(unittest.TestCase):
    def test_the_codes_are_those_of_the_rules(self):
        cells = [cell for row in rows("| State | Code | State |") for cell in row]
        self.assertEqual(dict(zip(cells[::2], map(int, cells[1::2]))), STATES)
        cells = [cell for row in rows("| Command | Code | Command |") for cell in row]
        self.assertEqual(dict(zip(cells[::2], map(int, cells[1::2]))), COMMANDS)

    def test_the_edges_are_those_of_the_rules(self):
        self.assertEqual((machine.BY_COMMAND, machine.BY_ITSELF), (COMMANDED, ALONE))
        pairs = {(start, to) for (start, _), to in COMMANDED.items()} | set(ALONE.items())
        self.assertEqual(len(pairs), int(re.search(r"There are (\d+) edges", RULES)[1]))


class Commands(unittest.TestCase):
    def test_each_state_by_each_command(self):
        for state in STATES:
            for command, code in COMMANDS.items():
                made = service(state)
                why = refusal(made, "CommandExt", code)
                to = COMMANDED.get((state, command))
                self.assertEqual((why is None, made.state), (to is not None, to or state), (state, command))

    def test_what_is_enabled_is_what_is_taken(self):
        for is_self_completing in (False, True):
            for state in STATES:
                taken = [code for code in COMMANDS.values()
                         if refusal(service(state, is_self_completing), "CommandExt", code) is None]
                self.assertEqual(service(state, is_self_completing).items()["CommandEn"], sum(taken), state)

    def test_what_completes_by_itself_takes_no_complete(self):
        why = refusal(service("Execute", True), "CommandExt", COMMANDS["Complete"])
        self.assertEqual(why, "Complete isn't enabled in Execute")

    def test_what_is_no_command(self):
        for code in (0, 1, 3, 6, 2048, -4, True, "Start", None, 4.0, []):
            self.assertIn("is no command", refusal(service(), "CommandExt", code), code)


class ByItself(unittest.TestCase):
    def test_each_state_passes_or_stays(self):
        for is_self_completing in (False, True):
            for state in STATES:
                made = service(state, is_self_completing)
                made.step(max(PASSING, WORK), 0)
                stays = state not in ALONE or state == "Execute" and not is_self_completing
                self.assertEqual(made.state, state if stays else ALONE[state])

    def test_a_state_lasts_its_time(self):
        made = service("Starting")
        for slowness, seconds, state in ((0, PASSING * 0.9, "Starting"), (5, PASSING, "Starting"), (0, 0, "Execute")):
            made.step(seconds, slowness)
            self.assertEqual(made.state, state)
        made.command(COMMANDS["Pause"])
        for seconds, state in ((PASSING * 0.9, "Pausing"), (PASSING * 0.2, "Paused")):
            made.step(seconds, 0)
            self.assertEqual(made.state, state)

    def test_more_than_all_work_is_not_done(self):
        made = service("Execute")
        made.step(3 * WORK, 0)
        self.assertEqual((made.state, made.share_done()), ("Execute", 1))

    def test_what_was_done_before_a_hold_counts_and_a_restart_begins_anew(self):
        made = service("Execute", True)
        made.step(WORK * 0.6, 0)
        for command, state in (("Hold", "Held"), ("Unhold", "Execute")):
            made.command(COMMANDS[command])
            made.step(PASSING, 0)
            self.assertEqual(made.state, state)
        self.assertAlmostEqual(made.share_done(), 0.6)
        made.command(COMMANDS["Restart"])
        self.assertEqual((made.state, made.share_done()), ("Starting", 0))


class Speakers(unittest.TestCase):
    """Who may command: the table of RULES."""

    def test_each_mode_and_source(self):
        for mode in codes.MODES:
            for source in codes.SOURCES:
                taken = [by for by in ("Op", "Ext")
                         if refusal(service(mode=mode, source=source), f"Command{by}", COMMANDS["Start"]) is None]
                wanted = {"Operator": ["Op"], "Automatic": ["Ext"] if source == "External" else []}.get(mode, [])
                self.assertEqual(taken, wanted, (mode, source))

    def test_nothing_is_enabled_when_it_is_off(self):
        self.assertEqual(service(mode="Off").items()["CommandEn"], 0)

    def test_modes_and_sources_are_chosen(self):
        made = service()
        for item, seen in (("StateOpOp", ("Operator", "External")), ("SrcIntOp", ("Operator", "Internal")),
                           ("StateAutOp", ("Automatic", "Internal")), ("SrcExtOp", ("Automatic", "External")),
                           ("StateOffOp", ("Off", "External"))):
            self.assertIsNone(refusal(made, item, True))
            self.assertEqual((made.mode, made.source), seen)
        self.assertIn("can't be written", refusal(made, "StateOpOp", False))
        self.assertIn("can't be written", refusal(made, "StateOpAut", True))

    def test_it_is_switched_off_only_at_rest(self):
        for state in STATES:
            self.assertEqual(refusal(service(state), "StateOffOp", True) is None, state in machine.AT_REST, state)

    def test_one_mode_and_one_source_are_shown(self):
        for mode, item in codes.MODES.items():
            items = service(mode=mode).items()
            self.assertEqual([word for word in codes.MODES.values() if items[f"{word}Act"]], [item])
            self.assertEqual((items["SrcExtAct"], items["SrcIntAct"]), (True, False))


class Procedures(unittest.TestCase):
    def test_at_first_none_runs_and_none_is_asked_for(self):
        made = service()
        made.begin()
        items = made.items()
        self.assertEqual([items[name] for name in ("StateCur", "ProcedureCur", "ProcedureReq")], [STATES["Idle"], 0, 0])
        self.assertEqual((made.mode, made.source), ("Automatic", "External"))

    def test_a_start_is_of_the_procedure_that_was_asked_for(self):
        for asked, running in ((None, 1), (0, 1), (1, 1), (7, 7)):
            made = service()
            if asked is not None:
                self.assertIsNone(refusal(made, "ProcedureExt", asked))
            made.command(COMMANDS["Start"])
            self.assertEqual(made.items()["ProcedureCur"], running)

    def test_a_procedure_that_is_not_there_is_refused(self):
        for number in (2, -1, "1", True, None, 7.0, [7]):
            self.assertIn("has no procedure", refusal(service(), "ProcedureExt", number))
        self.assertIn("mode Automatic", refusal(service(), "ProcedureOp", 1))

    def test_whether_it_completes_by_itself_is_asked_of_the_one_that_runs(self):
        made = service()
        made.request(7)
        made.command(COMMANDS["Start"])
        made.step(PASSING, 0)
        self.assertNotIn("Complete", made.enabled())
