"""Where an open batch stands in its recipe's chart, by what it did: which steps are active, done or held, which arms
were chosen, how often loops turned. It is what the page draws; what comes next `pol` says."""

from adapters.codes import STATE_NAMES
from simulation.machine import AT_REST

# What a step is in once this was done: the words are those of the chart that viewer/source draws.
PHASES = {"start": "on", "finish": "on", "reset": "ending", "unhold": "on", "hold": "held", "end": "done",
          "broke": "broke", "stop": "off", "left": "left", "rest": "rest"}
ENDS = ("end", "stop", "left", "rest")


def parts(node):
    """The nodes within a node, in their order."""
    return node.get("seq") or node.get("par") or [arm["then"] for arm in node.get("sel", [])] or (
        [node["loop"]] if "loop" in node else [])


def nodes(node):
    """A node of a chart and all in it: each before those in it, which is how `pol` numbers them."""
    yield node
    for each in parts(node):
        yield from nodes(each)


class Standing:
    """`active` has what was done last with each step that is active, `steps` what each step is in and how often it was
    started, `arms` and `turns` what was chosen and how often was turned, by the numbers of their nodes. `passed` are
    the nodes that are through, steps by their names."""

    def __init__(self, chart):
        self.nodes, self.is_stopping = list(nodes(chart)), False
        self.active, self.steps, self.arms, self.turns, self.passed = {}, {}, {}, {}, set()

    def take(self, did):
        """What the batch did. A step that could be left because its service is at rest is none that still runs."""
        if "step" in did:
            is_at_rest = did["do"] == "left" and STATE_NAMES.get(did["state"]) in AT_REST
            self.take_step(did["step"], "rest" if is_at_rest else did["do"])
        elif did["do"] == "chose":
            self.arms[did["node"]] = did["arm"]
            self.passed.add(did["node"])
        elif did["do"] == "leave":
            self.passed.add(did["node"])
        elif did["do"] == "turn":
            self.turn(did["node"])
        self.is_stopping = self.is_stopping or did["do"] in ("broke", "stop_asked")

    def take_step(self, step, deed):
        self.active[step] = deed
        old = self.steps.get(step, {"runs": 0, "phase": "", "completes": False})
        is_broken = old["phase"] == "broke" and deed != "left"
        self.steps[step] = {"runs": old["runs"] + (deed == "start"),
                            "phase": "broke" if is_broken else PHASES.get(deed, old["phase"]),
                            "completes": deed == "finish" or old["completes"] and deed != "start"}
        if deed in ENDS:
            del self.active[step]
        if deed == "end":
            self.passed.add(step)

    def unended(self):
        """The steps that are active, and those that were left as they ran."""
        return [*self.active, *(step for step, each in self.steps.items() if each["phase"] == PHASES["left"])]

    def turn(self, number):
        """A loop turns: all in it begins anew."""
        self.turns[number] = self.turns.get(number, 0) + 1
        within = {id(node) for node in nodes(self.nodes[number]["loop"])}
        for place, node in enumerate(self.nodes):
            if id(node) in within:
                self.passed.discard(node.get("step", place))

    def shown(self):
        """The same for the page, as lists of pairs."""
        return {"steps": list(self.steps.items()), "arms": list(self.arms.items()), "turns": list(self.turns.items()),
                "passed": list(self.passed), "isStopping": self.is_stopping}
