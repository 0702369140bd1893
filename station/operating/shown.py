"""All that the page shows to a person: the plant as `pol` has it, what the modules show beyond that, and each press
with what `pol` would answer it now."""
import itertools
import json

from adapters.codes import COMMANDS, STATE_NAMES
from operating.alarms import now
from operating.deeds import BATCH_DEEDS, DENIED, NOBODY, NOTHING
from operating.plant import is_permitted
from package.names import is_name

MOST_CLOSED, MOST_ENTRIES, MOST_TRIED = 12, 30, 16
# How many modules or batches are drawn at once, before others have their turn.
AT_ONCE = 8
SHORT = {"station": "short"}
DOCKED, ORDER_DEEDS = ("exchange_begin", "unplug"), ("again", "forget")
# Where a batch stands still and isn't only on its way: the wait, and for InState the states in which nothing moves.
MOVING = ("Starting", "Execute", "Completing", "Resetting", "Unholding", "Resuming", "Holding", "Pausing")


class Shown:
    """Of a station. `seen` has what each batch waits for in each branch, and since when; `by_hand` what commands by
    hand were answered, for each person and service."""

    def __init__(self, station):
        self.station, self.plant, self.deeds, self.seen, self.by_hand = station, station.plant, station.deeds, {}, {}

    def to(self, by):
        """All of it, as this person may see it: None for each part, and then the whole. Between parts something may
        happen: what isn't there any more is left out then. What is no name is nobody."""
        by = by if is_name(by) else ""
        state, modules, batches = self.plant.state(by), [], []
        for some in parts_of(state["modules"]):
            modules += self.modules(some, by)
            yield None
        for some in parts_of(state["batches"]):
            batches += self.batches(some, by)
            yield None
        self.seen = {name: found for name, found in self.seen.items() if name in self.plant.past.standings}
        recipes = self.recipes(by)
        yield None
        closed = [batch for batch in state["batches"] if batch["outcome"] != "Running"][-MOST_CLOSED:]
        yield {"now": now(), "by": by, "people": self.station.site.people, "entries": state["entries"],
               "modules": modules, "absent": self.absent(by), "batches": batches, "closed": closed[::-1],
               "recipes": recipes, "still": self.still(batches, by),
               "renew": self.why_not("renew", {}, by), "begun": state.get("begun"), "sum": state.get("sum"),
               "refused": self.refused(), "last": list(map(self.entry, self.plant.past.last))[-MOST_ENTRIES:],
               "packages": sorted(self.station.site.packages)}

    def presses(self, asked, by):
        """For each event None where `pol` would do it for this person, else what it would answer. Where nobody is at
        the desk nothing may be pressed."""
        if not by:
            return [NOBODY] * len(asked)
        answers = self.plant.would_all([(event, by) for event in asked])
        return [None if is_permitted(answer) else answer for answer in answers]

    # Modules.

    def modules(self, modules, by):
        """Those of some modules that are still there as they were."""
        modules = [each for each in modules if self.is_as_told(each)]
        docked = [{"ev": deed, "tag": each["tag"]} for each in modules for deed in DOCKED]
        answers = iter(self.presses(docked, by))
        self.ask_by_hand([(by, each["tag"], own["name"]) for each in modules for own in each["services"] if by])
        return [{**self.module(each, by), "presses": {deed: next(answers) for deed in DOCKED}} for each in modules]

    def is_as_told(self, module):
        """Whether the module that stands under a tag now is of the description that `pol` told of."""
        described = self.plant.past.descriptions.get(module["tag"])
        return described is not None and (
            [each["name"] for each in described["variables"]] == [each["name"] for each in module["values"]])

    def module(self, module, by):
        tag, followed = module["tag"], self.station.adapter.followed.get(module["tag"])
        map = followed.map if followed else {"services": {}, "variables": {}}
        package, described = self.station.packages.get(tag), self.plant.past.descriptions[tag]
        kinds = {each["name"]: each["kind"] for each in described["variables"]}
        return {**{key: module[key] for key in ("tag", "type", "version", "ticket", "holder", "watchers")},
                "is_there": tag in self.station.commands.lives, "package": package, "name": map.get("name", ""),
                "services": [self.service(tag, each, map, by) for each in module["services"]],
                "values": [self.value(tag, each, kinds, map["variables"]) for each in module["values"]],
                "ends": self.ends(tag, by) if module["ticket"] is not None else []}

    def ask_by_hand(self, keys):
        """Asks what each command by hand would be answered, where that may have changed since it was asked: it goes by
        what the service reported last, by its module's description, and by whether the module is away."""
        facts = {(by, tag, service): (self.plant.view(tag, service), self.plant.past.descriptions[tag],
                                      self.plant.module(tag)["ticket"]) for by, tag, service in keys}
        lacking = [key for key in keys if key not in self.by_hand or self.by_hand[key][0] != facts[key]]
        answers = iter(self.plant.would_all([
            ({"ev": "desk", "tag": tag, "service": service, "CommandOp": code}, by)
            for by, tag, service in lacking for code in COMMANDS.values()]))
        for key in lacking:
            self.by_hand[key] = facts[key], masks({code: next(answers) for code in COMMANDS.values()})

    def service(self, tag, service, map, by):
        since = self.station.late.since.get((tag, service["name"]))
        whys = self.by_hand[by, tag, service["name"]][1] if by else [(sum(COMMANDS.values()), NOBODY)]
        return {**service, "may": service["may"] if by else 0, "whys": whys, "since": since[1] if since else None,
                "label": map["services"].get(service["name"], {}).get("name", service["name"]),
                "may_choose": bool(by) and self.deeds.may_choose(by, tag, service["name"])}

    def value(self, tag, value, kinds, entries):
        name, shown = value["name"], self.station.values.shown.get((tag, value["name"]))
        entry = entries.get(name, {})
        return {"name": name, "label": entry.get("name", name), "kind": kinds[name], "told": value["value"],
                "value": shown.value if shown else value["value"], "is_good": shown.is_good if shown else True,
                "unit": entry.get("unit", {}).get("text", ""), "texts": entry.get("texts", {})}

    def ends(self, tag, by):
        """How an exchange may end: by a module of each package, or by the old one."""
        names = sorted(self.station.site.packages)
        events = [self.deeds.end_event(tag, name) for name in names] + [self.deeds.cancel_event(tag)]
        answers = self.presses(events, by)
        return [{"package": name, "why": answer} for name, answer in zip([*names, None], answers)]

    def absent(self, by):
        """The tags of the site under which no module stands."""
        tags = [tag for tag in self.station.site.modules if self.plant.module(tag) is None]
        packages = [self.station.site.modules[tag] for tag in tags]
        whys = self.presses(list(map(self.deeds.plug_event, tags, packages)), by)
        return [{"tag": tag, "package": package, "why": why} for tag, package, why in zip(tags, packages, whys)]

    # Batches and recipes.

    def batches(self, batches, by):
        """Those of some batches that are open."""
        batches = [batch for batch in batches if batch["batch"] in self.plant.past.standings]
        asked = [{**event, "batch": batch["batch"]} for batch in batches for event in BATCH_DEEDS.values()]
        answers = iter(self.presses(asked, by))
        return [{**batch, **self.stands(batch), "presses": {deed: next(answers) for deed in BATCH_DEEDS}}
                for batch in batches]

    def stands(self, batch):
        """Where a batch stands in its chart, and what it waits for."""
        name, wait = batch["batch"], self.wait(batch["batch"])
        return {"steps": self.steps(batch), "stands": self.plant.past.standings[name].shown(), **wait,
                "waits": self.obstacles(name, batch.get("waits", []), wait)}

    def obstacles(self, batch, waits, wait):
        """What a batch waits for in each branch, with since when: of the first one the station knows it, of another one
        it is since somebody looked."""
        old = self.seen.get(batch, {})
        found = {row["node"]: (row["obstacle"], now()) for row in waits}
        for node, (obstacle, _) in found.items():
            if obstacle == wait["wait"]:
                found[node] = obstacle, wait["since"]
            elif node in old and old[node][0] == obstacle:
                found[node] = old[node]
        self.seen[batch] = found
        return [{"node": node, "wait": obstacle, "since": since} for node, (obstacle, since) in found.items()]

    def steps(self, batch):
        """The steps that are active, in each branch, with what was done last and what their services are in."""
        return [self.step(batch, step, did) for step, did in self.plant.past.standings[batch["batch"]].active.items()]

    def step(self, batch, step, did):
        found = self.plant.past.step_of(batch["batch"], step)
        tag = batch["bind"][found["role"]]
        view = self.plant.view(tag, found["service"])
        return {"step": step, "did": did, "tag": tag, "service": found["service"],
                "state": view["StateCur"] if view else None}

    def wait(self, batch):
        wait = self.station.batches.waits.get(batch)
        return {"wait": wait.answer, "since": wait.since} if wait else {"wait": None, "since": None}

    def recipes(self, by):
        """Each recipe with modules on which a new batch would start, where there are some. No batch had its name, also
        in earlier files of the plant."""
        batch = f"b{self.plant.past.named + 1}"
        return [self.recipe(batch, found, by) for found in self.plant.bindings()]

    def recipe(self, batch, found, by):
        """A recipe with its roles, each with the modules of its type, and one module for each: as the plant offers
        them, to hold or to watch, or else as they are found by asking, which tells what is wrong."""
        recipe = found["recipe"]
        roles = [{**role, "tags": self.tags_of(role["type"])} for role in self.plant.past.roles(recipe)]
        offered = {**found.get("bind", {}), **found.get("watch", {})}
        tried = [offered] if offered else list(itertools.islice(assignments(roles), MOST_TRIED))
        whys = self.presses([self.deeds.start_event(batch, recipe, tags) for tags in tried], by)
        best = next((place for place, why in enumerate(whys) if why is None), 0)
        assigned = {role["role"]: tried[best][role["role"]] for role in roles} if tried else None
        return {"recipe": recipe, "batch": batch, "roles": roles, "assigned": assigned,
                "why": whys[best] if tried else SHORT}

    def tags_of(self, type):
        return [tag for tag, module in self.plant.modules().items() if module["type"] == type]

    # What a page asks for besides.

    def trends(self, query):
        """What some modules reported over time, by their tags."""
        return self.station.trends.shown(query.get("span", [""])[0], query.get("tag", []))

    def chart(self, query):
        """A recipe as its line has it, which never changes; None where there is none."""
        return self.plant.past.recipes.get(query.get("name", [""])[0])

    # What stands still, and what happened.

    def still(self, batches, by):
        """Services that run on though their batch is over, and steps though theirs is held; alarms, and batches that
        don't move, the longest first."""
        still = [{"code": "batch", "batch": batch["batch"], **each} for batch in batches for each in obstacles_of(batch)
                 if is_still(each["wait"])]
        unheld = [{"code": "unheld", "batch": batch["batch"], "since": batch["since"] or now(), **step}
                  for batch in batches for step in batch.get("unheld", [])]
        alarms = [{**alarm, "presses": {deed: self.why_not(deed, alarm, by) for deed in alarm.get("deeds", [])}}
                  for alarm in self.station.alarms.shown()]
        return self.left() + unheld + sorted([*alarms, *still], key=lambda each: each["since"])

    def left(self):
        """The services that a batch left running when it was closed, as they were reported last."""
        return [{"code": "left", "tag": each.tag, "service": each.service, "batch": each.batch, "since": each.at,
                 "state": self.plant.view(each.tag, each.service)["StateCur"]} for each in self.plant.past.left.shown()]

    def why_not(self, deed, alarm, by):
        """Why a person may not press this at an alarm; None where the person may."""
        if not by:
            return NOBODY
        if deed == "renew":
            return self.station.renewal.why_not(by)
        at = alarm["tag"], alarm["service"]
        if deed not in ORDER_DEEDS:
            return self.presses([self.station.reports.first_event(deed, *at)], by)[0]
        if not self.deeds.may_choose(by, *at):
            return DENIED
        return NOTHING if deed == "again" and at[0] not in self.station.commands.lives else None

    def refused(self):
        """What was refused or denied last, the newest first."""
        entries = [self.entry(each) for each in self.plant.past.refused]
        both = sorted([*entries, *self.station.denied], key=lambda each: each["event"]["at"])
        return both[::-1][:MOST_ENTRIES]

    def entry(self, entry):
        return {"place": entry.place, "event": short(entry.event), "answer": entry.answer, "by": entry.by}


def masks(answers):
    """Of the answers to commands those that refuse, each once, with the mask of its commands."""
    found = {}
    for code, answer in answers.items():
        if not is_permitted(answer):
            key = json.dumps(answer)
            found[key] = found.get(key, (0,))[0] | code, answer
    return list(found.values())


def parts_of(many):
    """Many things in parts of a few."""
    return [many[place:place + AT_ONCE] for place in range(0, len(many), AT_ONCE)]


def assignments(roles):
    """Each way to give each role a module of its own."""
    for tags in itertools.product(*(role["tags"] for role in roles)):
        if len(set(tags)) == len(tags):
            yield {role["role"]: tag for role, tag in zip(roles, tags)}


def obstacles_of(batch):
    """What a batch waits for: in each branch, or, where it waits for something else first, for that alone."""
    if any(each["wait"] == batch["wait"] for each in batch["waits"]):
        return batch["waits"]
    return [{"wait": batch["wait"], "since": batch["since"]}] if batch["wait"] else []


def is_still(wait):
    """Whether a batch that waits for this stands, and isn't only on its way."""
    if wait.get("wait") == "InState":
        return STATE_NAMES[wait["state"]] not in MOVING
    return wait.get("wait") != "Unmet"


def short(event):
    """An event without what is long in it: of a description its type and version are left."""
    described = {"desc": {key: event["desc"][key] for key in ("type", "version")}} if "desc" in event else {}
    return {key: part for key, part in event.items() if key not in ("chart", "roles")} | described
