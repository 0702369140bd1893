"""What a person asks for by the page. Each is an event that `pol` judges under the policy, but for a service's mode,
which isn't `pol`'s, and for a word of what happened to a module."""
from adapters.codes import COMMANDS, MODES, SOURCES
from adapters.told import DONE
from package.names import is_name

BATCH_DEEDS = {"freeze": {"ev": "freeze", "hold": False}, "hold": {"ev": "freeze", "hold": True},
               "thaw": {"ev": "thaw"}, "stop": {"ev": "stop"}, "abandon": {"ev": "abandon"}}
DENIED, UNKNOWN, NOTHING = {"denied": True}, {"station": "unknown"}, {"station": "nothing"}
NOBODY = {"station": "nobody"}


class Deeds:
    """Of a station. `do` answers by a call, since a module's answer takes a while."""

    def __init__(self, station):
        self.station, self.plant, self.speaks = station, station.plant, {}

    def do(self, asked, reply):
        """Does what is asked for. What isn't in its form, or names what isn't there, is told so."""
        deed, by = asked.get("do"), asked.get("by")
        known = {**dict.fromkeys(BATCH_DEEDS, self.batch), "start": self.start, "would": self.would, "desk": self.desk,
                 "plug": self.plug, "choose": self.choose, "unplug": self.unplug, "exchange_begin": self.exchange_begin,
                 "exchange_end": self.exchange_end, "exchange_cancel": self.exchange_cancel, "again": self.again,
                 "forget": self.forget, "passed": self.passed, "restarted": self.restarted, "renew": self.renew}
        try:
            answer = known[deed](asked, by, reply) if isinstance(by, str) and is_name(by) else NOBODY
        except (LookupError, TypeError, AttributeError) as fault:
            answer = {**UNKNOWN, "why": f"{type(fault).__name__}: {fault}"}
        if answer is not None:
            reply(answer)

    # Batches.

    def batch(self, asked, by, _):
        event = {**BATCH_DEEDS[asked["do"]], "batch": asked["batch"]}
        answer = self.plant.tell(event, by)
        if "closed" in answer:
            self.station.batches.over(asked["batch"])
        self.station.batches.want([asked["batch"]])
        return answer

    def start(self, asked, by, _):
        answer = self.plant.tell(self.start_event(asked["batch"], asked["recipe"], asked["tags"]), by)
        if "done" in answer:
            self.station.values.started(asked["tags"].values())
            self.station.batches.want([asked["batch"]])
        return answer

    def would(self, asked, by, _):
        """What a start on modules that a person chose would be answered now."""
        return {"would": self.plant.would(self.start_event(asked["batch"], asked["recipe"], asked["tags"]), by)}

    def start_event(self, batch, recipe, tags):
        """A start with a module for each role. One that is only read is watched: others may have it meanwhile."""
        read = {role["role"] for role in self.plant.past.roles(recipe) if role["is_read"]}
        bind = {role: tag for role, tag in tags.items() if role not in read}
        watch = {role: tag for role, tag in tags.items() if role in read}
        return {"ev": "start", "batch": batch, "recipe": recipe, "bind": bind, **({"watch": watch} if watch else {})}

    def renew(self, _, by, reply):
        return self.station.renewal.begin(by, reply)

    # Commands by hand, and modes.

    def desk(self, asked, by, _):
        return self.plant.tell({"ev": "desk", "tag": asked["tag"], "service": asked["service"],
                                "CommandOp": asked["command"]}, by)

    def choose(self, asked, by, reply):
        """A service's mode or source. Whoever may give a service no command at all may not take it away from its batch
        either."""
        if asked["word"] not in MODES | SOURCES:
            return UNKNOWN
        if not self.may_choose(by, asked["tag"], asked["service"]):
            return DENIED
        number = self.station.adapter.choose(asked["tag"], asked["service"], asked["word"])
        self.station.others[number] = lambda told: reply(
            {"done": True} if told.outcome == DONE else {"station": told.outcome, "why": told.why})
        return None

    def may_choose(self, by, tag, service):
        """Whether the policy lets a person give a service any command, whatever the plant says to it."""
        key = by, tag, service
        if key not in self.speaks:
            desk = {"ev": "desk", "tag": tag, "service": service}
            answers = self.plant.would_all([({**desk, "CommandOp": code}, by) for code in COMMANDS.values()])
            self.speaks[key] = any("denied" not in answer for answer in answers)
        return self.speaks[key]

    def again(self, asked, by, _):
        """To send a command again is to give it: who may not, may not."""
        key = asked["tag"], asked["service"]
        if not self.may_choose(by, *key):
            return DENIED
        return {"done": True} if self.station.commands.again(*key) else NOTHING

    def forget(self, asked, by, _):
        key = asked["tag"], asked["service"]
        if not self.may_choose(by, *key):
            return DENIED
        return {"done": True} if self.station.commands.forget(*key) else NOTHING

    # A person's word of what happened to a module.

    def passed(self, asked, by, _):
        return self.station.reports.passed(asked["tag"], asked["service"], by) or NOTHING

    def restarted(self, asked, by, _):
        return self.station.reports.aborted(asked["tag"], asked["service"], by) or NOTHING

    # Modules.

    def plug(self, asked, by, _):
        tag, package = asked["tag"], asked["package"]
        answer = self.plant.tell(self.plug_event(tag, package), by)
        if "done" in answer:
            self.station.follow(tag, package)
        return answer

    def plug_event(self, tag, package):
        return {"ev": "plug", "tag": tag, "desc": self.description(package)}

    def unplug(self, asked, by, _):
        answer = self.plant.tell({"ev": "unplug", "tag": asked["tag"]}, by)
        if "done" in answer:
            self.station.leave(asked["tag"])
        return answer

    def exchange_begin(self, asked, by, _):
        answer = self.plant.tell({"ev": "exchange_begin", "tag": asked["tag"]}, by)
        if "ticket" in answer:
            self.station.leave(asked["tag"])
            self.station.batches.touch(asked["tag"])
        return answer

    def exchange_end(self, asked, by, _):
        tag, package = asked["tag"], asked["package"]
        return self.docked(tag, package, self.plant.tell(self.end_event(tag, package), by))

    def exchange_cancel(self, asked, by, _):
        tag = asked["tag"]
        return self.docked(tag, self.station.packages.get(tag), self.plant.tell(self.cancel_event(tag), by))

    def docked(self, tag, package, answer):
        """A module is in its place again, with nothing reported."""
        if "done" in answer:
            self.station.follow(tag, package)
            self.station.batches.touch(tag)
        return answer

    def end_event(self, tag, package):
        return {"ev": "exchange_end", "tag": tag, "ticket": self.ticket(tag), "desc": self.description(package)}

    def cancel_event(self, tag):
        return {"ev": "exchange_cancel", "tag": tag, "ticket": self.ticket(tag)}

    def ticket(self, tag):
        return (self.plant.module(tag) or {}).get("ticket") or 0

    def description(self, package):
        return self.station.site.packages[package].description
