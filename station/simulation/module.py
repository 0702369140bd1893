"""A module by its package: services, parameters and views, what is written to it, and what it shows."""
from adapters.adapter import entry_of, places_of
from adapters.codes import BY_HAND, BY_RECIPE, GOOD, QUALITY
from adapters.told import PARAMETER, SERVICE
from package.told import short
from simulation.parameters import Parameter
from simulation.refused import Refused
from simulation.service import Service
from simulation.values import Work, moving

TEXT_ITEM, VALUE_ITEM = "Text", "V"


class Module:
    """Made of a description and a map, as station/package reads them. It knows nothing of connections."""

    def __init__(self, plug):
        self.map, self.description = plug.map, plug.description
        self.places, self.slowness = places_of(self.map), 0.0
        self.begin()

    def begin(self):
        """Everything as it is when the module is switched on."""
        self.quality = {}
        self.services = {each["name"]: Service(each, self.map["services"][each["name"]])
                         for each in self.description["services"]}
        self.parameters, by_assembly = {}, {}
        for place, each in self.described_parameters():
            entry = self.entry(place)
            self.parameters[place] = by_assembly.setdefault(entry["assembly"], Parameter(each, entry))
        reports = self.reports()
        self.values = {name: moving(name, entry, reports) for name, entry in self.map["variables"].items()}

    def described_parameters(self):
        """Each parameter of the description with its place."""
        for service in self.description["services"]:
            for procedure in service["procedures"]:
                for each in procedure["params"]:
                    yield (PARAMETER, service["name"], str(procedure["number"]), each["name"]), each

    def reports(self):
        """The service and the procedure of each view that a procedure reports."""
        return {value["variable"]: (service, int(number)) for service, entry in self.map["services"].items()
                for number, procedure in entry["procedures"].items()
                for value in procedure["values"] if "variable" in value}

    def entry(self, place):
        return entry_of(self.map, place)

    # What it shows.

    def items(self, place):
        """All items of a place, as they are now."""
        if place[0] == SERVICE:
            items = self.services[place[1]].items()
        elif place[0] == PARAMETER:
            items = self.parameters[place].items()
        else:
            name = VALUE_ITEM if VALUE_ITEM in self.entry(place)["items"] else TEXT_ITEM
            items = {name: self.values[place[1]].shown()}
        return {**items, QUALITY: self.quality.get(place, GOOD)}

    # What is written to it.

    def write(self, place, items):
        """Takes items in their order. The first that is refused ends it; those before it are taken."""
        if not items:
            raise Refused("nothing is to be written")
        for item, value in items.items():
            if self.entry(place) is None or item not in self.entry(place)["items"]:
                raise Refused(f"{'/'.join(place)} has no item {short(item)}")
            self.write_one(place, item, value)

    def write_one(self, place, item, value):
        if place[0] == SERVICE:
            service, state = self.services[place[1]], self.services[place[1]].state
            service.write(item, value)
            if service.state == "Starting" != state:
                self.apply(service)
        elif place[0] == PARAMETER and item in (f"V{by}" for by in (BY_RECIPE, BY_HAND)):
            self.services[place[1]].ask_speaker(item, item.removeprefix("V"))
            self.parameters[place].want(value)
        else:
            raise Refused(f"{'/'.join(place)}: {item} can't be written")

    def apply(self, service):
        """What was set for the procedure that starts holds from here on."""
        for parameter in self.running_parameters(service):
            parameter.apply()

    def running_parameters(self, service):
        return [parameter for place, parameter in self.parameters.items()
                if place[1:3] == (service.name, str(service.running))]

    # What it does by itself.

    def step(self, seconds):
        """Goes on for so many seconds of the simulation."""
        works = [Work(service, self.running_parameters(service)) for service in self.services.values()
                 if service.state == "Execute"]
        for service in self.services.values():
            service.step(seconds, self.slowness)
        for value in self.values.values():
            value.move(seconds, works)
