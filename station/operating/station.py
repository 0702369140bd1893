"""A station: all its parts, and which part is told what. Everything happens in the turns of one thread."""
import functools

from adapters.mqtt import Mqtt
from adapters.told import SERVICE, VARIABLE, Back, Bad, Gone, Report, Value, Written
from operating.alarms import Alarms
from operating.batches import Batches
from operating.commands import Commands
from operating.deeds import Deeds
from operating.late import Late
from operating.notes import Notes
from operating.plant import Plant
from operating.renewal import Renewal
from operating.reports import Reports
from operating.shown import Shown
from operating.trends import Trends
from operating.values import Values

MOST_DENIED, NOBODY_THERE = 60, 5.0
# How often it is asked which limits are near, in seconds; the alarm of each, by the rule that refuses once it is
# reached; and those that a shorter file puts off.
NEAR_EVERY = 10.0
NEAR = {"HistoryFull": "near_history", "BatchesFull": "near_batches", "RecipesFull": "near_recipes"}
PUT_OFF = ("HistoryFull", "BatchesFull")


class Station:
    """`site` says what stands in the plant, `pol` decides, `broker` is where the modules are reached. `changed` is
    called where the page is to be drawn anew; `script` is where `renew` is."""

    def __init__(self, site, pol, turns, broker, changed, name="station", script=None):
        self.site, self.pol, self.turns, self.changed = site, pol, turns, changed
        self.packages, self.denied, self.others = {}, [], {}
        self.notes, self.alarms = Notes(site.folder), Alarms(changed)
        self.plant = Plant(pol, self.deny, lambda given: self.commands.give(given), self.told)
        self.commands = Commands(turns, self.plant, self.alarms, self.notes)
        self.batches = Batches(turns, self.plant, lambda tag: tag in self.commands.lives, self.commands.closed)
        self.reports = Reports(turns, self.plant, self.alarms, self.commands, self.batches, self.notes)
        self.values = Values(turns, self.plant, self.alarms, self.batches)
        self.late = Late(turns, self.plant, self.alarms, site.late)
        self.adapter = self.commands.adapter = Mqtt(turns, self.hear, *broker, name=name)
        self.trends, self.renewal = Trends(), Renewal(self, script)
        self.deeds = Deeds(self)
        self.shown = Shown(self)

    def begin(self):
        """Goes on where the history stands: modules and recipes of the site that `pol` doesn't have are told it, and
        the commands behind which no report came are taken up."""
        self.plant.past.remember(self.notes.unplugged, self.notes.named, self.notes.left)
        self.notes.begin(self.plant.past.given.values())
        self.told()
        self.commands.take_up(self.plant.past.given.values())
        for tag in self.site.modules:
            if self.plant.module(tag) is None and tag not in self.plant.past.unplugged:
                self.plug(tag)
        for recipe in self.site.recipes:
            self.teach(recipe)
        for tag, module in self.plant.modules().items():
            self.packages[tag] = self.package_of(tag)
            if module["ticket"] is None:
                self.follow(tag, self.packages[tag])
        self.adapter.open()
        self.turns.later(NOBODY_THERE, self.miss)
        self.ask_near()
        self.batches.want(self.plant.open_batches())

    def told(self):
        """The plant was told something: what a shorter file won't tell of it is noted, and the page is drawn anew."""
        self.notes.note_left(self.plant.past.left.known)
        self.changed()

    def plug(self, tag):
        answer = self.plant.tell(self.deeds.plug_event(tag, self.site.modules[tag]))
        if "done" not in answer:
            self.alarms.set(("plug", tag), "plug_refused", tag=tag, answer=answer)

    def teach(self, recipe):
        """Makes a recipe known. One that is known never changes: another form of it has to have another name."""
        name = recipe["recipe"]
        if name not in self.plant.state()["recipes"]:
            answer = self.plant.tell({"ev": "recipe", **recipe})
            if "done" not in answer:
                self.alarms.set(("recipe", None, name), "recipe_refused", recipe=name, answer=answer)
        elif plain(recipe) != plain({key: self.plant.past.recipes[name][key] for key in recipe}):
            self.alarms.set(("recipe", None, name), "recipe_changed", recipe=name)

    def package_of(self, tag):
        """The package of the module that stands under a tag: that of the site, or another one that describes it."""
        description = self.plant.past.descriptions[tag]
        names = [self.site.modules.get(tag), *self.site.packages]
        fitting = [name for name in names if name and self.site.packages[name].description == description]
        return fitting[0] if fitting else None

    def miss(self):
        """Tells of the modules that never came."""
        for tag in self.adapter.followed:
            if tag not in self.commands.lives:
                self.alarms.set(("gone", tag), "never_there", tag=tag)

    def ask_near(self):
        """Asks again and again which limits are near."""
        self.tell_near()
        self.turns.later(NEAR_EVERY, self.ask_near)

    def tell_near(self):
        """Tells which limits are near: once the history is full, no batch can even be stopped any more."""
        near = self.plant.near()
        for rule, code in NEAR.items():
            if rule in near:
                self.alarms.set(("near", None, rule), code, deeds=["renew"] if rule in PUT_OFF else [])
            else:
                self.alarms.clear("near", None, rule)

    # Modules.

    def follow(self, tag, package):
        """Tells from here on what a module does."""
        self.leave(tag)
        if package is None:
            self.alarms.set(("package", tag), "no_package", tag=tag)
            return
        self.packages[tag] = package
        self.adapter.follow(tag, self.site.packages[package].map)
        self.changed()

    def leave(self, tag):
        """Tells nothing more of a module."""
        if tag in self.adapter.followed:
            self.adapter.leave(tag)
            for order in self.commands.of_module(tag):
                self.commands.drop(order.key)
            self.commands.gone(tag)
            for part in (self.reports, self.values, self.late, self.trends):
                part.left(tag)
        self.alarms.clear_of(tag)

    def deny(self, event, answer):
        """What the policy denied is in no history, so it is kept here."""
        self.notes.deny(event, answer)
        denied = {"place": None, "event": event, "answer": answer, "by": event.get("by")}
        self.denied = [*self.denied, denied][-MOST_DENIED:]

    # What the adapter tells.

    @functools.singledispatchmethod
    def hear(self, told):
        """What has no more to it: a setting."""

    @hear.register
    def _(self, told: Back):
        self.alarms.clear("gone", told.tag)
        self.trends.back(told.tag)
        self.reports.back(told.tag, told.life)
        self.commands.back(told.tag, told.life)
        self.batches.touch(told.tag)
        self.changed()

    @hear.register
    def _(self, told: Gone):
        self.commands.gone(told.tag)
        self.trends.gone(told.tag)
        self.alarms.set(("gone", told.tag), "gone", tag=told.tag, why=told.why)
        self.changed()

    @hear.register
    def _(self, told: Report):
        self.alarms.clear("quality", told.tag, f"{SERVICE}/{told.service}")
        self.late.reported((told.tag, told.service), told.fields["StateCur"])
        self.trends.state(told.tag, told.service, told.fields["StateCur"])
        self.reports.take(told)

    @hear.register
    def _(self, told: Value):
        self.trends.value(told.tag, told.variable, told.value)
        self.values.take(told)

    @hear.register
    def _(self, told: Bad):
        if told.place[0] == VARIABLE:
            self.trends.value(told.tag, told.place[1], None)
            self.values.bad(told.tag, told.place[1], told.why)
        else:
            place = "/".join(told.place)
            self.alarms.set(("quality", told.tag, place), "bad_place", tag=told.tag, place=place, why=told.why)

    @hear.register
    def _(self, told: Written):
        other = self.others.pop(told.number, None)
        if other:
            other(told)
        else:
            self.commands.written(told)

    def close(self):
        self.adapter.close()
        self.pol.close()
        self.notes.close()


def plain(recipe):
    """A recipe without what may stand in it or not."""
    if isinstance(recipe, dict):
        return {key: plain(part) for key, part in recipe.items() if (key, part) != ("settings", [])}
    return [plain(each) for each in recipe] if isinstance(recipe, list) else recipe
