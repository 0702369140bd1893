"""Services: as a description has them, and as the map does."""
from package import classes, driven, names
from package.procedures import Procedures
from package.told import listed

MOST_SERVICES, MOST_PROCEDURES = 32, 16


class Services:
    """Reads the services of a package."""

    def __init__(self, contents, told, variables):
        """`variables` has the name of each variable by the data assembly that it shows."""
        self.contents, self.told = contents, told
        self.procedures = Procedures(contents, told, variables)

    def read(self):
        """The services of the description, and those of the map by their names for `pol`."""
        found, package = self.contents.services, self.contents.package.name
        self.told.sized(package, "service", len(found), 1, MOST_SERVICES)
        found = found[:MOST_SERVICES]
        made = list(map(self.service, found, names.of_elements(found, package, "services", self.told)))
        return [description for description, _ in made], {description["name"]: entry for description, entry in made}

    def service(self, element, name):
        control = self.control(element)
        items = self.contents.items_of(control, self.told)
        self.ask_for_items(element.name, items)
        procedures, entries, values = self.parts(element)
        entry = {"name": element.name, "assembly": control.name, "items": driven.items_entry(items), "values": values,
                 "procedures": {str(description["number"]): each for description, each in zip(procedures, entries)}}
        return {"name": name, "procedures": procedures}, entry

    def control(self, element):
        found = self.contents.assembly_of(element, element.name, self.told)
        if found is not None and found.kind == classes.CONTROL:
            return found
        self.told.error(element.name, f"its RefID leads to no {classes.CONTROL}; "
                                      "ask its maker for a package where it does")
        return element

    def ask_for_items(self, where, items):
        """Says what of a service control a driver, or an operator, will miss."""
        followed = [name for name in classes.FOLLOWED if name not in items]
        by_hand = [name for name in classes.BY_HAND if name not in items]
        has_none = f"its {classes.CONTROL} has no item for"
        if followed:
            self.told.error(where, f"{has_none} {', '.join(followed)}, without which no driver can follow it; "
                                   "ask its maker for a package that has them")
        if by_hand:
            self.told.lost(where, f"{has_none} {', '.join(by_hand)}: it can't be commanded by hand")

    def parts(self, element):
        """The procedures of a service, their entries in the map, and what else stands in it."""
        where = element.name
        found = [each for each in element.within if each.kind in classes.PROCEDURES]
        shared, others = self.procedures.parameters_of(element, where, frozenset(found))
        if shared:
            own = listed([each.name for each, _ in shared])
            self.told.changed(where, f"its own parameters ({own}) stand at each of its procedures: pol has no others")
        self.told.sized(where, "procedure", len(found), 1, MOST_PROCEDURES)
        made = [self.procedures.read(each, where, shared) for each in found[:MOST_PROCEDURES]]
        values = self.procedures.values(where, others)
        return self.numbered(where, [description for description, _ in made]), [entry for _, entry in made], values

    def numbered(self, where, procedures):
        """These procedures with one number each and one default: the first that says so, else the first."""
        numbers = [procedure["number"] for procedure in procedures]
        for number in names.twice(numbers):
            self.told.error(where, f"two procedures have the number {number}; give one of them another in the manifest")
        defaults = [procedure["number"] for procedure in procedures if procedure["default"]]
        if not procedures or len(defaults) == 1:
            return procedures
        chosen = (defaults or numbers)[0]
        self.told.changed(where, f"{len(defaults)} procedures are the default; for pol it is number {chosen}")
        return [{**procedure, "default": procedure["number"] == chosen} for procedure in procedures]
