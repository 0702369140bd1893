"""Views: the variables of a description, and those of the map."""
import typing

from package import classes, driven, names, ranges
from package.told import listed, shown

MOST_VARIABLES = 64
FEW_STEPS = 1000


class View(typing.NamedTuple):
    """A data assembly that shows a value, the items by which a driver reads it, and its name for `pol`."""
    assembly: object
    items: dict
    name: str

    def kind(self):
        """As what `pol` sees it."""
        return classes.VIEWS[self.assembly.kind]

    def is_called(self, called):
        return self.assembly.name in called or self.name in called


def views_of(contents, told):
    """All views of a package. One has the same name for `pol` whatever is asked for."""
    found = [(each, contents.items_of(each, told)) for each in contents.assemblies if each.kind in classes.VIEWS]
    for assembly, items in found:
        if not has_value(items):
            told.lost(assembly.name, f"the whole {assembly.kind}: it has no item for its value V")
    found = [pair for pair in found if has_value(pair[1])]
    return list(map(View, *zip(*found), names.fitted([assembly.name for assembly, _ in found]))) if found else []


def has_value(items):
    return any(name in items for name in classes.VALUES)


def variables_of(contents, only, told):
    """The variables of the description, those of the map, and the name of each by its data assembly. `only` are the names
    that were asked for; None asks for all."""
    views = views_of(contents, told)
    chosen = as_many_as_fit(views if only is None else asked_for(views, only, told), told)
    names.tell_of([view.assembly for view in chosen], [view.name for view in chosen], "views", "views", told)
    for view in chosen:
        tell_of(view, told)
    description = [{"name": view.name, "kind": view.kind()} for view in chosen]
    entries = {view.name: driven.entry(view.assembly.name, view.assembly, view.items) for view in chosen}
    return description, entries, {view.assembly: view.name for view in chosen}


def asked_for(views, only, told):
    """The views of these names, which are the package's or those for `pol`."""
    known = {name for view in views for name in (view.assembly.name, view.name)}
    for name in only:
        if name not in known:
            there = listed([view.assembly.name for view in views]) or "none"
            told.error("--only", f"no view has the name {shown(name)}; the views are {there}")
    left = [view.assembly.name for view in views if not view.is_called(only)]
    if left:
        told.lost("views", f"{len(left)} that --only doesn't name: {listed(left)}")
    return [view for view in views if view.is_called(only)]


def as_many_as_fit(views, told):
    more = [view.assembly.name for view in views[MOST_VARIABLES:]]
    if more:
        told.lost("views", f"{len(more)} of {len(views)}: {listed(more)}; pol takes {MOST_VARIABLES}: choose by --only")
    return views[:MOST_VARIABLES]


def tell_of(view, told):
    """What a variable doesn't have of its view."""
    assembly, scale = view.assembly, driven.scale_of(view.assembly)
    if assembly.kind != view.kind():
        told.lost(assembly.name, f"the limits and alarms of its {assembly.kind}: for pol its kind is {view.kind()}")
    steps = (scale["to"] - scale["from"]) * ranges.FACTORS["AnaView"] if scale else 0
    if 0 < steps < FEW_STEPS and view.kind() == "AnaView":
        span = f"from {scale['from']:g} to {scale['to']:g}"
        told.changed(assembly.name, f"its scale {span} has only {steps:g} of pol's thousandths")
