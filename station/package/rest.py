"""What of a package `pol` has no place for: fields of data assemblies, whole data assemblies, and whole sets."""
import collections

from package import classes, driven
from package.told import short

# What is no fact of a module, or has its place under another name.
NAMED = ("RefID", "TagName", "TagDescription")
READ = {classes.CONTROL: classes.FOLLOWED + classes.BY_HAND,
        **dict.fromkeys(classes.PARAMETERS, (classes.SET_BY, *classes.LIMITS)),
        **dict.fromkeys(classes.VIEWS, classes.VALUES)}
MOST_NAMED = 40


def tell_of(contents, told):
    """Each kind of thing in one line."""
    for kind, fields in READ.items():
        tell_of_fields(kind, fields, [each for each in contents.assemblies if each.kind == kind], told)
    others = collections.Counter(each.kind for each in contents.assemblies if each.kind not in READ)
    for kind, count in others.items():
        told.lost("data assemblies", f"{count} {short(kind)}")
    for kind, count in collections.Counter(each.kind or each.name for each in contents.unread()).items():
        told.lost(kind, "the whole of it" if count == 1 else f"all {count} of them")


def tell_of_fields(kind, fields, assemblies, told):
    """The fields of a kind of data assembly that aren't read: those that the map has, and the others."""
    found = {}
    for assembly in assemblies:
        for name, attribute in assembly.attributes.items():
            if name not in fields + NAMED:
                found[name] = found.get(name, False) or is_in_map(name, attribute)
    for is_there, where in ((True, " (the map has them)"), (False, "")):
        names = [short(name) for name, is_kept in found.items() if is_kept == is_there]
        if names:
            told.lost(kind, f"{', '.join(names[:MOST_NAMED])}{', ..' if len(names) > MOST_NAMED else ''}{where}")


def is_in_map(name, attribute):
    """Whether the map has an attribute: as an item, as the unit or the scale, or as texts of values."""
    return attribute.is_reference or name in classes.SHOWN or bool(driven.texts_in(name, attribute))
