"""A site: a folder that says which modules stand in the plant, who may do what, and which recipes there are."""
import dataclasses
import json
import math
import pathlib

from package import names
from package.plug import Asked, read
from package.told import ERROR, Note

SITE, POLICY, RECIPES, PACKAGES = "site.json", "policy.json", "recipes", "packages"
SUFFIXES = (".mtp", ".aml")
ANY_TAG = "T"
# In seconds: how long a state may last that only passes.
LATE = 60.0
RECIPE_FIELDS = {"recipe", "roles", "chart"}


class Unusable(Exception):
    """A site that can't be run. Its text has a line for each thing that is wrong, and says what to do."""


@dataclasses.dataclass(frozen=True)
class Site:
    """`modules` has the name of a package for each tag, `packages` what was read of each that has no errors, `recipes`
    the fields of each recipe's line, `people` the names that the page offers; `late` is after how many seconds a state
    that only passes is told."""
    folder: pathlib.Path
    modules: dict
    packages: dict
    policy: dict
    recipes: list
    people: list
    late: float = LATE


def read_site(folder):
    """Reads a site, or raises Unusable with all that is wrong."""
    folder, wrong = pathlib.Path(folder), []
    told = object_of(folder / SITE, wrong)
    policy = object_of(folder / POLICY, wrong)
    recipes = [recipe_of(path, wrong) for path in sorted((folder / RECIPES).glob("*.json"))]
    packages, broken = packages_of(folder / PACKAGES)
    modules = modules_of(told, packages, broken, wrong)
    people, late = people_in(told, wrong), told.get("late", LATE)
    if isinstance(late, bool) or not isinstance(late, (int, float)) or not 0 < late < math.inf:
        wrong.append((SITE, f"late is {late!r}, not a number of seconds"))
    if wrong:
        raise Unusable("\n".join(str(Note(ERROR, where, what)) for where, what in wrong))
    return Site(folder, modules, packages, policy, recipes, list(dict.fromkeys([*people, *people_of(policy)])), late)


def object_of(path, wrong):
    """The JSON object in a file; an empty one where there is none, which is told."""
    try:
        found = json.loads(path.read_text(encoding="utf-8"))
    except OSError as fault:
        wrong.append((str(path), f"{fault.strerror}; a site has this file: station/PLANT.md says what is in it"))
        return {}
    except ValueError as fault:
        wrong.append((str(path), f"it is no JSON ({fault}); mend it"))
        return {}
    if not isinstance(found, dict):
        wrong.append((str(path), "it is no JSON object; station/PLANT.md says what is in it"))
        return {}
    return found


def recipe_of(path, wrong):
    """The fields of a recipe's line. What is wrong within them `pol` says."""
    found = object_of(path, wrong)
    if found and set(found) != RECIPE_FIELDS:
        wrong.append((str(path), f"a recipe has the keys {', '.join(sorted(RECIPE_FIELDS))} and no others"))
    return found


def packages_of(folder):
    """Each package of a folder by its file's name, and the errors of those that have some."""
    good, broken = {}, {}
    paths = [path for path in sorted(folder.glob("*")) if path.suffix in SUFFIXES] if folder.is_dir() else []
    for path in paths:
        found = read(path, Asked(ANY_TAG))
        errors = [note for note in found.told.notes if note.kind == ERROR]
        if errors:
            broken[path.name] = errors
        else:
            good[path.name] = found.plug
    return good, broken


def modules_of(told, packages, broken, wrong):
    """The package of each tag. One that is named and can't be had is an error, with each of its own."""
    modules = told.get("modules", {})
    if not isinstance(modules, dict):
        wrong.append((SITE, "its modules are no object of tags, each with the name of a package"))
        return {}
    for tag, name in modules.items():
        if not names.is_name(tag):
            wrong.append((SITE, f"{tag!r} is no name of pol (1 to {names.MOST_LETTERS} of A-Z a-z 0-9 _ - .)"))
        if isinstance(name, str) and name in broken:
            wrong += [(f"{tag}: {name}: {note.where}", note.what) for note in broken[name]]
        elif not isinstance(name, str) or name not in packages:
            wrong.append((SITE, f"{tag} has the package {name!r}, which isn't in {PACKAGES}/; put it there"))
    return modules


def people_in(told, wrong):
    """The names that the site itself gives."""
    people = told.get("people", [])
    if not isinstance(people, list) or not all(isinstance(name, str) and names.is_name(name) for name in people):
        wrong.append((SITE, "its people are no list of names of pol"))
        return []
    return people


def people_of(policy):
    """Who is named in a policy and is no group."""
    groups = [group for group in listed(policy, "groups")]
    named = [name for group in groups for name in listed(group, "members")]
    named += [name for kind in ("rules", "lines") for rule in listed(policy, kind) for name in listed(rule, "who")]
    return [name for name in named if name not in {group.get("group") for group in groups}]


def listed(told, key):
    """A list within a policy, whose form `pol` judges: what is none has no members."""
    found = told.get(key) if isinstance(told, dict) else None
    return found if isinstance(found, list) else []
