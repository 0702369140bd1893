"""Procedures of a service with their parameters: as a description has them, and as the map does."""
import re

from package import classes, driven, names
from package.limits import limits_of
from package.told import shown

MOST_PARAMETERS, LARGEST_NUMBER = 32, 65535
TRUTH = {"true": True, "1": True, "false": False, "0": False, "": False}


class Procedures:
    """Reads the procedures of the services of a package."""

    def __init__(self, contents, told, variables):
        self.contents, self.told, self.variables = contents, told, variables

    def read(self, element, service, shared):
        """A procedure of the description, and of the map. `shared` are the parameters of its service."""
        where = f"{service}/{element.name}"
        number = self.number(element, where)
        own, others = self.parameters_of(element, where, frozenset())
        params = self.parameters(where, shared + own)
        self.told.lost(where, f"its name: pol knows it by its number {number} (the map has it)")
        description = {"number": number, "default": self.truth(element, "IsDefault", where),
                       "self_completing": self.truth(element, "IsSelfCompleting", where),
                       "params": [each for each, _ in params]}
        return description, {"name": element.name, "values": self.values(where, others),
                             "params": {each["name"]: entry for each, entry in params}}

    def number(self, element, where):
        said = next(filter(None, map(element.constant, classes.PROCEDURE_NUMBERS)), "")
        number = int(said) if re.fullmatch("[0-9]{1,9}", said) else 0
        if not 1 <= number <= LARGEST_NUMBER:
            self.told.error(where, f"its number is {shown(said)}; pol takes 1 to {LARGEST_NUMBER}: "
                                   "give it one in the manifest")
        return number

    def truth(self, element, name, where):
        said = element.constant(name)
        if said.lower() not in TRUTH:
            self.told.changed(where, f"{name} is {shown(said)}, which is read as false")
        return TRUTH.get(said.lower(), False)

    def parameters_of(self, element, where, procedures):
        """What stands in a service or a procedure: parameters, each with its data assembly, and what is none."""
        params, others = [], []
        for each in element.within:
            assembly = self.contents.assembly_of(each, f"{where}/{each.name}", self.told)
            if assembly is not None and assembly.kind in classes.PARAMETERS:
                params.append((each, assembly))
            elif each not in procedures:
                others.append((each, assembly))
        return params, others

    def parameters(self, where, found):
        self.told.sized(where, "parameter", len(found), 0, MOST_PARAMETERS)
        found = found[:MOST_PARAMETERS]
        made = names.of_elements([each for each, _ in found], where, "parameters", self.told)
        return [self.parameter(*pair, name, f"{where}/{pair[0].name}") for pair, name in zip(found, made)]

    def parameter(self, element, assembly, name, where):
        items = self.contents.items_of(assembly, self.told)
        if classes.SET_BY not in items:
            self.told.error(where, f"it has no item for {classes.SET_BY}, so no driver can set it; "
                                   "ask its maker for a package that has it")
        description = {"name": name, "kind": assembly.kind, **limits_of(assembly, where, self.told)}
        return description, driven.entry(element.name, assembly, items)

    def values(self, where, others):
        """What a service or a procedure has beside its parameters, for the map: whose a value is `pol` doesn't know."""
        for each, assembly in others:
            kind = each.kind or "an element without class"
            self.told.lost(where, f"{kind} {shown(each.name)}{self.becomes(each, assembly)}")
        return [self.value(each, assembly) for each, assembly in others]

    def value(self, element, assembly):
        variable = {"variable": self.variables[assembly]} if assembly in self.variables else {}
        return {"name": element.name, "class": element.kind, "assembly": assembly.name if assembly else "", **variable}

    def becomes(self, element, assembly):
        if assembly in self.variables:
            return f" is the variable {self.variables[assembly]}: that it belongs here the map has"
        if element.kind in classes.PROCEDURE_PARAMETERS + classes.SERVICE_PARAMETERS:
            return ": its RefID leads to no data assembly of a parameter, so no recipe can set it"
        return ""
