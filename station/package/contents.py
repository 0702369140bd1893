"""What a manifest holds: the package, its services, its data assemblies, and the items at its servers."""
import collections
import dataclasses

from package import caex, classes
from package.caex import key
from package.told import Unreadable, shown

KNOWN = ("2.15", "3.0")
REFERENCE = "RefID"


@dataclasses.dataclass(frozen=True)
class Item:
    """A variable at a server: what a driver reads and writes."""
    server: str
    node: str
    namespace: str
    access: str


class Contents:
    """The parts of a manifest, found by their classes wherever they stand."""

    def __init__(self, data, told):
        file = caex.file_of(data)
        if file.version not in KNOWN:
            told.changed("", f"CAEX {shown(file.version)} is neither {' nor '.join(KNOWN)}; it is read as they are")
        self.tops = file.elements
        self.elements = [each for element in self.tops for each in element.all()]
        self.writer, self.package = file.writer, self.only_package()
        self.services = self.of_kind(classes.SERVICE)
        listed = [each for top in self.of_kind(classes.INSTANCES) for each in top.all() if each is not top]
        self.assemblies = [each for each in dict.fromkeys(listed) if each.kind]
        self.servers = {element.name: element.constant("Endpoint") for element in self.elements
                        if "Endpoint" in element.attributes or element.kind.endswith("Server")}
        self.items = grouped((item.id, item_of(server, item)) for server in self.elements for item in server.interfaces)
        self.referred = grouped((reference_of(assembly), assembly) for assembly in self.assemblies)

    def of_kind(self, kind):
        return [element for element in self.elements if element.kind == kind]

    def only_package(self):
        found = self.of_kind(classes.PACKAGE)
        if len(found) != 1:
            raise Unreadable(f"the manifest has {len(found)} elements of the class {classes.PACKAGE}, not one; "
                             "give the package of one module")
        return found[0]

    def unread(self):
        """The outermost elements, and those of the package, in which nothing is that is read."""
        return [each for each in self.tops + self.package.within if not any(map(is_read, each.all()))]

    def assembly_of(self, element, where, told):
        """The data assembly to which the RefID of an element leads; None where it leads to none, or to several."""
        text = reference_of(element)
        found = self.referred.get(key(text), []) if text else []
        if len(found) > 1:
            told.lost(where, f"{len(found)} data assemblies have its RefID {shown(text)}: none is taken")
        return found[0] if len(found) == 1 else None

    def items_of(self, assembly, told):
        """The items of a data assembly by the names of its attributes."""
        referring = {name: attribute.value for name, attribute in assembly.attributes.items()
                     if attribute.is_reference and attribute.value and name != REFERENCE}
        items = {name: self.item(assembly, name, value, told) for name, value in referring.items()}
        return {name: item for name, item in items.items() if item}

    def item(self, assembly, name, text, told):
        """The item with this ID; None where no item has it, or several have."""
        found = self.items.get(key(text), [])
        if len(found) != 1:
            told.lost(assembly.name, f"{name}: {len(found) or 'no'} items of a server have its ID {shown(text)}")
        return found[0] if len(found) == 1 else None


def grouped(pairs):
    """What has one ID, for each ID; what has none is left out."""
    groups = collections.defaultdict(list)
    for text, each in pairs:
        if key(text):
            groups[key(text)].append(each)
    return groups


def is_read(element):
    """Whether an element is read, or only leads to others that are."""
    return element.kind in (*classes.SETS_READ, classes.PACKAGE, classes.INSTANCES, classes.SERVICE)


def reference_of(element):
    """The RefID of an element, which some types make look like the ID of an item."""
    attribute = element.attributes.get(REFERENCE)
    return attribute.value or attribute.default if attribute else ""


def item_of(server, item):
    return Item(server.name, *(item.constant(name) for name in ("Identifier", "Namespace", "Access")))
