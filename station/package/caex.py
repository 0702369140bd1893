"""CAEX, the form of a manifest, 2.15 and 3.0 alike: its XML as elements with their class, their attributes and what
stands in them. Namespaces aren't looked at."""
import dataclasses
import typing
from xml.parsers import expat

from package.told import Unreadable, shown

MOST_ELEMENTS = 1_000_000
MOST_DEEP = 64
# The XML attributes that are read. All others are left out as they come.
READ = {"Name", "ID", "RefBaseSystemUnitPath", "RefBaseClassPath", "RefBaseRoleClassPath", "RefRoleClassPath",
        "AttributeDataType", "SchemaVersion", "OriginVersion"}
ROLES = {"RoleRequirements": "RefBaseRoleClassPath", "SupportedRoleClass": "RefRoleClassPath"}


@dataclasses.dataclass(slots=True)
class Node:
    """One XML element: its name without namespace, its attributes, the nodes in it, and its text."""
    tag: str
    attributes: dict
    within: list = dataclasses.field(default_factory=list)
    text: str = ""

    def all(self, tag):
        return [node for node in self.within if node.tag == tag]

    def text_of(self, tag):
        return next((node.text for node in self.all(tag)), "")


class Builder:
    """Builds the tree of nodes while expat reads. What would make it grow without end is refused as it comes."""

    def __init__(self):
        self.top, self.count = Node("", {}), 0
        self.open, self.texts = [self.top], [[]]

    def begin(self, name, attributes):
        self.count += 1
        if self.count > MOST_ELEMENTS:
            raise Unreadable(f"the manifest has more than {MOST_ELEMENTS:,} XML elements; that of a module has fewer")
        if len(self.open) > MOST_DEEP:
            raise Unreadable(f"the manifest's XML elements nest more than {MOST_DEEP} deep; those of a module don't")
        node = Node(name.rpartition(" ")[2], {key: text for key, text in attributes.items() if key in READ})
        self.open[-1].within.append(node)
        self.open.append(node)
        self.texts.append([])

    def add(self, text):
        self.texts[-1].append(text)

    def end(self, _):
        self.open.pop().text = "".join(self.texts.pop()).strip()

    def refuse(self, *_):
        """Entities could make a few bytes many, or read other files."""
        raise Unreadable("the manifest has a DOCTYPE, which no package needs; don't trust it")


def tree_of(data):
    """The outermost XML element of a manifest's bytes."""
    builder, parser = Builder(), expat.ParserCreate(namespace_separator=" ")
    parser.buffer_text = True
    parser.StartElementHandler, parser.EndElementHandler = builder.begin, builder.end
    parser.CharacterDataHandler, parser.StartDoctypeDeclHandler = builder.add, builder.refuse
    try:
        parser.Parse(data, True)
    except expat.ExpatError as fault:
        raise Unreadable(f"the manifest is no XML: {fault}; get the package once more") from fault
    except (LookupError, ValueError) as fault:
        raise Unreadable(f"the manifest's encoding can't be read: {fault}; write it in UTF-8") from fault
    return builder.top.within[0]


@dataclasses.dataclass(frozen=True, slots=True)
class Attribute:
    """An attribute of an element. `is_reference` where its value is the ID of an item of a server, and no constant."""
    value: str
    default: str
    is_reference: bool
    within: dict

    def constant(self):
        return self.default if self.is_reference else self.value or self.default


@dataclasses.dataclass(frozen=True, slots=True, eq=False)
class Element:
    """An InternalElement or ExternalInterface; `kind` is the last part of its class's path. Each equals itself alone."""
    name: str
    id: str
    kind: str
    version: str
    attributes: dict
    interfaces: list
    within: list

    def constant(self, name):
        """What the file says of an attribute; empty where it says nothing, or only where to ask."""
        attribute = self.attributes.get(name)
        return attribute.constant() if attribute else ""

    def is_reference(self, name):
        return name in self.attributes and self.attributes[name].is_reference

    def all(self):
        """This element and all in it, each before those in it."""
        yield self
        for element in self.within:
            yield from element.all()


class File(typing.NamedTuple):
    """A manifest: which CAEX it is in, its outermost elements, and the version of the program that wrote it."""
    version: str
    elements: list
    writer: str


def file_of(data):
    root = tree_of(data)
    if root.tag != "CAEXFile":
        raise Unreadable(f"the manifest is no CAEXFile but {shown(root.tag)}; give a module type package")
    tops = [element for top in root.all("InstanceHierarchy") for element in top.all("InternalElement")]
    reader = Reader(set(ids_of(tops)))
    return File(root.attributes.get("SchemaVersion", ""), list(map(reader.element, tops)), writer_of(root))


def key(text):
    """An ID as it is compared: letters of either case, with braces or without."""
    return text.strip().strip("{}").casefold()


def ids_of(nodes):
    """The IDs of all items within these nodes."""
    for node in nodes:
        if node.tag == "ExternalInterface" and "ID" in node.attributes:
            yield key(node.attributes["ID"])
        yield from ids_of(node.within)


def writer_of(root):
    """The version of the program that wrote the file: in 3.0 an attribute, in 2.15 a text."""
    headers = [header for node in root.all("AdditionalInformation") for header in node.all("WriterHeader")]
    found = [node.attributes.get("OriginVersion", "") for node in root.all("SourceDocumentInformation")]
    return next(filter(None, found + [header.text_of("WriterVersion") for header in headers]), "")


class Reader:
    """Makes elements of nodes. `ids` are those of the items of all servers."""

    def __init__(self, ids):
        self.ids = ids

    def element(self, node):
        interfaces, within = (list(map(self.element, node.all(tag))) for tag in ("ExternalInterface", "InternalElement"))
        return Element(node.attributes.get("Name", ""), node.attributes.get("ID", ""), kind_of(node),
                       node.text_of("Version"), self.attributes(node), interfaces, within)

    def attributes(self, node):
        return {each.attributes.get("Name", ""): self.attribute(each) for each in node.all("Attribute")}

    def attribute(self, node):
        value = node.text_of("Value")
        is_reference = "IDREF" in node.attributes.get("AttributeDataType", "") or self.is_id(value)
        return Attribute(value, node.text_of("DefaultValue"), is_reference, self.attributes(node))

    def is_id(self, value):
        """Whether a value is the ID of an item, whatever its type is said to be. A number is none."""
        return not value.isdecimal() and key(value) in self.ids


def kind_of(node):
    """The last part of the path of a node's class, or of its role where it has no class."""
    roles = [each.attributes.get(ROLES[each.tag], "") for each in node.within if each.tag in ROLES]
    paths = [node.attributes.get("RefBaseSystemUnitPath", ""), node.attributes.get("RefBaseClassPath", ""), *roles]
    return next(filter(None, paths), "").rpartition("/")[2].strip("[] ")
