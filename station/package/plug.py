"""A package as a plug line of `pol`, and as the map that a driver needs beside it."""
import dataclasses
import json
import typing

from package import names, rest
from package.contents import Contents
from package.manifest import manifest_of
from package.services import Services
from package.told import Told, Unreadable, shown
from package.versions import three_parts
from package.views import variables_of

MOST_BYTES = 1_048_576


@dataclasses.dataclass(frozen=True)
class Asked:
    """What is asked for by hand: the tag and the stamp of the line, and what replaces what the package tells. `only` are
    the names of the views that become variables; None asks for all."""
    tag: str
    at: int = 0
    version: str = ""
    type: str = ""
    only: tuple | None = None


@dataclasses.dataclass(frozen=True)
class Plug:
    """A module's description, in the form of `pol`, and the map for its driver."""
    description: dict
    map: dict


class Read(typing.NamedTuple):
    """What came of a package: its plug and the line, of use where nothing that is told is an error."""
    plug: Plug | None
    line: str
    told: Told


def read(path, asked):
    """Reads a package. Of a file that can't be read it is told why, and nothing else."""
    told = Told()
    try:
        plug = plug_of(manifest_of(path, told), asked, told)
        return Read(plug, line_of(plug, asked, told), told)
    except Unreadable as fault:
        return Read(None, "", unread(path, str(fault)))
    except OSError as fault:
        return Read(None, "", unread(path, f"{fault.strerror}; name a file that can be read"))


def unread(path, why):
    told = Told()
    told.error(str(path), why)
    return told


def plug_of(data, asked, told):
    """The plug of a manifest's bytes."""
    contents = Contents(data, told)
    variables, shown_values, by_assembly = variables_of(contents, asked.only, told)
    services, commanded = Services(contents, told, by_assembly).read()
    named = {"type": type_of(contents, asked, told), "version": version_of(contents, asked, told)}
    rest.tell_of(contents, told)
    return Plug({**named, "services": services, "variables": variables},
                {"name": contents.package.name, **named, "servers": contents.servers, "services": commanded,
                 "variables": shown_values})


def type_of(contents, asked, told):
    return asked.type or names.of_elements([contents.package], contents.package.name, "packages", told)[0]


def version_of(contents, asked, told):
    """The module's version: what is asked for, else what the package tells. The version of the program that wrote it is
    none of the module's."""
    package = contents.package
    said = asked.version or package.constant("Version") or package.constant("ModuleVersion") or package.version
    made = three_parts(said)
    if not said:
        writer = f" (its writer has {shown(contents.writer)})" if contents.writer else ""
        told.error(package.name, f"no version of the module is told{writer}; give it by --version")
    elif made is None:
        told.error(package.name, f"{shown(said)} is no version of three parts; give one by --version, such as 1.0.0")
    elif made != said:
        told.changed(package.name, f"the version {shown(said)} is {made} for pol")
    return made or ""


def line_of(plug, asked, told):
    """The plug line as `pol` writes it: no spaces, the keys in byte order."""
    event = {"at": asked.at, "desc": plug.description, "ev": "plug", "tag": asked.tag}
    line = json.dumps(event, separators=(",", ":"), sort_keys=True)
    if len(line) > MOST_BYTES:
        told.error("", f"the line has {len(line):,} bytes, pol takes {MOST_BYTES:,}; "
                       "leave out procedures and parameters in the manifest")
    return line
