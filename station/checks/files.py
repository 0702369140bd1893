"""Files that are no package, or not one to trust: each is an error in one line that says what to do."""
import pathlib
import re
import struct
import tempfile
import unittest
import zipfile

from checks.reading import mtp, read_data
from making.modules import DOSER, TANK
from making.writer import CAEX3_NAMESPACE, DRAFT, Writer, STANDARD, package_of, zipped
from package.caex import MOST_DEEP, MOST_ELEMENTS
from package.manifest import MOST_BYTES

TEXT = Writer(TANK, STANDARD).text()
HEAD = b'<?xml version="1.0" encoding="utf-8"?>\n'
ENTITIES = b'<!DOCTYPE CAEXFile [<!ENTITY a "aaaaaaaa"><!ENTITY b "&a;&a;&a;&a;">]>\n'


def said_to_be_small(data):
    """A zip whose only entry is said to have ten bytes."""
    at = data.index(b"PK\1\2")
    return data[:22] + struct.pack("<I", 10) + data[26:at + 24] + struct.pack("<I", 10) + data[at + 28:]


def marked(data, place, bits):
    """A zip with these bits set in the header of its only entry and in the list of entries."""
    changed, at = bytearray(data), data.index(b"PK\1\2")
    changed[place] |= bits
    changed[at + place + 2] |= bits
    return bytes(changed)


def with_more(elements):
    """The tank's manifest with more in it."""
    return TEXT.replace(b"</InstanceHierarchy>", elements.encode() + b"</InstanceHierarchy>", 1)


def nested(name, many):
    return with_more(f"<{name} Name='x'>" * many + f"</{name}>" * many)


# What it is, its bytes, and words of what is said.
UNREADABLE = [
    ("nothing", b"", "is no XML: no element found"),
    ("no XML", b"plug M1", "is no XML: syntax error"),
    ("an XML that is none", b"<html/>", "is no CAEXFile but 'html'"),
    ("a CAEX of nothing", b"<CAEXFile/>", "has 0 elements of the class ModuleTypePackage"),
    ("half a manifest", TEXT[:len(TEXT) // 2], "is no XML"),
    ("two packages", with_more('<InternalElement RefBaseSystemUnitPath="a/ModuleTypePackage"/>'),
     "has 2 elements of the class ModuleTypePackage"),
    ("entities", TEXT.replace(HEAD, HEAD + ENTITIES), "has a DOCTYPE"),
    ("entities in another encoding", (HEAD + ENTITIES + b"<CAEXFile/>").decode().replace("utf-8", "utf-16").encode("utf-16"),
     "has a DOCTYPE"),
    ("a DOCTYPE of another file", TEXT.replace(HEAD, HEAD + b'<!DOCTYPE CAEXFile SYSTEM "file:///etc/passwd">\n'),
     "has a DOCTYPE"),
    ("an entity that nobody declared", TEXT.replace(b"Tank", b"&tank;", 1), "undefined entity"),
    ("another encoding than it says", TEXT.replace(b"Tank", b"T\xe4nk", 1), "is no XML: not well-formed"),
    ("an encoding that nobody knows", TEXT.replace(b"utf-8", b"utf-2000"), "encoding can't be read"),
    ("an encoding of several bytes a letter", TEXT.replace(b"utf-8", b"shift_jis"), "encoding can't be read"),
    ("an encoding that is none of texts", TEXT.replace(b"utf-8", b"base64"), "encoding can't be read"),
    ("elements that nest too deep", nested("InternalElement", MOST_DEEP), f"nest more than {MOST_DEEP} deep"),
    ("attributes that nest too deep", nested("Attribute", 100000), f"nest more than {MOST_DEEP} deep"),
    ("too many elements", b"<CAEXFile>" + b"<a/>" * MOST_ELEMENTS + b"</CAEXFile>",
     f"more than {MOST_ELEMENTS:,} XML elements"),
    ("too many bytes", b" " * (MOST_BYTES + 1), f"more than {MOST_BYTES:,} bytes"),
    ("a zip of too many bytes", zipped({"manifest.aml": b" " * (MOST_BYTES + 1)}),
     f"has {MOST_BYTES + 1:,} bytes unpacked"),
    ("a zip that lies on how many", said_to_be_small(package_of(TANK)), "is damaged: Bad CRC-32"),
    ("a zip of nothing", zipped({}), "has 0 manifests"),
    ("a zip without a manifest", zipped({"doser.txt": b""}), "has 0 manifests ('doser.txt')"),
    ("a zip with two manifests", zipped({"manifest.aml": TEXT, "other.aml": TEXT}),
     "has 2 manifests ('manifest.aml', 'other.aml')"),
    ("a zip with other entries", zipped({"manifest.aml": TEXT, "setup.exe": b""}), "has other entries ('setup.exe')"),
    ("a zip that leads out by its folder", zipped({"manifest.aml": TEXT, "../a.png": b""}),
     "lead out of it ('../a.png')"),
    ("a zip that leads to a root", zipped({"/manifest.aml": TEXT}), "lead out of it"),
    ("a zip that leads to a drive", zipped({"C:\\manifest.aml": TEXT}), "lead out of it"),
    ("a zip that leads out within", zipped({"a/../../manifest.aml": TEXT}), "lead out of it"),
    ("an encrypted zip", marked(package_of(TANK), 6, 1), "is encrypted"),
    ("a zip packed in another way", marked(package_of(TANK), 8, 0x0c), "isn't deflate"),
    ("half a zip", package_of(TANK)[:1000], "is damaged"),
    ("the beginning of a zip", b"PK", "is damaged"),
]


class Unreadable(unittest.TestCase):
    def test_each_is_an_error_that_says_what_to_do(self):
        for what, data, words in UNREADABLE:
            errors = read_data(data).of_kind("error")
            self.assertEqual(len(errors), 1, what)
            self.assertIn(words, errors[0], what)
            self.assertIn("; ", errors[0], what)

    def test_the_command_tells_it_in_one_line_and_writes_nothing(self):
        with tempfile.TemporaryDirectory() as folder:
            for what, data, words in UNREADABLE:
                path = pathlib.Path(folder) / "package"
                path.write_bytes(data)
                status, out, err = mtp(path, "--tag", "T", "--map", path.with_name("map"))
                self.assertEqual((status, out, err.count("\n")), (1, "", 1), (what, err))
                self.assertFalse(path.with_name("map").exists(), what)
                self.assertTrue(err.startswith(f"error: {path}: ") and words in err, (what, err))


class Readable(unittest.TestCase):
    """Other forms of one package are read as it is."""

    def same(self, data, told=""):
        read = read_data(data)
        self.assertEqual(read.plug, read_data(TEXT).plug)
        self.assertTrue(not told or told in "\n".join(map(str, read.notes)), read.notes)

    def test_encodings_that_are_what_they_say(self):
        text = TEXT.decode()
        for name in ("utf-16", "latin-1", "us-ascii", "cp1252"):
            self.same(text.replace("utf-8", name).encode(name))
        self.same(text.encode("utf-8-sig"))

    def test_line_ends_and_spaces(self):
        self.same(TEXT.replace(b"\n", b"\r\n"))
        self.same(TEXT.replace(b"<Value>", b"<Value>\n ").replace(b"</Value>", b"\n</Value>"))

    def test_prefixes_and_namespaces(self):
        prefixed = TEXT.decode().replace("<CAEXFile", f'<c:CAEXFile xmlns:c="{CAEX3_NAMESPACE}"')
        self.same(prefixed.replace("</CAEXFile", "</c:CAEXFile").encode())
        self.same(TEXT.replace(b"<CAEXFile", b'<CAEXFile xmlns="urn:another"'))

    def test_another_caex_is_told(self):
        self.same(TEXT.replace(b'"2.15"', b'"4.0"'), "changed: CAEX '4.0' is neither 2.15 nor 3.0")

    def test_ids_with_braces_and_in_other_letters(self):
        self.same(re.sub(b"<Value>(.{8}-.{4}-.{4}-.{4}-.{12})<", lambda found: b"<Value>{" + found[1].upper() + b"}<", TEXT))

    def test_ids_whatever_their_type_is_said_to_be(self):
        """Makers may give a RefID the type of an item's ID, or an item's ID the type of a text."""
        self.same(TEXT.replace(b'Name="RefID" AttributeDataType="xs:string"', b'Name="RefID" AttributeDataType="xs:IDREF"'))
        self.same(TEXT.replace(b'AttributeDataType="xs:IDREF"', b'AttributeDataType="xs:string"'))
        self.same(TEXT.replace(b' AttributeDataType="xs:IDREF"', b""))

    def test_what_may_lie_in_a_zip(self):
        container = {"[Content_Types].xml": b"", "_rels/.rels": b""}
        beside = {"manifest.aml": TEXT, "pictures/": b"", "pictures/tank.svg": b"", **container}
        self.same(zipped(beside), "lost: the zip: what lies beside the manifest isn't read: 'pictures/tank.svg', ")
        for name in ("tank/Manifest.AML", "manifest.xml"):
            self.same(zipped({name: TEXT}), f"changed: the zip: its manifest is '{name}', not manifest.aml")

    def test_a_zip_that_is_only_stored(self):
        with tempfile.NamedTemporaryFile() as file:
            with zipfile.ZipFile(file, "w") as package:
                package.writestr("manifest.aml", TEXT)
            file.seek(0)
            self.same(file.read())

    def test_the_doser_in_each_form_is_one_plug(self):
        plugs = [read_data(package_of(DOSER, form)).plug.description for form in (STANDARD, DRAFT)]
        self.assertEqual(plugs[0], plugs[1])
