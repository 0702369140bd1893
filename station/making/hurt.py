"""Hurts manifests and zips as files are hurt on their way, by their makers, or by somebody who means harm."""
import xml.etree.ElementTree as tree

from making.chance import NAMES, NUMBERS
from making.writer import zipped

MANIFEST = "manifest.aml"
CLASSES = ["MTPSUCLib/ModuleTypePackage", "MTPServiceSUCLib/Service", "MTPServiceSUCLib/ServiceProcedure",
           "MTPSUCLib/CommunicationSet/InstanceList", "A/ServiceControl", "A/AnaView", "A/AnaServParam", "", "[A]/[B/C]"]
OTHER_WORDS = [(b"RefID", b"RefIDs"), (b"ServiceControl", b"ServiceControls"), (b"IDREF", b"string"), (b"VExt", b"VOut"),
               (b"CAEXFile", b"File"), (b"2.15", b"1.0"), (b"true", b"yes"), (b"ModuleTypePackage", b"Module")]
ENCODINGS = ["utf-16", "latin-1", "cp1252", "shift_jis", "utf-7", "base64", "no-such-encoding", "utf-32", "us-ascii"]


def cut(draw, text):
    return text[:draw.randrange(len(text))]


def flip(draw, text):
    """A few bytes are others."""
    changed = bytearray(text)
    for _ in range(draw.randrange(1, 4)):
        changed[draw.randrange(len(changed))] = draw.randrange(256)
    return bytes(changed)


def swap_words(draw, text):
    """A word of the form is another one, at its first places."""
    old, new = draw.choice(OTHER_WORDS)
    return text.replace(old, new, draw.randrange(1, 5))


def doctype(_, text):
    return text.replace(b"?>\n", b'?>\n<!DOCTYPE CAEXFile [<!ENTITY a "b"><!ENTITY c "&a;&a;">]>\n', 1)


def encoding(draw, text):
    """Written in another encoding, or said to be so."""
    changed = text.replace(b'encoding="utf-8"', f'encoding="{draw.choice(ENCODINGS)}"'.encode(), 1)
    return changed.decode().encode(draw.choice(["utf-16", "latin-1", "utf-8", "utf-32"]), errors="replace")


def nest(draw, text):
    """An element stands very deep, or very often."""
    many = draw.choice([10, 70, 3000])
    deep = b"<InternalElement Name='x'>" * many + b"</InternalElement>" * many
    within = draw.choice([deep, b"<InternalElement/>" * many])
    return text.replace(b"</InstanceHierarchy>", within + b"</InstanceHierarchy>", 1)


def rebuild(draw, text):
    """XML elements are left out, doubled or moved, or have other texts."""
    root = tree.fromstring(text)
    for _ in range(draw.randrange(1, 6)):
        parents = [each for each in root.iter() if len(each)]
        change(draw, draw.choice(parents), draw.choice(parents))
    return tree.tostring(root, draw.choice(["utf-8", "utf-16"]))


def change(draw, parent, other):
    """One of the changes, at an element in `parent`."""
    if not len(parent):
        return
    one = draw.choice(list(parent))
    how = draw.randrange(5)
    if how == 0:
        parent.remove(one)
    elif how == 1:
        parent.append(tree.fromstring(tree.tostring(one)))
    elif how == 2:
        other.append(tree.fromstring(tree.tostring(one)))
    elif how == 3 and one.attrib:
        key = draw.choice(list(one.attrib))
        one.set(key, draw.choice(CLASSES if key == "RefBaseSystemUnitPath" else NAMES + NUMBERS))
    else:
        one.text = draw.choice(NAMES + NUMBERS)


HURTS = [cut, flip, swap_words, doctype, encoding, nest, rebuild, rebuild, rebuild]


def with_more(draw, text):
    """A zip with more beside the manifest, or with another name for it."""
    return zipped(draw.choice([
        {MANIFEST: text, "pictures/pump.png": b"", "[Content_Types].xml": b"<Types/>", "_rels/.rels": b""},
        {MANIFEST: text, "readme": b"?"}, {MANIFEST: text, "other.aml": text}, {"doser/Manifest.AML": text},
        {"doser.aml": text}, {"../" + MANIFEST: text}, {"/etc/" + MANIFEST: text}, {"..\\" + MANIFEST: text},
        {"C:/" + MANIFEST: text}, {"a": b""}, {}]))


def damaged(draw, text):
    """A zip of which bytes are gone or others."""
    whole = zipped({MANIFEST: text})
    return draw.choice([cut, flip])(draw, whole)


def packed(draw, text):
    """A manifest as a file: by itself or in a zip, which is hurt now and then."""
    how = draw.randrange(10)
    if how == 0:
        return damaged(draw, text)
    if how == 1:
        return with_more(draw, text)
    return text if how < 6 else zipped({MANIFEST: text})
