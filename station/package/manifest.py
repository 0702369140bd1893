"""The manifest of a package: the bytes of an .aml file, by itself or in a zip. Nothing is unpacked to a disk."""
import io
import pathlib
import struct
import zipfile
import zlib

from package.told import Unreadable, listed, short, shown

MOST_BYTES = 64 << 20
NAME = "manifest.aml"
METHODS = (zipfile.ZIP_STORED, zipfile.ZIP_DEFLATED)
ENCRYPTED = 1
MANIFESTS = (".aml", ".xml")
# What may lie beside the manifest and holds no part of it: pictures, papers, and what a container says of itself.
BESIDE = (".png", ".jpg", ".jpeg", ".gif", ".bmp", ".svg", ".pdf", ".rels", "[content_types].xml")
# All that Python's reader raises on a zip that is damaged.
DAMAGED = (zipfile.BadZipFile, zlib.error, struct.error, EOFError, OSError, RuntimeError, ValueError, IndexError,
           OverflowError)


def manifest_of(path, told):
    """The bytes of the manifest of a package, and a note on each thing that lies beside it."""
    data = bytes_of(path)
    return out_of_zip(data, told) if data.startswith(b"PK") else data


def bytes_of(path):
    with open(path, "rb") as file:
        data = file.read(MOST_BYTES + 1)
    if len(data) > MOST_BYTES:
        raise Unreadable(f"the file has more than {MOST_BYTES:,} bytes; a package of a module has fewer")
    return data


def out_of_zip(data, told):
    try:
        with zipfile.ZipFile(io.BytesIO(data)) as package:
            return unpacked(package, manifest_entry(package.infolist(), told))
    except DAMAGED as fault:
        why = short(str(fault)) or "it ends too early"
        raise Unreadable(f"the zip is damaged: {why}; get the package once more") from fault


def manifest_entry(entries, told):
    """The one entry that is the manifest."""
    files = [entry for entry in entries if not entry.is_dir()]
    outside = [entry.orig_filename for entry in files if is_outside(entry.orig_filename)]
    if outside:
        raise Unreadable(f"the zip has entries that lead out of it ({listed(outside)}); don't trust it")
    found = [entry for entry in files if is_manifest(entry.filename)]
    if len(found) != 1:
        names = listed([entry.filename for entry in found or files])
        raise Unreadable(f"the zip has {len(found)} manifests ({names}); unpack it, and give the right .aml by itself")
    others = [entry.filename for entry in files if entry is not found[0]]
    strange = [name for name in others if not name.lower().endswith(BESIDE)]
    if strange:
        raise Unreadable(f"the zip has other entries ({listed(strange)}); unpack it, and give its {NAME} by itself")
    if others:
        told.lost("the zip", f"what lies beside the manifest isn't read: {listed(others)}")
    if found[0].filename != NAME:
        told.changed("the zip", f"its manifest is {shown(found[0].filename)}, not {NAME}")
    return found[0]


def is_outside(name):
    """Whether the name of an entry would lead out of the folder into which it is unpacked."""
    parts = name.replace("\\", "/").split("/")
    return ".." in parts or not parts[0] or ":" in parts[0] or "\0" in name


def is_manifest(name):
    return pathlib.PurePosixPath(name).suffix.lower() in MANIFESTS and not name.lower().endswith(BESIDE)


def unpacked(package, entry):
    """The bytes of an entry. No more are unpacked than a manifest may have, whatever the zip says."""
    if entry.flag_bits & ENCRYPTED:
        raise Unreadable("the manifest is encrypted; unpack it with its password, and give it by itself")
    if entry.compress_type not in METHODS:
        raise Unreadable("the manifest is packed by a method that isn't deflate; pack it anew, or give it by itself")
    if entry.file_size > MOST_BYTES:
        raise Unreadable(f"the manifest has {entry.file_size:,} bytes unpacked, at most {MOST_BYTES:,} are read; "
                         "don't trust it")
    with package.open(entry) as file:
        return file.read(MOST_BYTES + 1)
