"""The files of the folder files/, and the tags that list them, as values."""

import hashlib

from coswid import DIRECTORY, FILE, FS_NAME, HASH, LOCATION, PATH_ELEMENTS, PAYLOAD, SHA_256, SIZE
from coswid_files import Verified
from tag_values import tag

SHA_384, SHA_512 = 7, 8
OTHER_ALGORITHM = 2  # SHA-256 cut to 128 bits, which is registered and not looked at

EDIT = b"#!/bin/sh\nexec ed \"$@\"\n"
HELP = b"Write what you mean.\n"
NEW_HELP = b"Mean what you write.\n"
GREEK = b"alpha beta gamma\n"

# What lies in the folder, by path: the files of an editor, and the same again, where the help was changed since.
FILES = {
    "editor/edit": EDIT,
    "editor/share/help.txt": HELP,
    "editor/share/fonts/greek.txt": GREEK,
    "editor/notes": b"",
    "changed/edit": EDIT,
    "changed/share/help.txt": NEW_HELP,
    "changed/share/fonts/greek.txt": GREEK,
    "changed/notes": b"",
}


def unhashed(name):
    return {FS_NAME: name}


def hashed(name, content, algorithm=SHA_256, digest=hashlib.sha256):
    """The entry of a file with its digest and its size, the keys in rising order."""
    return {HASH: [algorithm, digest(content).digest()], SIZE: len(content), FS_NAME: name}


def directory(name, **held):
    parts = {DIRECTORY: held.get("directories"), FILE: held.get("files")}
    return {FS_NAME: name, PATH_ELEMENTS: {key: part for key, part in parts.items() if part}}


FONTS = directory("fonts", files=hashed("greek.txt", GREEK, SHA_384, hashlib.sha384))

# As it lies there: in a directory a file and another directory, with one more in it; the notes have no hash.
INSTALLED = {
    DIRECTORY: directory(
        "editor",
        files=[hashed("edit", EDIT, SHA_512, hashlib.sha512), unhashed("notes")],
        directories=directory("share", files=hashed("help.txt", HELP), directories=FONTS),
    )
}

# Those where the help was changed, by their locations and as they were; one is not there, of one the size is wrong, and one has a
# hash of another algorithm.
CHANGED = {
    FILE: [
        {HASH: [SHA_256, hashlib.sha256(EDIT).digest()], LOCATION: "changed", FS_NAME: "edit"},
        {HASH: [SHA_256, hashlib.sha256(HELP).digest()], LOCATION: "changed/share", FS_NAME: "help.txt"},
        {HASH: [SHA_256, hashlib.sha256(b"").digest()], SIZE: 1, LOCATION: "changed", FS_NAME: "notes"},
        {HASH: [SHA_256, hashlib.sha256(b"").digest()], LOCATION: "changed", FS_NAME: "read me"},
        {HASH: [OTHER_ALGORITHM, hashlib.sha256(GREEK).digest()[:16]], LOCATION: "changed/share/fonts", FS_NAME: "greek.txt"},
    ]
}

# A tag of a file that can be no file: the folder that the program runs in.
FOLDER = Verified(tag("a-folder", {PAYLOAD: {FILE: hashed(".", b"")}}), {})

CASES = {
    "installed": Verified(tag("editor-files", {PAYLOAD: INSTALLED}), FILES),
    "changed": Verified(tag("editor-files", {PAYLOAD: CHANGED}), FILES),
}
