"""The verdicts of `swid tag verify` on the files of a payload, by the rules of docs/rules/tags.md. The files are given as values."""

import hashlib
from dataclasses import dataclass

from cbor import notation, spelled
from coswid import DIRECTORY, FILE, FS_NAME, HASH, LOCATION, NAMES, PATH_ELEMENTS, PAYLOAD, ROOT, SIZE, several, told

ALGORITHMS = {1: hashlib.sha256, 7: hashlib.sha384, 8: hashlib.sha512}
MOST_OCTETS = 67108864


def joined(parts):
    return "/".join(part for part in parts if part)


def listed(held, around=()):
    """The paths and entries of files that stand in directories: files before directories, depth first."""
    for entry in several(held.get(FILE, [])):
        yield joined((entry.get(ROOT), *around, entry.get(LOCATION), entry[FS_NAME])), entry
    for entry in several(held.get(DIRECTORY, [])):
        yield from listed(entry.get(PATH_ELEMENTS, {}), (*around, entry.get(LOCATION), entry[FS_NAME]))


def verdict(entry, content):
    """The verdict on an entry whose file has this content, or None where there is no such file."""
    if HASH not in entry:
        return "unhashed"
    algorithm, digest = entry[HASH]
    if algorithm not in ALGORITHMS:
        return f"algorithm {algorithm}"
    if content is None:
        return "missing"
    if len(content) > MOST_OCTETS:
        return f"long {len(content)}"
    is_same = ALGORITHMS[algorithm](content).digest() == digest and entry.get(SIZE, len(content)) == len(content)
    return "same" if is_same else "differs"


@dataclass(frozen=True)
class Verified:
    """A tag, and the files of the folder in which the program runs."""

    tag: dict
    files: dict

    def octets(self):
        return spelled(self.tag)

    def told(self):
        return told(self.tag, [(path, verdict(entry, self.files.get(path))) for path, entry in listed(self.tag[PAYLOAD])])

    def notation(self):
        return notation(self.tag, NAMES)
