#!/usr/bin/env python3
"""Writes files and a CoSWID tag (RFC 9393) of them, to measure with. The same words give the same octets.

usage: verify_files.py COUNT SIZE FOLDER TAG

COUNT files of SIZE octets in FOLDER, which is made, and a tag with their names, sizes and SHA-256 digests as TAG.
"""

import hashlib
import os
import pathlib
import sys

sys.dont_write_bytecode = True
sys.path.insert(0, os.path.join(os.path.dirname(os.path.abspath(__file__)), os.pardir, "examples", "make"))

from cbor import spelled


def octets_of(index, size):
    """What the file of this number holds: a block that is its own, again and again."""
    block = hashlib.sha256(b"%d" % index).digest() * 2048
    return (block * (size // len(block) + 1))[:size]


def file_entry(name, content):
    """The entry of a file: 7 hash (1 for SHA-256), 20 size, 24 fs-name."""
    return {7: [1, hashlib.sha256(content).digest()], 20: len(content), 24: name}


def main():
    count, size = int(sys.argv[1]), int(sys.argv[2])
    folder, tag = pathlib.Path(sys.argv[3]), pathlib.Path(sys.argv[4])
    folder.mkdir()
    entries = []
    for index in range(count):
        name, content = "file%05d" % index, octets_of(index, size)
        (folder / name).write_bytes(content)
        entries.append(file_entry(name, content))
    # 0 tag-id, 1 software-name, 2 entity, 6 payload, 12 tag-version, 13 software-version
    told = {0: "files", 1: "files", 2: {31: "maker", 33: 1}, 6: {17: entries}, 12: 0, 13: "1"}
    tag.write_bytes(spelled(told))


main()
