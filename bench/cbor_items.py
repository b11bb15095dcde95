#!/usr/bin/env python3
"""Writes items of CBOR (RFC 8949) to measure with. The same words give the same file.

usage: cbor_items.py SHAPE MIB FILE

One item of at most MIB times 1048576 octets, and the shapes are

    keys      a map from integers of 32 bits, in no order, to 0
    rising    the same, with the keys in order
    texts     a map from texts of eight digits, in order, to 0
    fronts    a map from strings of 256 octets, of which all but the last four are the same in all keys, in no order, to 0
    maps      a map from maps of one pair, whose keys are 32 bits in no order, to 0
    array     an array of zeros
    chunks    a byte string of empty chunks
    deep      an array of arrays, maps, keys and tags in each other down to the depth of 64, in a mixture
    nested    an array of arrays of one, in each other down to the depth of 64
    keyed     an array of zeros as a key of a map that is a key of a map, and so on, down to the depth of 64; in each map it stands
              between the keys 0 and 1, so that all three are compared

or, for the shapes `tags` and `links`, software identification tags (RFC 9393) one after another, each with 60 files or with 60
links, of as many octets in all that no tag more finds room; or one tag of at most that many octets, and the shapes are

    tag-extras       pairs under keys of its own of 32 bits, in no order
    tag-files        a payload of files, each with its name, its size and its SHA-256
    tag-directories  a payload of directories, each with 19 more in one another, and three files in the innermost
    tag-deep         the mixture `deep` under a key of its own, down to the depth of 64 under the tag of tags
    tag-breaks       an array of arrays of one under a key of its own, in each other down to that depth; a break ends each
"""

import os
import random
import struct
import sys

sys.dont_write_bytecode = True
sys.path.insert(0, os.path.join(os.path.dirname(os.path.abspath(__file__)), os.pardir, "examples", "make"))

from cbor import head, spelled

DEEPEST = 64
NESTED = 20  # directories in one another


def scattered(index):
    """32 bits, each once, since the factor is odd."""
    return struct.pack(">I", index * 2654435761 % (1 << 32))


def map_of(room, keys):
    """A map of as many of the keys as find room, each with 0 as its value; the keys have one length."""
    size = len(keys(0)) + 1
    count = (room - 5) // size
    return head(5, count) + b"".join(keys(index) + b"\0" for index in range(count))


def deep(room, depth=DEEPEST):
    """An array of this depth, of items that all go down to it."""
    chance = random.Random(1)
    parts, used = [], 2
    while True:
        front, back = b"", b""
        for _ in range(depth - 2):
            before, behind = chance.choice(
                ((b"\x81", b""), (b"\x9f", b"\xff"), (b"\xc0", b""), (b"\xa1\0", b""), (b"\xa1", b"\0"), (b"\xbf\0", b"\xff"))
            )
            front, back = front + before, behind + back
        part = front + b"\0" + back
        if used + len(part) > room:
            return b"\x9f" + b"".join(parts) + b"\xff"
        parts.append(part)
        used += len(part)


def nested(room, depth=DEEPEST):
    part = b"\x81" * (depth - 2) + b"\0"
    count = (room - 5) // len(part)
    return head(4, count) + part * count


def breaks(room, depth):
    part = b"\x9f" * (depth - 2) + b"\0" + b"\xff" * (depth - 2)
    return b"\x9f" + part * ((room - 2) // len(part)) + b"\xff"


def keyed(room):
    front, back = b"\xa3\0\0", b"\0\1\0"
    levels = DEEPEST - 2
    count = room - levels * len(front + back) - 5
    return front * levels + head(4, count) + bytes(count) + back * levels


SHAPES = {
    "keys": lambda room: map_of(room, lambda index: b"\x1a" + scattered(index)),
    "rising": lambda room: map_of(room, lambda index: b"\x1a" + struct.pack(">I", index + (1 << 20))),
    "texts": lambda room: map_of(room, lambda index: b"\x68%08d" % index),
    "fronts": lambda room: map_of(room, lambda index: b"\x59\1\0" + bytes(252) + scattered(index)),
    "maps": lambda room: map_of(room, lambda index: b"\xa1\x44" + scattered(index) + b"\0"),
    "array": lambda room: head(4, room - 5) + bytes(room - 5),
    "chunks": lambda room: b"\x5f" + b"\x40" * (room - 2) + b"\xff",
    "deep": deep,
    "nested": nested,
    "keyed": keyed,
}


TAGS = {"tags": lambda room: tags(room, 2, True), "links": lambda room: tags(room, 60, False)}


def file_of(chance, index):
    """A file with its name, size, and SHA-256."""
    digest = head(4, 2) + head(0, 1) + head(2, 32) + chance.randbytes(32)
    name = spelled(f"{chance.choice(('lib', 'bin', 'share', 'etc'))}-{index:05d}.{chance.choice(('so.6', 'py', 'conf', 'h'))}")
    return head(5, 3) + head(0, 7) + digest + head(0, 20) + head(0, chance.randrange(1 << 24)) + head(0, 24) + name


def payload(chance):
    """Files, as a field of a tag."""
    return 6, head(5, 1) + head(0, 17) + head(4, 60) + b"".join(file_of(chance, place) for place in range(60))


def tag(chance, index, links, has_files):
    """A primary tag with its creator, that many links, and its files, if it has any (RFC 9393, section 2)."""
    entity = head(5, 3) + head(0, 31) + spelled("Example Software Limited") + head(0, 32) + head(6, 32) + spelled("example.com")
    entity += head(0, 33) + head(4, 2) + b"\1\2"
    link = b"".join(
        head(5, 2) + head(0, 38) + head(6, 32) + spelled(f"swid:example.com/component-{chance.randrange(9999)}") + head(0, 40) + b"\7" for _ in range(links)
    )
    files = [payload(chance)] if has_files else []
    fields = [
        (0, head(2, 16) + chance.randbytes(16)),
        (1, spelled(f"Example Package {index}")),
        (2, entity),
        (4, head(4, links) + link),
        *files,
        (12, b"\0"),
        (13, spelled(f"{index % 7}.{index % 13}.{index % 101}")),
    ]
    return head(6, 1398229316) + head(5, len(fields)) + b"".join(head(0, key) + value for key, value in fields)


def directory(chance, index):
    """A directory in a directory and so on, and files in the innermost."""
    held = head(5, 1) + head(0, 17) + head(4, 3) + b"".join(file_of(chance, 3 * index + place) for place in range(3))
    for level in range(NESTED):
        held = head(5, 2) + head(0, 24) + spelled(f"d{level}-{index:05d}") + head(0, 26) + held
        if level + 1 < NESTED:
            held = head(5, 1) + head(0, 16) + held
    return held


def filling(room, part):
    """As many parts as find room, in an array of any number below 2 ** 32."""
    parts, used = [], 5
    while True:
        made = part(len(parts))
        if used + len(made) > room:
            return b"\x9a" + struct.pack(">I", len(parts)) + b"".join(parts)
        parts.append(made)
        used += len(made)


def payload_of(room, key, part):
    """A payload with an array under one key, as a field of a tag."""
    return b"\6" + head(5, 1) + head(0, key) + filling(room - 4, part)


def extras(room):
    """Pairs under keys of 32 bits. The lowest is above all that a tag lists."""
    count = room // 6
    return count, b"".join(b"\x1a" + struct.pack(">I", 1 << 31 | index * 2654435761 % (1 << 31)) + b"\0" for index in range(count))


def one_tag(room, fields_of):
    """A tag under the tag of tags, with what it must have and these fields, which are counted."""
    before = b"\0\x61a\1\x61b\2" + head(5, 2) + head(0, 31) + b"\x61c" + head(0, 33) + b"\1" + b"\x0c\0"
    count, fields = fields_of(room - len(before) - 10)
    return head(6, 1398229316) + b"\xba" + struct.pack(">I", 4 + count) + before + fields


ONE_TAG = {
    "tag-extras": extras,
    "tag-files": lambda room: (1, payload_of(room, 17, lambda index: file_of(random.Random(index), index))),
    "tag-directories": lambda room: (1, payload_of(room, 16, lambda index: directory(random.Random(index), index))),
    "tag-deep": lambda room: (1, head(0, 99) + deep(room - 2, DEEPEST - 2)),
    "tag-breaks": lambda room: (1, head(0, 99) + breaks(room - 2, DEEPEST - 2)),
}
TAGS |= {shape: lambda room, fields=fields: one_tag(room, fields) for shape, fields in ONE_TAG.items()}


def tags(room, links, has_files):
    chance = random.Random(1)
    parts, used, index = [], 0, 0
    while True:
        part = tag(chance, index, links, has_files)
        if used + len(part) > room:
            return b"".join(parts)
        parts.append(part)
        used += len(part)
        index += 1


def main():
    if len(sys.argv) != 4 or not sys.argv[2].isdigit() or sys.argv[1] not in (*SHAPES, *TAGS):
        sys.exit(__doc__)
    shape, room = sys.argv[1], int(sys.argv[2]) << 20
    octets = (SHAPES | TAGS)[shape](room)
    with open(sys.argv[3], "wb") as file:
        file.write(octets)


if __name__ == "__main__":
    main()
