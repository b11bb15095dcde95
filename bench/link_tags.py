#!/usr/bin/env python3
"""Writes CoSWID tags (RFC 9393) one after another, to measure with. The same words give the same file.

usage: link_tags.py SHAPE COUNT FILE

COUNT tags, and the shapes are

    linked    each tag has four links to others, in no order; every third is a patch
    dangling  each tag has four links to tags that are not there
    fronts    as `linked`, with identifiers of 1024 octets, of which all but the last eight are the same in all tags
    alike     one tag again and again
    last      one tag again and again, and at the end one of the same identity with other content
    turns     two contents of one identity in turns, in groups of ten
    apart     one identity with another content in each tag
"""

import os
import sys

sys.dont_write_bytecode = True
sys.path.insert(0, os.path.join(os.path.dirname(os.path.abspath(__file__)), os.pardir, "examples", "make"))

from cbor import spelled


def tag(tag_id, links=(), patch=False, name="software"):
    """A tag: 0 tag-id, 1 software-name, 2 entity, 4 links, 9 patch, 12 tag-version."""
    told = {0: tag_id, 1: name, 2: {31: "maker", 33: 1}}
    if links:
        told[4] = [{38: "swid:" + aim, 40: rel} for aim, rel in links]
    if patch:
        told[9] = True
    told[12] = 0
    return spelled(told)


def scattered(index, count):
    """A number below `count`."""
    return index * 2654435761 % (1 << 32) % count


def linked(count, name):
    """Tags with links into one another."""
    for index in range(count):
        aims = (scattered(4 * index + turn, count) for turn in range(4))
        yield tag(name(index), [(name(aim), 5 + turn) for turn, aim in enumerate(aims)], patch=index % 3 == 0)


def dangling(count):
    """Tags with links to others that are not there."""
    for index in range(count):
        yield tag(f"tag-{index}", [(f"none-{4 * index + turn}", 5 + turn) for turn in range(4)])


SHAPES = {
    "linked": lambda count: linked(count, lambda index: f"tag-{index}"),
    "dangling": dangling,
    "fronts": lambda count: linked(count, lambda index: "f" * 1016 + f"{index:08}"),
    "alike": lambda count: (tag("one") for _ in range(count)),
    "last": lambda count: (tag("one", name="last" if index == count - 1 else "software") for index in range(count)),
    "apart": lambda count: (tag("one", name=f"software-{index}") for index in range(count)),
    "turns": lambda count: (tag(f"tag-{index // 10}", name=f"software-{index % 2}") for index in range(count)),
}


def main():
    shape, count, path = sys.argv[1:]
    with open(path, "wb") as file:
        for octets in SHAPES[shape](int(count)):
            file.write(octets)


main()
