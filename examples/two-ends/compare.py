#!/usr/bin/env python3
"""Says whether a mirror has exactly the tags that lines of a source report.

usage: compare.py LINES FOLLOWED

LINES has lines `add KEY LOCATOR HEX`, `change KEY LOCATOR HEX` and `gone KEY`. FOLLOWED is what
`swid follow --kind full` printed of one endpoint: each record ends with the length of its tag, a
colon and the SHA-256 of the tag. The status is 0 where the two have the same tags, and else 1.
"""

import hashlib
import sys


def reported(path):
    """The length and digest of the tag of each key that is there in the end."""
    tags = {}
    with open(path, encoding="ascii") as lines:
        for line in lines:
            verb, key, *rest = line.split()
            if verb == "gone":
                del tags[key]
            else:
                octets = bytes.fromhex(rest[-1])
                tags[key] = f"{len(octets)}:{hashlib.sha256(octets).hexdigest()}"
    return sorted(tags.values())


def mirrored(path):
    """The length and digest of the tag of each record."""
    with open(path, encoding="ascii") as lines:
        return sorted(line.split()[-1] for line in lines if line.startswith("record "))


def main():
    lines, followed = sys.argv[1:]
    wanted, found = reported(lines), mirrored(followed)
    if wanted == found:
        print(f"the mirror has the {len(found)} tags of the packages, and no other")
    else:
        print(f"the mirror has {len(found)} tags, and the packages have {len(wanted)}")
    return wanted != found


sys.exit(main())
