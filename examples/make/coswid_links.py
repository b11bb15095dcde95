"""What `swid links` prints of tags one after another, by the rules of docs/rules/tags.md and docs/rules/commands.md. Tags are given as values."""

import uuid
from dataclasses import dataclass

from cbor import Tagged, canonical, notation, spelled
from coswid import COSWID, HREF, LINK, NAMES, PATCHES, REL, REL_NAMES, REQUIRES, SUPPLEMENTS, TAG_ID, TAG_VERSION, TAGS
from coswid import kind, several, tag_fault, written

SCHEME = "swid:"


def name(tag):
    """The name that references call a tag by."""
    return tag[TAG_ID] if isinstance(tag[TAG_ID], str) else str(uuid.UUID(bytes=tag[TAG_ID]))


def link_finding(link, tags):
    """The number of what is wrong with a link, or None."""
    href = link[HREF].item if isinstance(link[HREF], Tagged) else link[HREF]
    if not href.startswith(SCHEME):
        return None
    rel = {**REL_NAMES, "requires": REQUIRES}.get(link[REL], link[REL])
    aims = [kind(tag) for tag in tags if SCHEME + name(tag) == href]
    if not aims:
        return 3 if rel == REQUIRES else 1
    return 2 if rel in (PATCHES, SUPPLEMENTS) and "primary" not in aims else None


def findings(tags):
    """The lines of all that is wrong between tags: by tag and link, and then by pairs of tags."""
    for place, tag in enumerate(tags, 1):
        for at, link in enumerate(several(tag.get(LINK, [])), 1):
            found = link_finding(link, tags)
            if found:
                yield f"link L{found} {place} {at}"
    spellings = [canonical(Tagged(COSWID, written(TAGS, tag))) for tag in tags]
    for first in range(len(tags)):
        for second in range(first + 1, len(tags)):
            is_one = all(tags[first][key] == tags[second][key] for key in (TAG_ID, TAG_VERSION))
            if is_one and spellings[first] != spellings[second]:
                yield f"link L4 {first + 1} {second + 1}"


@dataclass(frozen=True)
class Listed:
    """Tags one after another, the last of which is whole, is cut after that many octets, or is none."""

    tags: list
    have: int = None

    def octets(self):
        *before, last = [spelled(Tagged(COSWID, tag)) for tag in self.tags]
        return b"".join(before) + last[: self.have]

    def told(self):
        wrong = tag_fault(Tagged(COSWID, self.tags[-1]))
        if self.have is not None:
            return [f"at-tag {len(self.tags)} fault 1 {self.have}"], 1
        if wrong:
            return [f"at-tag {len(self.tags)} form {wrong[0]} {'/'.join(map(str, wrong[1])) or '.'}"], 1
        found = list(findings(self.tags))
        return [f"tags {len(self.tags)}", *found], 1 if found else 0

    def notation(self):
        lines = [notation(Tagged(COSWID, tag), NAMES) for tag in self.tags]
        if self.have is not None:
            lines.append(f"/ only the first {self.have} octets of the last are there /")
        return "\n".join(lines)
