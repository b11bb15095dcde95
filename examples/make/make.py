#!/usr/bin/env python3
"""Writes the example files of ../mirror, ../tags, ../files, ../links and ../sessions, each with the words, the output and the status that belong to it.

Each example of mirror/ is a kind of mirror and a list of values. `formats.py` says what octets and what output belong
to them. mirror/NAME.patnc has the octets, NAME.args the words after `swid`, NAME.out the output, and NAME.status the status
where it is not 0. The examples of tags/ are the values of `tag_values.py`, and `coswid.py` says the same of them:
tags/NAME.coswid has the octets, and tags/NAME.diag says them in words. Those of files/ are the values of `file_values.py`, by
`coswid_files.py`, and those of links/ the values of `list_values.py`, by `coswid_links.py`. Those of sessions/ are the
scripts of `session_values.py`, by `sessions.py`: sessions/NAME.script has the script. The program is not run.
"""

import os
import sys
from dataclasses import replace

sys.dont_write_bytecode = True

from formats import ALTERATION, COSWID, CREATION, DELETION, FULFILMENT, FULL, IDS, NOSKIP, SWID_2009, SWID_2015
from formats import Event, Events, Inventory, Record, Refused, Skipped, Torn, attribute, replaced, run
import coswid
import file_values
import list_values
import session_values
import tag_values

EXAMPLES_FOLDER = os.path.join(os.path.dirname(os.path.abspath(__file__)), os.pardir)

EXAMPLE_PEN = 32473  # the enterprise number that RFC 5612 keeps for documentation


# Records.

EDITOR = Record(17, "example.com__org.example.editor_4.2.1", "/usr/lib/editor")
EDITOR_NEXT = Record(17, "example.com__org.example.editor_4.3.0", "/usr/lib/editor")
SHELL = Record(3, "example.com__org.example.shell_5.2", "/usr/bin/example-shell")
FONTS = Record(2048, "example.org__café-fonts_1.0", "file:///usr/share/fonts/cafe", SWID_2015, 2)
VIEWER = Record(5, "example.net__Example Viewer 3", "/opt/Example Viewer", SWID_2009, 1)
DRIVER = Record(4294967295, "EXAMPLE\\driver-0042", "", (EXAMPLE_PEN, 192), 255)
LIBRARY = Record(9, "example.com__org.example.library_2.11.0")

NAMES = ["editor", "shell", "library", "viewer", "compiler", "database", "player", "archive"]


def numbered(index):
    """The record at the index, below 1,009, among many. Identifiers are distinct, since 1,009 is prime."""
    name = f"{NAMES[index % len(NAMES)]}-{index:04}"
    version = f"{1 + index % 9}.{index % 13}.{index % 31}"
    locator = f"/usr/lib/{name}" if index % 4 == 0 else ""
    model = SWID_2009 if index % 10 == 7 else SWID_2015
    return Record(index * 617 % 1009, f"example.com__org.example.{name}_{version}", locator, model, index % 3)


# Events.

MORNING = "2026-01-05T09:30:00Z"
LEAP_SECOND = "2016-12-31T23:59:60Z"
UNKNOWN_TIME = "0000-00-00T00:00:00Z"


def created(eid, record, stamp=MORNING):
    return Event(eid, stamp, CREATION, record)


def altered(eid, record, stamp=MORNING):
    return Event(eid, stamp, ALTERATION, record)


def deleted(eid, record, stamp=MORNING):
    return Event(eid, stamp, DELETION, record)


# Streams of reports. Beside each stands what a mirror makes of it.

UPDATES = [
    Inventory(1024, 7, [EDITOR, SHELL, VIEWER], request=1),  # adopted: the mirror had no point
    Inventory(1024, 7, [EDITOR], request=2),  # stale: the same EID
    Inventory(1024, 5, [SHELL], request=3),  # stale: a lower EID
    Inventory(1024, 8, [EDITOR, SHELL, VIEWER, SHELL, EDITOR], request=4),  # doubled 3: sets the mark
    Inventory(1024, 6, [SHELL], request=5),  # stale: a lower EID is stale with the mark as well
    Inventory(1024, 7, [SHELL, EDITOR], request=6),  # adopted: an equal EID, with the mark set
    Inventory(1024, 7, [EDITOR], request=7),  # stale: the mark is cleared again
    Inventory(1024, 9, [LIBRARY, EDITOR, SHELL, VIEWER], flags=FULFILMENT),  # adopted: a higher EID
    Inventory(2048, 1, [LIBRARY, EDITOR], flags=FULFILMENT),  # adopted: another epoch
]

EVENTS = [
    Inventory(1024, 7, [SHELL]),  # adopted
    Events(2048, 2, 2, [created(1, SHELL), deleted(2, SHELL)]),  # other-epoch 1024 2048
    Inventory(2048, 2, []),  # adopted: puts the mirror right
    Events(2048, 5, 5, [created(4, EDITOR), created(5, LIBRARY)]),  # gap 2 4: 3 is missing
    Events(2048, 5, 5, []),  # gap 2 0: up to 5 was consulted, and no event is there
    Inventory(2048, 5, [SHELL, EDITOR, LIBRARY]),  # adopted: puts the mirror right
    # advanced 5 8
    Events(2048, 8, 8, [created(6, VIEWER), altered(7, EDITOR_NEXT), deleted(8, SHELL, LEAP_SECOND)]),
    Events(2048, 8, 8, [altered(7, EDITOR_NEXT), deleted(8, SHELL)]),  # stale: both were reported
    # advanced 8 10: what was reported is passed over, and 11 is left for another report
    Events(2048, 11, 10, [deleted(8, SHELL), created(9, FONTS, UNKNOWN_TIME), altered(10, LIBRARY)]),
    Events(2048, 11, 11, [created(11, DRIVER)], flags=FULFILMENT),  # advanced 10 11
    Events(2048, 11, 11, []),  # stale: nothing new
]

CONTRADICTIONS = [
    Events(1024, 7, 7, [created(7, SHELL)]),  # other-epoch none 1024: no inventory yet
    Inventory(1024, 7, [SHELL, EDITOR]),  # adopted
    Events(1024, 8, 8, [created(8, SHELL)]),  # contradiction 8: the record is there
    Events(1024, 9, 9, [created(8, VIEWER), altered(9, FONTS)]),  # contradiction 9: it is not, and 8 is not kept
    Events(1024, 8, 8, [deleted(8, LIBRARY)]),  # contradiction 8: it is not there
    Inventory(1024, 7, [SHELL, EDITOR]),  # adopted: the same EID, with the mark set
    Events(1024, 9, 9, [deleted(8, SHELL), created(9, SHELL)]),  # advanced 7 9: one after the other they fit
]

# Records with bodies. That of LIBRARY stays empty.
SHELL_TAG = replace(SHELL, body=b'<SoftwareIdentity name="shell" version="5.2"/>')
EDITOR_TAG = replace(EDITOR, body=b'<SoftwareIdentity name="editor" version="4.2.1"/>')
EDITOR_NEXT_TAG = replace(EDITOR_NEXT, body=b'<SoftwareIdentity name="editor" version="4.3.0"/>')
CONCISE = bytes.fromhex("da53574944a400616101616202a2181f61631821010c00")
CONCISE_TAG = Record(21, "invalid.unavailable__a", "", COSWID, 4, CONCISE)

BODIES = [
    Inventory(1024, 2, [SHELL_TAG, LIBRARY, EDITOR_TAG], FULL),  # adopted
    # advanced 2 5
    Events(1024, 5, 5, [altered(3, EDITOR_NEXT_TAG), created(4, CONCISE_TAG), deleted(5, SHELL_TAG)], FULL),
]

MIXED = [
    Inventory(1024, 7, [SHELL]),  # wrong-kind
    Inventory(1024, 7, [SHELL_TAG], FULL),  # adopted
    Events(1024, 8, 8, [created(8, EDITOR)]),  # wrong-kind
    Events(1024, 8, 8, [created(8, EDITOR_TAG)], FULL),  # advanced 7 8
]

SKIPPED = [
    Skipped(13, value=bytes(12)),  # a SWIMA Request, which a collector reads
    Inventory(1024, 7, [EDITOR]),  # adopted
    Skipped(14, EXAMPLE_PEN, b"not an inventory"),  # type 14 of another vendor
    Events(1024, 8, 8, [created(8, SHELL)]),  # advanced 7 8
    Skipped(EXAMPLE_PEN, EXAMPLE_PEN),  # without a value
]


# Refusals.

GOOD = Inventory(1024, 7, [EDITOR])
NEXT = Inventory(1024, 8, [EDITOR, SHELL])
NEXT_EVENTS = Events(1024, 9, 9, [created(8, SHELL), altered(9, EDITOR_NEXT)])
GOOD_TAG = Inventory(1024, 7, [EDITOR_TAG], FULL)
NEXT_TAG = Inventory(1024, 8, [EDITOR_TAG, LIBRARY], FULL)

LEFT_OVER = attribute(14, [*NEXT.value(), ("left over", b"\x00")])
MUST_UNDERSTAND = attribute(13, [("value", bytes(12))], flags=NOSKIP)


def wrong(report, name, octets, nth=1):
    """The report with these octets in the nth field of that name, at which it is refused."""
    return Refused(replaced(report.fields(), name, octets, nth), 1, name, nth)


EXAMPLES = {
    "empty": (IDS, [Inventory(7, 0, [], request=1)]),
    "inventory": (IDS, [Inventory(1024, 7, [EDITOR, SHELL, FONTS, VIEWER, DRIVER])]),
    "thousand": (IDS, [Inventory(1024, 5000, [numbered(it) for it in range(1000)])]),
    "updates": (IDS, UPDATES),
    "events": (IDS, EVENTS),
    "contradictions": (IDS, CONTRADICTIONS),
    "bodies": (FULL, BODIES),
    "mixed": (FULL, MIXED),
    "skipped": (IDS, SKIPPED),
    "torn": (IDS, [GOOD, Torn(NEXT, 40)]),
    "fault-noskip": (IDS, [GOOD, Refused(MUST_UNDERSTAND, 3, "attribute flags")]),
    "fault-vendor": (IDS, [GOOD, wrong(NEXT, "vendor", b"\xff\xff\xff")]),
    "fault-length": (IDS, [wrong(Inventory(7, 0), "length", b"\x00\x00\x00\x0b")]),
    "fault-identifier": (IDS, [GOOD, wrong(NEXT, "identifier length", b"\xff\xff", 2)]),
    "fault-left-over": (IDS, [GOOD, Refused(LEFT_OVER, 1, "left over")]),
    "fault-body": (FULL, [GOOD_TAG, wrong(NEXT_TAG, "body length", b"\x00\x10\x00\x01", 2)]),
    "fault-consulted": (IDS, [GOOD, wrong(NEXT_EVENTS, "last EID consulted", b"\x00\x00\x00\x0a")]),
    "fault-stamp": (IDS, [GOOD, wrong(NEXT_EVENTS, "timestamp", b"2026-02-30T09:30:00Z", 2)]),
    "fault-action": (IDS, [GOOD, wrong(NEXT_EVENTS, "action", b"\x04", 2)]),
}

# The folders of examples of tags: the words, and the values.
TAG_EXAMPLES = {
    "tags": ("tag", tag_values.CASES),
    "files": ("tag verify", file_values.CASES),
    "links": ("links", list_values.CASES),
}


def write(name, octets):
    with open(os.path.join(EXAMPLES_FOLDER, name), "wb") as it:
        it.write(octets)


def write_answer(name, words, output, status):
    write(f"{name}.args", f"{words}\n".encode("ascii"))
    write(f"{name}.out", output.encode("ascii"))
    if status:
        write(f"{name}.status", f"{status}\n".encode("ascii"))


def main():
    for name, (kind, parts) in EXAMPLES.items():
        octets, output, status = run(kind, parts)
        write(f"mirror/{name}.patnc", octets)
        write_answer(f"mirror/{name}", f"mirror {kind}", output, status)
    for path, content in file_values.FILES.items():
        os.makedirs(os.path.join(EXAMPLES_FOLDER, "files", os.path.dirname(path)), exist_ok=True)
        write(f"files/{path}", content)
    for name, script in session_values.CASES.items():
        write(f"sessions/{name}.script", script.octets())
        write_answer(f"sessions/{name}", "replay", script.output(), script.status())
    write("messages/folder.coswid", coswid.run(file_values.FOLDER)[0])
    for folder, (words, cases) in TAG_EXAMPLES.items():
        for name, case in cases.items():
            octets, notation, output, status = coswid.run(case)
            write(f"{folder}/{name}.coswid", octets)
            write(f"{folder}/{name}.diag", notation.encode("utf-8"))
            write_answer(f"{folder}/{name}", words, output, status)


if __name__ == "__main__":
    main()
