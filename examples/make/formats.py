"""The formats of examples: reports as values, their octets, and what a mirror answers and prints.

Octets are lists of fields, each a name and its octets, in the order in which they stand, so that the place of
a field is given by its name. They follow RFC 5792, section 4.1 (attributes), and RFC 8412, sections 5.7 to 5.10
(reports). What a mirror answers follows docs/rules/mirror.md, and how it is printed docs/rules/commands.md. All of it is
written from values: nothing here runs the program or reads octets back.
"""

import hashlib
from collections import Counter
from dataclasses import dataclass, field
from itertools import zip_longest

IDS, FULL = "ids", "full"  # the kinds: reports without bodies, and with them

INVENTORY = {IDS: 14, FULL: 16}  # the attribute types, all of vendor 0
EVENTS = {IDS: 15, FULL: 17}
CREATION, DELETION, ALTERATION = 1, 2, 3  # the actions of events

NOSKIP = 0x80  # a flag of an attribute
FULFILMENT = 0x80  # a flag of a report

HEADER = 12
MOST_RECORDS = 65_536
MOST_OCTETS = 268_435_456

SWID_2015 = (0, 0)  # data models: vendor and type
SWID_2009 = (0, 1)
COSWID = (0, 2)


# Fields.


def number(name, value, size):
    return name, value.to_bytes(size, "big")


def counted(name, octets, size):
    """The field `name`, after one with its length."""
    return [number(f"{name} length", len(octets), size), (name, octets)]


def joined(fields):
    return b"".join(octets for _, octets in fields)


def index_of(fields, name, nth):
    """The index of the nth field of that name, the first being 1."""
    return [index for index, (it, _) in enumerate(fields) if it == name][nth - 1]


def replaced(fields, name, octets, nth=1):
    """The fields with other octets, as many, in the nth field of that name."""
    index = index_of(fields, name, nth)
    assert len(octets) == len(fields[index][1])
    return [*fields[:index], (name, octets), *fields[index + 1 :]]


def attribute(kind, value, vendor=0, flags=0):
    """The fields of a PA-TNC attribute of the type `kind`, with the fields of its value."""
    length = HEADER + len(joined(value))
    head = [number("attribute flags", flags, 1), number("vendor", vendor, 3)]
    return [*head, number("type", kind, 4), number("length", length, 4), *value]


# Reports.


@dataclass
class Record:
    identifier: int
    ident: str
    locator: str = ""
    model: tuple = SWID_2015
    source: int = 0
    body: bytes = b""

    def parts(self, kind):
        """The octets of the identifier, the locator and, in the kind full, the body."""
        texts = [self.ident.encode("utf-8"), self.locator.encode("utf-8")]
        return [*texts, self.body] if kind == FULL else texts

    def fields(self, kind, sixth=number("reserved", 0, 1)):
        """A record in a report of the kind. In an event its action is the sixth field."""
        vendor, model = self.model
        head = [number("record identifier", self.identifier, 4), number("model vendor", vendor, 3)]
        head += [number("model type", model, 1), number("source number", self.source, 1), sixth]
        ident, locator, *bodies = self.parts(kind)
        texts = counted("identifier", ident, 2) + counted("locator", locator, 2)
        return head + texts + [it for body in bodies for it in counted("body", body, 4)]

    def line(self, kind):
        vendor, model = self.model
        ident, locator = (printed(it) for it in self.parts(IDS))
        body = f"{len(self.body)}:{hashlib.sha256(self.body).hexdigest()}" if kind == FULL else "-"
        return f"record {self.identifier} {vendor}/{model} {self.source} {ident} {locator} {body}"


@dataclass
class Event:
    eid: int
    stamp: str
    action: int
    subject: Record

    def fields(self, kind):
        head = [number("EID", self.eid, 4), ("timestamp", self.stamp.encode("ascii"))]
        return head + self.subject.fields(kind, number("action", self.action, 1))


@dataclass
class Inventory:
    epoch: int
    eid: int
    records: list = field(default_factory=list)
    kind: str = IDS
    request: int = 1
    flags: int = 0

    def value(self):
        head = [number("flags", self.flags, 1), number("count", len(self.records), 3)]
        head += [number("request", self.request, 4), number("epoch", self.epoch, 4), number("last EID", self.eid, 4)]
        return head + [it for record in self.records for it in record.fields(self.kind)]

    def fields(self):
        return attribute(INVENTORY[self.kind], self.value())


@dataclass
class Events:
    """Events up to the EID `consulted`, of a collector whose last event has the EID `eid`."""

    epoch: int
    eid: int
    consulted: int
    events: list = field(default_factory=list)
    kind: str = IDS
    request: int = 1
    flags: int = 0

    def value(self):
        head = [number("flags", self.flags, 1), number("count", len(self.events), 3)]
        head += [number("request", self.request, 4), number("epoch", self.epoch, 4), number("last EID", self.eid, 4)]
        head += [number("last EID consulted", self.consulted, 4)]
        return head + [it for event in self.events for it in event.fields(self.kind)]

    def fields(self):
        return attribute(EVENTS[self.kind], self.value())


# What a mirror answers.


def size(records, kind):
    return sum(len(it) for record in records for it in record.parts(kind))


def large(records, kind):
    """What is said of too many records, or of too many octets of them; else None."""
    count, octets = len(records), size(records, kind)
    return f"large {count} {octets}" if count > MOST_RECORDS or octets > MOST_OCTETS else None


def first_difference(eids, wanted):
    """The first of the EIDs that is not the wanted one, 0 where they run out, None where they are the wanted ones."""
    pairs = zip_longest(eids, wanted, fillvalue=0)
    return next((eid for eid, other in pairs if eid != other), None)


class Mirror:
    """A mirror of a kind: its point (epoch and EID), its records by their identifiers, and the mark `off`."""

    def __init__(self, kind):
        self.kind, self.point, self.records, self.off = kind, None, {}, False

    def take(self, report):
        """Judges one report and returns its line."""
        if report.kind != self.kind:
            return "took wrong-kind"
        return "took " + (self.adopt(report) if isinstance(report, Inventory) else self.follow(report))

    def marked(self, answer):
        self.off = True
        return answer

    def is_stale(self, report):
        if self.point is None or self.point[0] != report.epoch:
            return False
        return report.eid < self.point[1] or (report.eid == self.point[1] and not self.off)

    def adopt(self, report):
        if self.is_stale(report):
            return "stale"
        doubled = [it for it, times in Counter(it.identifier for it in report.records).items() if times > 1]
        if doubled:
            return self.marked(f"doubled {min(doubled)}")
        too_large = large(report.records, self.kind)
        if too_large:
            return self.marked(too_large)
        self.point, self.off = (report.epoch, report.eid), False
        self.records = {it.identifier: it for it in report.records}
        return f"adopted {report.epoch} {report.eid} {len(report.records)}"

    def follow(self, report):
        if self.point is None or self.point[0] != report.epoch:
            have = "none" if self.point is None else self.point[0]
            return self.marked(f"other-epoch {have} {report.epoch}")
        have = self.point[1]
        if report.consulted <= have:
            return "stale"
        above = [it for it in report.events if it.eid > have]
        got = first_difference([it.eid for it in above], range(have + 1, report.consulted + 1))
        if got is not None:
            return self.marked(f"gap {have} {got}")
        return self.fold(above) or self.advance(report.consulted)

    def contradicts(self, event, held):
        """Whether an event does not fit the record that is held, or None. A deletion carries its content, or leaves the body out."""
        if held is None or event.action == CREATION:
            return (held is None) != (event.action == CREATION)
        told = event.subject
        parts = [(it.model, it.source, it.ident, it.locator) for it in (told, held)]
        bodies = self.kind == IDS or told.body in (b"", held.body)
        return event.action == DELETION and not (parts[0] == parts[1] and bodies)

    def fold(self, events):
        """Folds the events into the records, or answers by the first that does not fit and folds none."""
        records = dict(self.records)
        for event in events:
            if self.contradicts(event, records.get(event.subject.identifier)):
                return self.marked(f"contradiction {event.eid}")
            records[event.subject.identifier] = event.subject
            if event.action == DELETION:
                del records[event.subject.identifier]
            too_large = large(records.values(), self.kind)
            if too_large:
                return self.marked(too_large)
        self.records = records
        return None

    def advance(self, consulted):
        epoch, have = self.point
        self.point = (epoch, consulted)
        return f"advanced {have} {consulted}"

    def lines(self):
        if self.point is None:
            return ["mirror none"]
        epoch, eid = self.point
        records = [self.records[it].line(self.kind) for it in sorted(self.records)]
        return [f"mirror {epoch} {eid} {len(records)}", *records]


# Streams.


@dataclass
class Skipped:
    """An attribute that is no report."""

    kind: int
    vendor: int = 0
    value: bytes = b""

    def fields(self):
        return attribute(self.kind, [("value", self.value)], self.vendor)


@dataclass
class Refused:
    """The fields of an attribute that is refused by an error code at the nth field of that name."""

    wrong: list
    code: int
    name: str
    nth: int = 1

    def fields(self):
        return self.wrong

    def line(self, start):
        before = joined(self.wrong[: index_of(self.wrong, self.name, self.nth)])
        return f"fault {self.code} {start + len(before)}"


@dataclass
class Torn:
    """A report of which only that many octets are there."""

    report: object
    have: int

    def fields(self):
        return [("front", joined(self.report.fields())[: self.have])]

    def line(self, start):
        return f"torn {self.have}"


def printed(octets):
    """An octet text as it is printed."""
    if not octets:
        return "\\e"
    return "".join(chr(it) if 0x21 <= it <= 0x7E and it != 0x5C else f"\\x{it:02x}" for it in octets)


def text(lines):
    return "".join(f"{it}\n" for it in lines)


def run(kind, parts):
    """The octets of the parts, the text that a mirror of the kind gives for them, and the status."""
    mirror, octets, lines = Mirror(kind), b"", []
    for part in parts:
        start = len(octets)
        octets += joined(part.fields())
        if isinstance(part, (Refused, Torn)):
            return octets, text([*lines, part.line(start)]), 1
        if isinstance(part, Skipped):
            lines.append(f"skipped {part.vendor} {part.kind}")
        else:
            lines.append(mirror.take(part))
    return octets, text([*lines, *mirror.lines()]), 0
