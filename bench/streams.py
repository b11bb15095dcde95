#!/usr/bin/env python3
"""Writes one stream of PA-TNC attributes to measure with. The same words give the same file, which may be /dev/stdout.

usage: streams.py KIND COUNT EVENTS FILE  COUNT records, and then a report of EVENTS events over them
       streams.py smallest FILE           an inventory of as many records of 14 octets as an attribute holds
       streams.py churn FILE              65,536 such records, and then as many events of 38 octets as an attribute
                                          holds, each second of which creates again what the one before deleted
       streams.py single REPORTS FILE     65,536 such records, and then REPORTS reports of one alteration each
       streams.py mebibytes COUNT FILE    COUNT inventories of whole records, each an attribute of exactly 1 MiB and each
                                          with the next EID, so that each stands in place of the one before

KIND is ids or full, of which the second has bodies of 1,024 octets. The first 14,000 records come in an inventory,
and the others by reports of at most 14,000 creations, since with bodies an attribute holds no more. Of the EVENTS
events, at most COUNT of them, a quarter deletes a record, a quarter creates one, and the others alter one.

Identifiers are distinct and in no order: the record at index i has i * 2654435761 + 12345 modulo 2^32, and
distinct indexes give distinct identifiers, since the factor is odd. The epoch is 1.
"""

import struct
import sys

HEADER = 12
INVENTORY_HEAD = 16
EVENTS_HEAD = 20
SMALLEST_RECORD = 14
SMALLEST_EVENT = 38
LARGEST_ATTRIBUTE = 16_777_216
MOST_RECORDS = 65_536
MEBIBYTE = 1_048_576

INVENTORY = {"ids": 14, "full": 16}  # the attribute types
EVENTS = {"ids": 15, "full": 17}
CREATION, DELETION, ALTERATION = 1, 2, 3

IN_A_REPORT = 14_000
BODY = 1_024
STRIDE = 7_919  # a prime: its multiples modulo a count that is no multiple of it are each index once
STAMP = b"2026-01-05T09:30:00Z"

NAMES = ["editor", "shell", "library", "viewer", "compiler", "database", "player", "archive"]


def attribute(kind, head, items):
    """An attribute of the type `kind`: flags and count, request ID, epoch and what `head` has more, and the items."""
    numbers = [len(items), 1, 1, *head]
    value = struct.pack(f">{len(numbers)}I", *numbers) + b"".join(items)
    length = HEADER + len(value)
    if length > LARGEST_ATTRIBUTE:
        sys.exit(f"{len(items)} records or events make {length} octets, above {LARGEST_ATTRIBUTE}")
    return struct.pack(">III", 0, kind, length) + value


def inventory(kind, eid, records):
    return attribute(INVENTORY[kind], [eid], records)


def events(kind, eid, items):
    """Events up to the EID, which is the last one and the last that was consulted."""
    return attribute(EVENTS[kind], [eid, eid], items)


def record(index, ident=b"", locator=b"", body=None, action=0):
    """A record of the data model 0/0 and source 0; in an event, where an action stands in the reserved octet."""
    identifier = (index * 2_654_435_761 + 12_345) % 2**32
    texts = struct.pack(">H", len(ident)) + ident + struct.pack(">H", len(locator)) + locator
    bodies = b"" if body is None else struct.pack(">I", len(body)) + body
    return struct.pack(">IIBB", identifier, 0, 0, action) + texts + bodies


def event(eid, of_record):
    return struct.pack(">I", eid) + STAMP + of_record


def realistic(kind, index, action=0, version=1):
    """A record with an identifier of about 40 octets, each fourth with a locator; a body in the kind full."""
    name = f"{NAMES[index % len(NAMES)]}-{index:05}"
    ident = f"example.com__org.example.{name}_{version}.{index % 13}"
    locator = f"/usr/lib/example/{name}" if index % 4 == 0 else ""
    line = f'<SoftwareIdentity name="{name}" version="{version}.{index % 13}"/>\n'.encode()
    body = (line * BODY)[:BODY] if kind == "full" else None
    return record(index, ident.encode(), locator.encode(), body, action)


def created(kind, start, stop):
    """The report that creates the records at start to stop - 1, each by the EID 1 above its index."""
    return events(kind, stop, [event(it + 1, realistic(kind, it, CREATION)) for it in range(start, stop)])


def changed(kind, count, index):
    """The event at the index over `count` records."""
    if index % 4 == 1:
        return event(count + index + 1, realistic(kind, count + index, CREATION))
    if index % 4 == 0:  # no event before it was of this record, so it carries what the record had at first
        return event(count + index + 1, realistic(kind, index * STRIDE % count, DELETION))
    return event(count + index + 1, realistic(kind, index * STRIDE % count, ALTERATION, 2))


def stream(kind, count, changes):
    first = min(count, IN_A_REPORT)
    yield inventory(kind, first, [realistic(kind, it) for it in range(first)])
    for start in range(first, count, IN_A_REPORT):
        yield created(kind, start, min(count, start + IN_A_REPORT))
    if changes:
        yield events(kind, count + changes, [changed(kind, count, it) for it in range(changes)])


def smallest():
    most = (LARGEST_ATTRIBUTE - HEADER - INVENTORY_HEAD) // SMALLEST_RECORD
    yield inventory("ids", 1, [record(it) for it in range(most)])


def churn():
    most = (LARGEST_ATTRIBUTE - HEADER - EVENTS_HEAD) // SMALLEST_EVENT
    actions = [DELETION, CREATION]
    items = (record(it // 2 * STRIDE % MOST_RECORDS, action=actions[it % 2]) for it in range(most))
    yield inventory("ids", 1, [record(it) for it in range(MOST_RECORDS)])
    yield events("ids", 1 + most, [event(2 + index, it) for index, it in enumerate(items)])


def single(reports):
    yield inventory("ids", 1, [record(it) for it in range(MOST_RECORDS)])
    for index in range(reports):
        altered = record(index * STRIDE % MOST_RECORDS, action=ALTERATION)
        yield events("ids", 2 + index, [event(2 + index, altered)])


def mebibytes(count):
    """The last record's body is as long as makes the attribute 1 MiB; only the EID differs from one to the next."""
    records = [realistic("full", it) for it in range(MEBIBYTE // (BODY + 128))]
    missing = MEBIBYTE - len(inventory("full", 0, records)) - len(record(len(records), body=b""))
    records.append(record(len(records), body=b"x" * missing))
    whole = inventory("full", 0, records)
    place = HEADER + INVENTORY_HEAD - 4
    for eid in range(1, count + 1):
        yield whole[:place] + struct.pack(">I", eid) + whole[place + 4 :]


def parts(words):
    """The attributes that the words ask for."""
    if words == ["smallest"]:
        return smallest()
    if words == ["churn"]:
        return churn()
    if len(words) == 2 and words[0] == "single":
        return single(int(words[1]))
    if len(words) == 2 and words[0] == "mebibytes":
        return mebibytes(int(words[1]))
    if len(words) == 3 and words[0] in INVENTORY:
        return stream(words[0], int(words[1]), int(words[2]))
    sys.exit(__doc__)


def main():
    *words, file = sys.argv[1:] or sys.exit(__doc__)
    made = parts(words)
    with open(file, "wb") as it:
        for part in made:
            it.write(part)


if __name__ == "__main__":
    main()
