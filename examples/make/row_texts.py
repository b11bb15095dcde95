"""Rows of `crates/conformance/stdin` about sessions: a call, its turns and the answer, by the ends of `sessions.py`.

Octets that have a name in `NAMES` are written by it.
"""

import re
from itertools import groupby

from formats import IDS, FULL, Mirror
from inventory import Book
from sessions import Collector, Validator

STAMP = "2026-02-03T04:05:06Z"
SOURCE = 3  # of each record that a row creates
NAMES = {}  # octets, and the name of each


def name(word, octets):
    NAMES[bytes(octets)] = word
    return bytes(octets)


def parts(octets):
    """Octets in whole batches, and these in their headers and messages, as far as their lengths say so."""
    while octets:
        length = int.from_bytes(octets[4:8], "big")
        if octets in NAMES or not 8 <= length <= len(octets):
            yield octets
            return
        batch, octets = octets[:length], octets[length:]
        if batch in NAMES:
            yield batch
            continue
        yield batch[:8]
        rest = batch[8:]
        while rest:
            length = int.from_bytes(rest[8:12], "big")
            length = length if 12 <= length <= len(rest) else len(rest)
            yield rest[:length]
            rest = rest[length:]


def spelled(octets):
    """Octets with names in place of those that have one, and a count where some come four times in a row or more."""
    found, waits = "", b""
    for part, same in groupby(parts(octets)):
        count = len(list(same))
        if part in NAMES and count < 4:
            found, waits = found + repeated(waits) + f"{{{NAMES[part]}}}" * count, b""
        else:
            waits += part * count
    return found + repeated(waits) or "-"


def repeated(octets):
    """The digits of octets, `{DIGITS*N}` for those that come N times in a row, N at least 4."""
    found, place = "", 0
    for it in re.finditer(rb"(.{12,64}?)\1{3,}", octets, re.DOTALL):
        found += f"{octets[place : it.start()].hex()}{{{it[1].hex()}*{len(it[0]) // len(it[1])}}}"
        place = it.end()
    return found + octets[place:].hex()


def setting(settings):
    """The settings as words; one that is true is a flag."""
    return ",".join(key if value is True else f"{key}={value}" for key, value in settings.items()) or "-"


def turn_word(turn):
    if isinstance(turn, bytes):
        return spelled(turn)
    return turn if isinstance(turn, str) else ":".join(map(str, turn))


def play(end, turns, change=None):
    """The octets that an end writes before the first turn and at each."""
    written = [spelled(end.carried(1 << 30))]
    for turn in turns:
        if isinstance(turn, bytes):
            end.hear(turn)
        elif isinstance(turn, tuple):
            change(*turn)
        else:
            {"idle": end.idle, "end": end.link_ended}[turn]()
        written.append(spelled(end.carried(1 << 30)))
    return " ".join(written)


def listed(word, values, separator=" "):
    return " ".join([word, separator.join(map(str, values))]) if values else word


def collector_of(settings):
    known = {"epoch": 7, "cap": 4, **settings}
    book = Book(known.pop("epoch"), known.pop("cap"))
    known = {{"max": "room"}.get(key, key): value for key, value in known.items()}
    return book, Collector(book, **known)


def changes_of(book):
    changes = {
        "create": lambda ident, octets: book.create(STAMP, ident, bytes(octets), SOURCE),
        "delete": lambda identifier: book.delete(STAMP, identifier),
        "epoch": book.begin_epoch,
        "trim": book.trim,
    }
    return lambda word, *values: changes[word](*values)


def collector(turns, **settings):
    """A row of a collector's session."""
    book, end = collector_of(settings)
    given = []
    carried = end.carried
    end.carried = lambda count: given.append(carried(count)) or given[-1]
    written = play(end, turns, changes_of(book))
    points = listed("; points", [f"{epoch}/{eid}" for epoch, eid in end.points])
    told = f"{written}; {end.over or 'goes on'}{points}{counts(end, given)}"
    return f"collector {setting(settings)} {' '.join(map(turn_word, turns))} = {told}"


def counts(end, given):
    sent = sum(map(len, given))
    return f"{listed('; errors', end.errors)}; reports {end.reports}; sent {sent}; received {end.received}"


def validator_of(settings):
    known = dict(settings)
    mirror = Mirror(FULL if known.pop("full", False) else IDS)
    return mirror, Validator(mirror, **known)


def validator(turns, **settings):
    """A row of a validator's session."""
    mirror, end = validator_of(settings)
    given = []
    carried = end.carried
    end.carried = lambda count: given.append(carried(count)) or given[-1]
    written = play(end, turns)
    taken = [answer(it) for it in end.taken]
    noted, received = counts(end, given).rsplit("; ", 1)
    told = f"{written}; {end.over or 'goes on'}{listed('; took', taken, ', ') if taken else ''}{noted}; {state(mirror)}; {received}"
    return f"validator {setting(settings)} {' '.join(map(turn_word, turns))} = {told}"


def answer(line):
    """What a mirror answers, as rows of a mirror say it."""
    word, *numbers = line.removeprefix("took ").split(" ")
    shown = numbers if word != "adopted" else []
    return " ".join([word.replace("-", " "), *shown])


def state(mirror):
    """A mirror, as rows of one say it."""
    point = "no point" if mirror.point is None else "point {} {}".format(*mirror.point)
    wants = "an inventory"
    if mirror.point is not None and not mirror.off:
        wants = "nothing" if mirror.point[1] == 4294967295 else f"events from {mirror.point[1] + 1}"
    records = listed("records", sorted(mirror.records))
    return f"{point}; {records}{'; marked' if mirror.off else ''}; wants {wants}"


def cuts(call, octets, make, settings):
    """A row of the link that ends after each of the octets: ends within one batch that follow each other stand together."""
    runs = []
    for count in range(len(octets) + 1):
        end = make(dict(settings))[1]
        end.hear(octets[:count])
        end.link_ended()
        word, *have = end.over.split(" ")
        sent = len(end.waits)
        last = runs[-1] if runs else None
        if word == "torn" and last and last[0] == "torn" and last[2] == int(have[0]) - 1 and last[3] == sent:
            last[2] = int(have[0])
        else:
            runs.append([word, int(have[0]) if word == "torn" else end.over, int(have[0]) if word == "torn" else None, sent])
    told = []
    for word, first, last, sent in runs:
        text = first if word != "torn" else f"torn {first}" + (f" to {last}" if last != first else "")
        told.append(f"{text}, sent {sent}")
    return f"{call} {setting(settings)} {spelled(octets)} = {'; '.join(told)}"


def collector_cut(octets, **settings):
    return cuts("collector_cut", octets, collector_of, settings)


def validator_cut(octets, **settings):
    return cuts("validator_cut", octets, validator_of, settings)
