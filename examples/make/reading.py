"""Batches, messages and attributes read from octets, with the first fault of each, by the tables of docs/rules/batches.md and
docs/rules/attributes.md. Values of attributes are read by the layouts of RFC 8412, sections 5.6 to 5.12.

A reader raises `Fault` with its place: in octets from the start of the batch, or of the PA-TNC message.
"""

from dataclasses import dataclass, field
from datetime import date

from formats import ALTERATION, CREATION, DELETION, FULFILMENT, FULL, IDS
from formats import Event, Events, Inventory, Record

CDATA, SDATA, RESULT, CRETRY, SRETRY, CLOSE = range(1, 7)
PB_PA, ASSESSMENT, RECOMMENDATION, PB_ERROR = 1, 2, 3, 5
MOST_OCTETS = 16_777_216
MOST_MESSAGES = MOST_ATTRIBUTES = 64
MOST_BODY = 1_048_576

ERROR, REQUEST, STATUS_REQUEST, STATUS_RESPONSE = 8, 13, 18, 19
REPORTS = {14: (Inventory, IDS), 15: (Events, IDS), 16: (Inventory, FULL), 17: (Events, FULL)}
COLLECTOR_READS = {ERROR, REQUEST, STATUS_REQUEST}
VALIDATOR_READS = {ERROR, STATUS_RESPONSE, *REPORTS}

INVALID, BAD_VERSION, NOT_SUPPORTED = 1, 2, 3  # codes of PA-TNC Errors
UNEXPECTED, PB_INVALID, PB_NOT_SUPPORTED, PB_BAD_VERSION = 0, 1, 3, 4  # codes of PB-Errors


@dataclass
class Fault(Exception):
    code: int
    place: int
    version: int = 0


def at(octets, place, size):
    """The number of that many octets at a place."""
    return int.from_bytes(octets[place : place + size], "big")


def lowest(faults):
    """Raises the fault with the lowest place, the earlier one of two at one place; none where there is none."""
    if faults:
        raise min(faults, key=lambda it: it.place)


# Batches (RFC 5793, section 4).


@dataclass
class Message:
    vendor: int
    kind: int
    value: bytes


@dataclass
class Batch:
    kind: int
    length: int
    messages: list = field(default_factory=list)


def batch_in(octets, from_server):
    """The batch that octets begin with, or None where it is not whole and shows no fault."""
    if len(octets) < 8:
        return None
    length, kind = at(octets, 4, 4), octets[3] & 0x0F
    rows = [
        (octets[0] != 2, Fault(PB_BAD_VERSION, 0, octets[0])),
        ((octets[1] >= 0x80) != from_server, Fault(PB_INVALID, 1)),
        (not CDATA <= kind <= CLOSE, Fault(PB_INVALID, 3)),
        (not 8 <= length <= MOST_OCTETS, Fault(PB_INVALID, 4)),
    ]
    lowest([fault for shows, fault in rows if shows])
    if len(octets) < length:
        return None
    found, start = Batch(kind, length), 8
    while start < length:
        message, size = message_in(octets[:length], start, len(found.messages))
        found.messages.append(message)
        start += size
    return found


def message_in(octets, start, before):
    """The message at a place of a batch with that many messages before it, and its length."""
    left = len(octets) - start
    if before == MOST_MESSAGES or left < 12:
        raise Fault(PB_INVALID, start)
    noskip, vendor = octets[start] >= 0x80, at(octets, start + 1, 3)
    kind, size = at(octets, start + 4, 4), at(octets, start + 8, 4)
    known = vendor == 0 and 1 <= kind <= 7
    least = {PB_PA: 24, PB_ERROR: 20}.get(kind, 12) if vendor == 0 else 12
    exact = vendor == 0 and kind in (ASSESSMENT, RECOMMENDATION)
    rows = [
        (noskip and not known, Fault(PB_NOT_SUPPORTED, start)),
        (vendor == 0xFFFFFF, Fault(PB_INVALID, start + 1)),
        (kind == 0xFFFFFFFF, Fault(PB_INVALID, start + 4)),
        (size < least or size > left or exact and size != 16, Fault(PB_INVALID, start + 8)),
    ]
    lowest([fault for shows, fault in rows if shows])
    value = octets[start + 12 : start + size]
    if vendor == 0:
        values_of_message(kind, value, start)
    return Message(vendor, kind, value), size


def values_of_message(kind, value, start):
    """The faults in the value of a message of vendor 0."""
    if kind == ASSESSMENT and at(value, 0, 4) > 4:
        raise Fault(PB_INVALID, start + 12)
    if kind == RECOMMENDATION and not 1 <= at(value, 2, 2) <= 3:
        raise Fault(PB_INVALID, start + 14)
    if kind == PB_PA and at(value, 1, 3) == 0xFFFFFF:
        raise Fault(PB_INVALID, start + 13)
    if kind == PB_PA and at(value, 4, 4) == 0xFFFFFFFF:
        raise Fault(PB_INVALID, start + 16)


def ends_session(batch):
    """The vendor and the code of the first PB-Error that is fatal or in a CLOSE, or None."""
    for it in batch.messages:
        if (it.vendor, it.kind) == (0, PB_ERROR) and (it.value[0] >= 0x80 or batch.kind == CLOSE):
            return at(it.value, 1, 3), at(it.value, 4, 2)
    return None


def bodies(batch):
    """The PA-TNC messages that a batch carries for SWIMA."""
    carried = [it.value for it in batch.messages if (it.vendor, it.kind) == (0, PB_PA)]
    return [it[12:] for it in carried if at(it, 1, 3) == 0 and at(it, 4, 4) == 9]


# PA-TNC messages (RFC 5792, section 3.6).


@dataclass
class Attribute:
    kind: int
    place: int
    value: bytes


@dataclass
class Refused(Exception):
    """A message that is refused, with the information of the Error that answers it; None where none does."""

    code: int
    information: bytes | None


def header_copy(body):
    return body[:8].ljust(8, b"\0")


def refused(body, fault, answered, start=None):
    """The refusal by a fault; `start` is where the attribute begins that is not supported."""
    if not answered:
        return Refused(fault.code, None)
    more = {
        INVALID: fault.place.to_bytes(4, "big"),
        BAD_VERSION: bytes([1, 1, 0, 0]),
        NOT_SUPPORTED: b"" if start is None else body[start : start + 8],
    }
    return Refused(fault.code, header_copy(body) + more[fault.code])


def words_in(body, supported):
    """What the attributes of a message say, in order, as pairs of a type and a value; or raises `Refused`."""
    attributes = attributes_in(body, supported)
    words = []
    for it in attributes:
        try:
            words.append((it.kind, value_of(it.kind, it.value)))
        except Fault as fault:
            has_error = any(one.kind == ERROR for one in attributes)
            raise refused(body, Fault(INVALID, it.place + fault.place), not has_error) from None
    return words


def attributes_in(body, supported):
    """The attributes of the types that are supported; or raises `Refused`."""
    if len(body) < 8:
        raise refused(body, Fault(INVALID, 0), True)
    if body[0] != 1:
        raise refused(body, Fault(BAD_VERSION, 0), True)
    found, count, start, has_error = [], 0, 8, False
    while start < len(body):
        try:
            vendor, kind, size = attribute_in(body, start, count, supported)
        except Fault as fault:
            raise refused(body, fault, not has_error, start) from None
        if vendor == 0 and kind in supported:
            found.append(Attribute(kind, start + 12, body[start + 12 : start + size]))
        has_error = has_error or (vendor, kind) == (0, ERROR)
        count, start = count + 1, start + size
    return found


def attribute_in(body, start, before, supported):
    """The vendor, the type and the length of the attribute at a place of a message with that many before it."""
    left = len(body) - start
    if before == MOST_ATTRIBUTES or left < 12:
        raise Fault(INVALID, start)
    noskip, vendor = body[start] >= 0x80, at(body, start + 1, 3)
    kind, size = at(body, start + 4, 4), at(body, start + 8, 4)
    rows = [
        (noskip and (vendor != 0 or kind not in supported), Fault(NOT_SUPPORTED, start)),
        (vendor == 0xFFFFFF, Fault(INVALID, start + 1)),
        (kind == 0xFFFFFFFF, Fault(INVALID, start + 4)),
        (not 12 <= size <= left, Fault(INVALID, start + 8)),
    ]
    lowest([fault for shows, fault in rows if shows])
    return vendor, kind, size


# Values.


class Cursor:
    """The fields of a value, one after another. A field that does not fit is a fault at its first octet."""

    def __init__(self, octets):
        self.octets, self.place = octets, 0

    def take(self, size):
        if self.place + size > len(self.octets):
            raise Fault(INVALID, self.place)
        self.place += size
        return self.octets[self.place - size : self.place]

    def number(self, size, most=None):
        """A number; above the most it is a fault at its first octet."""
        start, it = self.place, at(self.take(size), 0, size)
        if most is not None and it > most:
            raise Fault(INVALID, start)
        return it

    def counted(self, size, most=None):
        """Octets after their length, which is the place of the fault where they do not fit."""
        start, length = self.place, self.number(size, most)
        if self.place + length > len(self.octets):
            raise Fault(INVALID, start)
        return self.take(length)

    def end(self, value):
        if self.place < len(self.octets):
            raise Fault(INVALID, self.place)
        return value


@dataclass
class Request:
    identifier: int
    kind: str
    earliest: int
    targets: list = field(default_factory=list)
    clear: bool = False
    subscribe: bool = False


def value_of(kind, value):
    """What the value of an attribute of the type says."""
    it = Cursor(value)
    if kind == ERROR:
        it.take(1), it.take(3)
        return it.number(4)
    if kind == REQUEST:
        return it.end(request_of(it))
    if kind == STATUS_REQUEST:
        return it.end(None)
    if kind == STATUS_RESPONSE:
        it.take(1)
        return it.end([request_of(it) for _ in range(it.number(3))])
    return it.end(report_of(it, *REPORTS[kind]))


def request_of(it):
    flags, count, identifier, earliest = it.number(1), it.number(3), it.number(4), it.number(4)
    targets = [it.counted(2) for _ in range(count)]
    kind = IDS if flags & 0x20 else FULL
    return Request(identifier, kind, earliest, targets, bool(flags & 0x80), bool(flags & 0x40))


def report_of(it, form, kind):
    flags, count, request, epoch, eid = it.number(1), it.number(3), it.number(4), it.number(4), it.number(4)
    flags &= FULFILMENT
    if form is Inventory:
        records = [record_of(it, kind, it.number(4), False)[1] for _ in range(count)]
        return Inventory(epoch, eid, records, kind, request, flags)
    consulted = it.number(4, eid)
    return Events(epoch, eid, consulted, [event_of(it, kind) for _ in range(count)], kind, request, flags)


def event_of(it, kind):
    eid, start = it.number(4), it.place
    stamp = it.take(20)
    if not is_stamp(stamp):
        raise Fault(INVALID, start)
    action, subject = record_of(it, kind, it.number(4), True)
    return Event(eid, stamp.decode("ascii"), action, subject)


def record_of(it, kind, identifier, acts):
    """The action, where the record is of an event, and the record."""
    model, source, start = (it.number(3), it.number(1)), it.number(1), it.place
    action = it.number(1)
    if acts and action not in (CREATION, DELETION, ALTERATION):
        raise Fault(INVALID, start)
    ident, locator = (it.counted(2).decode("utf-8") for _ in range(2))
    body = it.counted(4, MOST_BODY) if kind == FULL else b""
    return action, Record(identifier, ident, locator, model, source, body)


def is_stamp(octets):
    """Whether the octets are a date and a time of RFC 8412, section 5.8."""
    if octets == b"0000-00-00T00:00:00Z":
        return True
    if [octets[it] for it in (4, 7, 10, 13, 16, 19)] != list(b"--T::Z"):
        return False
    digits = [octets[start:end] for start, end in ((0, 4), (5, 7), (8, 10), (11, 13), (14, 16), (17, 19))]
    if not all(it.isdigit() for it in digits):
        return False
    year, month, day, hour, minute, second = map(int, digits)
    try:
        date(year or 2000, month, day)  # (the year 0 is a leap year, as 2000 is)
    except ValueError:
        return False
    return hour < 24 and minute < 60 and second <= 60
