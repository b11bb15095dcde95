"""Octets that the rows of sessions name: batches of both ends, and faults in them."""

from formats import COSWID, CREATION, FULL, IDS, Event, Events, Inventory, Record, attribute, joined
from reading import CDATA, CLOSE, CRETRY, RESULT, SDATA, SRETRY, Fault, Request
from row_texts import STAMP, name
from session_octets import CLIENT, SERVER, batch, fault_batch, pa_message, pb_message, request_fields

BEGINS = name("cdata", batch(CLIENT, CDATA, []))
RETRIES = name("cretry", batch(CLIENT, CRETRY, []))
CLIENT_CLOSES = name("closes", batch(CLIENT, CLOSE, []))
DECIDES = name("result", batch(SERVER, RESULT, [pb_message(2, bytes([0, 0, 0, 4]))]))
CLOSES = name("close", batch(SERVER, CLOSE, []))
ASKS_NOTHING = name("sdata", batch(SERVER, SDATA, []))
RETRIES_NOTHING = name("sretry", batch(SERVER, SRETRY, []))


def asks(identifier=1, earliest=0, **more):
    """The attribute of a request of identifiers."""
    return attribute(13, request_fields(Request(identifier, IDS, earliest, **more)))


def says(*attributes, number_of=1):
    """A message of SWIMA."""
    return pa_message(number_of, attributes)


def sdata(*messages):
    return batch(SERVER, SDATA, messages)


def cdata(*messages):
    return batch(CLIENT, CDATA, messages)


REQUEST = name("request", says(asks()))
ASK = name("ask", sdata(REQUEST))
NO_SOFTWARE = Inventory(7, 0)
INVENTORY = name("inventory", says(NO_SOFTWARE.fields()))
NONE = name("none", cdata(INVENTORY))
SUBSCRIBES = name("subscribe", sdata(says(asks(5, subscribe=True))))
name("none_5", cdata(says(Inventory(7, 0, request=5).fields())))
name("unexpected", fault_batch(CLIENT, Fault(0, 0)))
name("not_expected", fault_batch(SERVER, Fault(0, 0)))


def record(identifier, ident):
    return Record(identifier, ident, "", COSWID, 3)


def event(eid, action, subject):
    return Event(eid, STAMP, action, subject)


def patched(octets, changes):
    """Octets with others at some places."""
    changed = bytearray(octets)
    for place, octet in changes.items():
        changed[place] = octet
    return bytes(changed)


# Faults of a batch of one PB-PA message of 56 octets or more: octets at places, and what is wrong.
HIGH = {9: 0xFF, 10: 0xFF, 11: 0xFF}
BATCH_FAULTS = {
    "version_3": {0: 3},
    "version_0": {0: 0},
    "of_the_other_end": {1: None},
    "type_0": {3: 0},
    "type_7": {3: 7},
    "length_7": {6: 0, 7: 7},
    "length_16777217": {4: 1, 6: 0, 7: 1},
    "eleven_octets": {7: 0x13},
    "unknown_message": {15: 0x63},
    "no_vendor_noskip": HIGH,
    "no_vendor": {8: 0, **HIGH},
    "no_message_type": {8: 0, **{it: 0xFF for it in range(12, 16)}},
    "message_of_11": {19: 0x0B},
    "message_too_long": {18: 1},
    "pa_message_of_23": {19: 0x17},
    "long_assessment": {15: 2},
    "long_recommendation": {15: 3},
    "error_of_19": {15: 5, 19: 0x13},
    "assessment_5": {15: 2, 19: 0x10, 23: 5},
    "recommendation_0": {15: 3, 19: 0x10, 23: 0},
    "recommendation_4": {15: 3, 19: 0x10, 23: 4},
    "no_pa_vendor": {21: 0xFF, 22: 0xFF, 23: 0xFF},
    "no_subtype": {it: 0xFF for it in range(24, 28)},
}


def faulty(prefix, octets, other_direction):
    """The octets with each fault, by name."""
    found = {}
    for word, changes in BATCH_FAULTS.items():
        changes = {place: other_direction if it is None else it for place, it in changes.items()}
        if word == "eleven_octets":  # (the batch ends 11 octets after its header)
            found[word] = name(f"{prefix}_{word}", patched(octets, changes)[:19])
        else:
            found[word] = name(f"{prefix}_{word}", patched(octets, changes))
    return found


SERVER_FAULTS = faulty("s", ASK, 0)
CLIENT_FAULTS = faulty("c", NONE, 0x80)


def body(*octets, identifier=1, version=1):
    """A PB-PA message of SWIMA whose PA-TNC message has these octets after its header."""
    posture = bytes(4) + (9).to_bytes(4, "big") + bytes([0, 1, 0, 1])
    return pb_message(1, posture + bytes([version, 0, 0, 0]) + identifier.to_bytes(4, "big") + b"".join(octets))


def raw(kind, value=b"", length=None, flags=0, vendor=0):
    """The octets of an attribute, with a length of its own where one is given."""
    length = 12 + len(value) if length is None else length
    return bytes([flags]) + vendor.to_bytes(3, "big") + kind.to_bytes(4, "big") + length.to_bytes(4, "big") + value


def bare(octets):
    """A PB-PA message of SWIMA with any octets as its PA-TNC message."""
    return pb_message(1, bytes(4) + (9).to_bytes(4, "big") + bytes([0, 1, 0, 1]) + octets)


GOOD_REQUEST = joined(asks())
SHORT = joined(asks())[12:]
HEARD_ERROR = raw(8, bytes(7) + b"\x06" + bytes(4))

# Faults of a message, at either end: what is wrong, and the message.
MESSAGE_FAULTS = {
    "no octets": bare(b""),
    "7 octets": bare(bytes([1, 0, 0, 0, 0, 0, 0])),
    "7 octets of version 2": bare(bytes([2, 0, 0, 0, 0, 0, 0])),
    "version 2": bare(bytes([2, 0, 0, 0, 0, 0, 0, 1]) + GOOD_REQUEST),
    "version 0": bare(bytes([0, 0, 0, 0, 0, 0, 0, 1])),
    "version 2 after which an Error comes": bare(bytes([2, 0, 0, 0, 0, 0, 0, 1]) + HEARD_ERROR),
    "11 octets after an attribute that is passed over": body(raw(12), bytes(11)),
    "no vendor": body(raw(13, SHORT, vendor=0xFFFFFF)),
    "no type": body(raw(0xFFFFFFFF, SHORT)),
    "a length of 11": body(raw(12, length=11)),
    "a length past the end of the message": body(raw(12, length=13)),
    "a length of 0": body(raw(12, length=0)),
    "the length of the largest number": body(raw(12, length=0xFFFFFFFF)),
    "another vendor with NOSKIP": body(raw(13, SHORT, flags=0x80, vendor=1)),
    "no vendor and no type, with NOSKIP": body(raw(0xFFFFFFFF, flags=0x80, vendor=0xFFFFFF)),
    "65 attributes": body(raw(12) * 65),
    "one octet after 64 attributes": body(raw(12) * 64, b"\0"),
    "a fault after an Error, which is not answered": body(HEARD_ERROR, raw(12, length=11)),
    "a fault before an Error": body(raw(12, length=11), HEARD_ERROR),
    "an Error of 7 octets": body(raw(8, bytes(7))),
    "an Error whose length is bad": body(raw(8, bytes(8), length=24)),
    "an empty Error": body(raw(8)),
}

# Of values that a collector reads.
REQUEST_FAULTS = {
    "an empty request": body(raw(13)),
    "a request of 3 octets": body(raw(13, SHORT[:3])),
    "a request without an identifier": body(raw(13, SHORT[:4])),
    "a request of 11 octets": body(raw(13, SHORT[:11])),
    "a request with an octet left over": body(raw(13, SHORT + b"\0")),
    "a target that is not there": body(raw(13, bytes([0x20, 0, 0, 1]) + SHORT[4:])),
    "a target that is too long": body(raw(13, bytes([0x20, 0, 0, 1]) + SHORT[4:] + bytes([0, 2, 0x61]))),
    "a target after which an octet is left over": body(raw(13, bytes([0x20, 0, 0, 1]) + SHORT[4:] + bytes([0, 1, 0x61, 0]))),
    "as many targets as can be counted": body(raw(13, bytes([0x20, 0xFF, 0xFF, 0xFF]) + SHORT[4:] + bytes(6))),
    "a status request with a value": body(raw(18, b"\0")),
    "a good request before a bad one": body(GOOD_REQUEST, raw(13)),
    "a bad request before an attribute whose length is bad": body(raw(13), raw(12, length=11)),
    "a bad request and an Error, which is not answered": body(raw(13), HEARD_ERROR),
}

ONE = Inventory(7, 1, [record(1, "a")])
CREATED = Events(7, 1, 1, [event(1, CREATION, record(1, "a"))])
TWICE = name("twice", cdata(says(Inventory(7, 3, [record(1, "a")] * 2).fields())))
INVENTORY_VALUE, EVENTS_VALUE = joined(ONE.value()), joined(CREATED.value())
WHOLE_VALUE = joined(Inventory(7, 1, [Record(1, "a", "", COSWID, 3, b"abc")], FULL).value())

# Of values that a validator reads.
REPORT_FAULTS = {
    "an empty inventory": body(raw(14)),
    "an inventory of 15 octets": body(raw(14, INVENTORY_VALUE[:15])),
    "a record that is not there": body(raw(14, INVENTORY_VALUE[:16])),
    "a record of 3 octets": body(raw(14, INVENTORY_VALUE[:19])),
    "a software identifier that is too long": body(raw(14, patched(INVENTORY_VALUE, {26: 0xFF}))),
    "a locator that is too long": body(raw(14, patched(INVENTORY_VALUE, {30: 1}))),
    "an inventory with an octet left over": body(raw(14, INVENTORY_VALUE + b"\0")),
    "a record more than the count says": body(raw(14, patched(INVENTORY_VALUE, {3: 0}))),
    "as many records as can be counted": body(raw(14, patched(INVENTORY_VALUE, {1: 0xFF, 2: 0xFF, 3: 0xFF}))),
    "events without the last that was consulted": body(raw(15, EVENTS_VALUE[:16])),
    "events of which more were consulted than there are": body(raw(15, patched(EVENTS_VALUE, {19: 2}))),
    "an event of a moment that no clock shows": body(raw(15, patched(EVENTS_VALUE, {35: 0x32, 36: 0x35}))),
    "an event of the action 0": body(raw(15, patched(EVENTS_VALUE, {53: 0}))),
    "an event of the action 4": body(raw(15, patched(EVENTS_VALUE, {53: 4}))),
    "an event that is cut in its stamp": body(raw(15, EVENTS_VALUE[:43])),
    "events with an octet left over": body(raw(15, EVENTS_VALUE + b"\0")),
    "a body that is too long": body(raw(16, patched(WHOLE_VALUE, {34: 4}))),
    "a body of 1048577 octets": body(raw(16, patched(WHOLE_VALUE, {32: 0x10, 34: 1}))),
    "a list of subscriptions without a count": body(raw(19, bytes(1))),
    "a list of subscriptions of which one is cut": body(raw(19, bytes([0, 0, 0, 1]) + SHORT[:11])),
    "a list of subscriptions with an octet left over": body(raw(19, bytes([0, 0, 0, 0, 0]))),
    "a good report before a bad one": body(raw(14, INVENTORY_VALUE), raw(14)),
    "a bad report and an Error, which is not answered": body(raw(14), HEARD_ERROR),
}
for faults in (MESSAGE_FAULTS, REQUEST_FAULTS, REPORT_FAULTS):
    for what, message in faults.items():
        word = "m_" + "_".join(what.replace(",", "").split(" "))
        name(word, message)
