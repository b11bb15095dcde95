"""The rows of a collector's end: parts of rules, each a heading and the rows that show it."""

from reading import CDATA, CLOSE, CRETRY, RESULT, SDATA, SRETRY
from row_texts import collector, collector_cut
from row_values import ASK, ASKS_NOTHING, CLOSES, DECIDES, HEARD_ERROR, MESSAGE_FAULTS, REQUEST, REQUEST_FAULTS
from row_values import RETRIES_NOTHING, SERVER_FAULTS, SUBSCRIBES, body, patched, raw, sdata
from session_octets import SERVER, batch

# What was heard before, by the place in a session.
PLACES = {
    "first of all": [],
    "after an answer": [ASK],
    "in Decided": [ASK, DECIDES],
    "after an SRETRY was answered": [ASK, DECIDES, RETRIES_NOTHING],
    "after a CRETRY": [SUBSCRIBES, DECIDES, ("create", "a", 0), "idle"],
}


def frame(kind, vendor=0, flags=0, value=b"", length=None):
    """A message of PB-TNC with any type."""
    length = 12 + len(value) if length is None else length
    return bytes([flags]) + vendor.to_bytes(3, "big") + kind.to_bytes(4, "big") + length.to_bytes(4, "big") + value


def pb_error(fatal, vendor=0, code=2, info=b""):
    return frame(5, flags=0x80, value=bytes([0x80 if fatal else 0]) + vendor.to_bytes(3, "big") + code.to_bytes(2, "big") + bytes(2) + info)


def server(kind, *messages):
    return batch(SERVER, kind, messages)


def whole_sessions():
    yield "A whole session, of which rows after this one change something", [
        collector([ASK, DECIDES, CLOSES]),
        collector([ASK + DECIDES + CLOSES]),
    ]
    yield "After as many reports as are wanted a RESULT is answered by CLOSE", [
        collector([ASK, DECIDES], reports=1),
        collector([ASK, DECIDES], reports=2),
        collector([ASKS_NOTHING, DECIDES], reports=1),
        collector([ASKS_NOTHING, DECIDES], reports=0),
        collector([ASK, ASK, DECIDES, CLOSES], reports=2),
    ]


def faults():
    for where, before in PLACES.items():
        yield f"Each fault of a batch, {where}: the CLOSE that reports it", [
            collector([*before, octets]) for octets in SERVER_FAULTS.values()
        ]
    yield "A fault of the header shows after 8 octets, and one of a message once the batch is whole", [
        collector([octets[:8], octets[8:]])
        for octets in (SERVER_FAULTS["version_3"], SERVER_FAULTS["message_of_11"])
    ]
    yield "Of two faults that with the lower place counts", [
        collector([patched(ASK, {0: 3, 3: 7})]),
        collector([patched(ASK, {1: 0, 3: 7})]),
        collector([patched(ASK, {15: 0x63, 19: 0x0B})]),
        collector([sdata(frame(2, flags=0x80, value=bytes([0, 0, 0, 5])), frame(99, flags=0x80))]),
    ]
    yield "A batch that the machine would pass over, or not expect, is refused by its fault first", [
        collector([server(SRETRY, frame(99, flags=0x80))]),
        collector([server(CDATA, frame(99, flags=0x80))]),
        collector([server(RESULT, frame(12, value=b"", length=11))]),
    ]
    yield "After a fault nothing is heard", [collector([SERVER_FAULTS["version_3"], ASK, "idle", "end"]), collector([SERVER_FAULTS["version_3"] + ASK])]


def batches():
    kinds = {"CDATA": CDATA, "SDATA": SDATA, "RESULT": RESULT, "CRETRY": CRETRY, "SRETRY": SRETRY, "CLOSE": CLOSE}
    for where, before in PLACES.items():
        yield f"Each batch without messages, {where}: {', '.join(kinds)}", [collector([*before, server(it)]) for it in kinds.values()]
    yield "After CLOSE nothing is heard", [collector([CLOSES, it]) for it in (ASK, "idle", "end", SERVER_FAULTS["version_3"])]
    yield "A fatal PB-Error ends the session in any batch, and any PB-Error in a CLOSE; the first counts", [
        *(collector([ASK, server(it, pb_error(True, 0, 2))]) for it in (SDATA, RESULT, CLOSE)),
        *(collector([ASK, server(it, pb_error(False, 1, 65535))]) for it in (SDATA, RESULT, CLOSE)),
        collector([ASK, DECIDES, server(SRETRY, REQUEST, pb_error(True, 9, 1))]),
        collector([server(SDATA, REQUEST, pb_error(False, 7, 1), pb_error(True, 9, 3), pb_error(True, 8, 2))]),
        collector([server(CLOSE, pb_error(False, 7, 1, bytes(4)), pb_error(True, 9, 3))]),
    ]
    yield "A batch that is passed over ends nothing, and one that is not expected is refused before its errors", [
        collector([server(SRETRY, pb_error(True))]),
        collector([ASK, DECIDES, server(RESULT, pb_error(True))]),
    ]
    yield "Messages that are passed over: assessments, recommendations, other types, other vendors and subtypes; EXCL and identifiers", [
        collector([sdata(frame(2, value=bytes(4)), frame(3, value=bytes([0, 0, 0, 1])), REQUEST)]),
        collector([sdata(*(frame(it, flags=0x80, value=b"abc") for it in (4, 6, 7)), frame(8), frame(1, 1), frame(0xFFFFFFFE, 0xFFFFFE))]),
        collector([sdata(patched(REQUEST, {15: 1}), patched(REQUEST, {19: 8}), patched(REQUEST, {16: 1}))]),
        collector([sdata(patched(REQUEST, {12: 0x80, 20: 9, 21: 9, 22: 9, 23: 9}))]),
        collector([sdata(patched(REQUEST, {0: 0x7F, 12: 0x7F}))]),
    ]
    most = [REQUEST] * 64
    yield "A batch of 64 messages, and one of 65: the 65th, and an octet after the 64th", [
        collector([ASK, sdata(*most)]),
        collector([ASK, sdata(*most, REQUEST)]),
        collector([ASK, sdata(*most, b"\0")]),
    ]


def messages():
    before = {"first of all": ([], SDATA), "after an answer": ([ASK], SDATA), "in an SRETRY": ([ASK, DECIDES], SRETRY)}
    for where, (heard, kind) in before.items():
        yield f"Each fault of a message, {where}: the Error that answers it, or none", [
            collector([*heard, server(kind, it)]) for it in (*MESSAGE_FAULTS.values(), *REQUEST_FAULTS.values())
        ]
    yield "So after a CRETRY, where the subscription is answered too", [
        collector([*PLACES["after a CRETRY"], sdata(it)]) for it in list(MESSAGE_FAULTS.values())[:6] + list(REQUEST_FAULTS.values())[:6]
    ]
    yield "Messages of a RESULT, of a CLOSE and of a batch that is passed over are not looked at", [
        collector([ASK, server(kind, message)])
        for kind in (RESULT, CLOSE, SRETRY)
        for message in (MESSAGE_FAULTS["version 2"], REQUEST_FAULTS["an empty request"], REQUEST)
    ]
    yield "Messages before and after one that is refused are answered, each by a message of its own", [
        collector([sdata(REQUEST, REQUEST_FAULTS["an empty request"], REQUEST)]),
        collector([sdata(MESSAGE_FAULTS["a fault after an Error, which is not answered"], REQUEST)]),
    ]
    others = [14, 15, 16, 17, 19, 1, 7, 9, 12, 20, 21, 0, 0xFFFFFFFE]
    yield "Attributes of types that a collector does not support: passed over, and refused with NOSKIP", [
        *(collector([sdata(body(raw(it, b"abc"), raw(13, REQUEST[44:])))]) for it in others),
        *(collector([sdata(body(raw(it, b"abc", flags=0x80), raw(13, REQUEST[44:])))]) for it in others),
    ]
    yield "Of another vendor, and with flags that are not looked at", [
        collector([sdata(body(raw(13, REQUEST[44:], vendor=9)))]),
        collector([sdata(body(raw(13, REQUEST[44:], vendor=9, flags=0x80)))]),
        collector([sdata(body(raw(13, REQUEST[44:], flags=0xFF)))]),
        collector([sdata(body(raw(13, REQUEST[44:], flags=0x7F), raw(12, flags=0x7F)))]),
    ]
    yield "64 attributes of one message are answered in one message", [collector([sdata(body(raw(13, REQUEST[44:]) * 64))])]
    yield "Errors that come are noted and not answered; of a message that is refused nothing is noted", [
        collector([sdata(body(HEARD_ERROR))]),
        collector([sdata(body(HEARD_ERROR, raw(8, bytes(7) + b"\x63"), raw(8, bytes([0, 0, 0, 9, 0, 0, 0, 5]))))]),
        collector([sdata(body(HEARD_ERROR, raw(13, REQUEST[44:]))), ASK]),
        collector([sdata(body(HEARD_ERROR, raw(13)), body(HEARD_ERROR))]),
    ]


def turns():
    yield "Idle turns before, between and after batches", [
        collector(["idle", ASK, "idle", DECIDES, "idle", "idle", CLOSES, "idle"]),
        collector(["idle", "idle", ASK], idle=2),
        collector(["idle", ASK, "idle", DECIDES, "idle", CLOSES], idle=2),
        collector([ASK, "idle", "idle", DECIDES], idle=2),
        collector(["idle", ASK], idle=1),
    ]
    yield "An octet ends the count of idle turns, and the batch goes on after them", [
        collector([ASK[:3], "idle", ASK[3:40], "idle", ASK[40:], "idle", "idle"], idle=2),
        collector([ASK[:3], "idle", "idle"], idle=2),
    ]
    yield "The link ends: between batches, in a header, in a batch, and after the session", [
        collector(["end", ASK]),
        collector([ASK[:5], "end"]),
        collector([ASK, DECIDES, CLOSES[:7], "end", "idle"]),
        collector([ASK, DECIDES, CLOSES, "end"]),
        collector([bytes.fromhex("0280000200"), "end"]),
    ]
    yield "After each octet of a session: how many octets of a batch are there, and what was written by then", [
        collector_cut(ASK + DECIDES + CLOSES),
        collector_cut(ASK + DECIDES, reports=1),
        collector_cut(SERVER_FAULTS["message_of_11"] + ASK),
        collector_cut(SERVER_FAULTS["version_3"]),
        collector_cut(sdata(REQUEST, REQUEST_FAULTS["an empty request"]) + DECIDES + RETRIES_NOTHING + CLOSES),
    ]
    yield "As many octets as are allowed: within a batch, at its end, at a CLOSE, at a fault, and after the session", [
        collector([ASK], octets=1),
        collector([ASK], octets=63),
        collector([ASK], octets=64),
        collector([ASK, DECIDES], octets=64),
        collector([ASK, DECIDES, CLOSES], octets=95),
        collector([ASK, DECIDES, CLOSES], octets=96),
        collector([ASK, DECIDES], octets=88, reports=1),
        collector([SERVER_FAULTS["version_3"]], octets=7),
        collector([SERVER_FAULTS["version_3"][:8]], octets=8),
        collector(["idle", ASK, "idle"], octets=64),
    ]
    yield "A batch that says that it is longer than what comes, and one that is shorter", [
        collector([patched(ASK, {7: 0x41}), "end"]),
        collector([patched(ASK, {4: 1, 7: 0}), "idle", "end"]),
        collector([patched(ASK, {7: 0x08})]),
        collector([patched(ASK, {7: 0x20})]),
    ]


PARTS = [("whole sessions", whole_sessions), ("batches and their faults", faults), ("batches, by the state", batches), ("messages and attributes", messages), ("turns", turns)]
