"""The rows of a validator's end: parts of rules, each a heading and the rows that show it."""

from formats import ALTERATION, CREATION, DELETION, Events, Inventory, joined
from reading import CDATA, CLOSE, CRETRY, RESULT, SDATA, SRETRY
from row_texts import validator, validator_cut
from row_values import BEGINS, CLIENT_CLOSES, CLIENT_FAULTS, HEARD_ERROR, INVENTORY, MESSAGE_FAULTS, NONE, ONE, REPORT_FAULTS, RETRIES, TWICE
from row_values import asks, body, cdata, event, patched, raw, record, says
from collector_rows import frame, pb_error
from session_octets import CLIENT, batch, error

# What was heard before, by the place in a session.
PLACES = {
    "first of all": [],
    "after a request": [BEGINS],
    "in Decided": [BEGINS, NONE],
    "after an SRETRY": [BEGINS, NONE, "idle"],
    "after a CRETRY was answered": [BEGINS, NONE, RETRIES],
}


def client(kind, *messages):
    return batch(CLIENT, kind, messages)


def reports(*them):
    return says(*(it.fields() for it in them))


def faults():
    yield "A whole session of one round, and of two with an SRETRY between", [
        validator([BEGINS, NONE], rounds=1),
        validator([BEGINS + NONE], rounds=1),
        validator([BEGINS, NONE, "idle", NONE, CLIENT_CLOSES], rounds=2),
        validator([BEGINS, NONE, CLIENT_CLOSES], rounds=2),
    ]
    for where, before in PLACES.items():
        yield f"Each fault of a batch, {where}: the CLOSE that reports it", [
            validator([*before, octets]) for octets in CLIENT_FAULTS.values()
        ]
    yield "Of two faults that with the lower place counts; a fault counts before the state", [
        validator([patched(NONE, {0: 3, 3: 7})]),
        validator([patched(NONE, {15: 0x63, 19: 0x0B})]),
        validator([client(SDATA, frame(99, flags=0x80))]),
    ]
    yield "After a fault nothing is heard", [validator([CLIENT_FAULTS["version_3"], BEGINS, "idle", "end"]), validator([CLIENT_FAULTS["version_3"] + BEGINS])]


def batches():
    kinds = {"CDATA": CDATA, "SDATA": SDATA, "RESULT": RESULT, "CRETRY": CRETRY, "SRETRY": SRETRY, "CLOSE": CLOSE}
    for where, before in PLACES.items():
        yield f"Each batch without messages, {where}: {', '.join(kinds)}", [validator([*before, client(it)]) for it in kinds.values()]
    yield "A fatal PB-Error ends the session in any batch, and any PB-Error in a CLOSE; nothing else of the batch is taken", [
        *(validator([BEGINS, client(it, INVENTORY, pb_error(True, 0, 2))]) for it in (CDATA, CRETRY, CLOSE)),
        *(validator([BEGINS, client(it, INVENTORY, pb_error(False, 1, 65535))]) for it in (CDATA, CRETRY, CLOSE)),
        validator([client(CDATA, pb_error(False, 7, 1), pb_error(True, 9, 3), pb_error(True, 8, 2))]),
        validator([BEGINS, client(RESULT, pb_error(True))]),
    ]
    yield "After CLOSE nothing is heard", [validator([BEGINS, CLIENT_CLOSES, it]) for it in (NONE, "idle", "end", CLIENT_FAULTS["version_3"])]
    yield "Messages that are passed over; EXCL and identifiers are not looked at", [
        validator([BEGINS, cdata(frame(2, value=bytes(4)), frame(3, value=bytes([0, 0, 0, 1])), frame(4), frame(9, 9), INVENTORY)]),
        validator([BEGINS, cdata(patched(INVENTORY, {15: 1}), patched(INVENTORY, {19: 8}))]),
        validator([BEGINS, cdata(patched(INVENTORY, {12: 0x80, 20: 9, 21: 9, 22: 9, 23: 9}))]),
    ]
    yield "A batch of 64 messages, and one of 65: the 65th, and an octet after the 64th", [
        validator([BEGINS, cdata(*[INVENTORY] * 64)]),
        validator([BEGINS, cdata(*[INVENTORY] * 65)]),
        validator([BEGINS, cdata(*[INVENTORY] * 64, b"\0")]),
    ]


def messages():
    before = {
        "first of all": ([], CDATA),
        "after a request": ([BEGINS], CDATA),
        "in a CRETRY": ([BEGINS, NONE], CRETRY),
        "in a CRETRY that crosses an SRETRY": ([BEGINS, NONE, "idle"], CRETRY),
    }
    for where, (heard, kind) in before.items():
        yield f"Each fault of a message, {where}: the Error that answers it, or none", [
            validator([*heard, client(kind, it)]) for it in (*MESSAGE_FAULTS.values(), *REPORT_FAULTS.values())
        ]
    yield "Messages of a CLOSE are not looked at", [
        validator([BEGINS, client(CLOSE, it)]) for it in (MESSAGE_FAULTS["version 2"], REPORT_FAULTS["an empty inventory"], INVENTORY)
    ]
    yield "The answers come before a request, and after an assessment; what is good beside them is taken", [
        validator([BEGINS, cdata(MESSAGE_FAULTS["version 2"], INVENTORY, REPORT_FAULTS["an empty inventory"])], rounds=1),
        validator([cdata(MESSAGE_FAULTS["version 2"], INVENTORY)]),
    ]
    bad = MESSAGE_FAULTS["no octets"]
    yield "63 answers at most, in an SDATA with a request, in one without, and in a RESULT; what is left out takes no number", [
        validator([cdata(*[bad] * 63)]),
        validator([cdata(*[bad] * 64), NONE]),
        validator([BEGINS, NONE, client(CRETRY, *[bad] * 64), BEGINS]),
        validator([BEGINS, cdata(*[bad] * 63, INVENTORY)], rounds=1),
        validator([BEGINS, cdata(*[bad] * 64)], rounds=1),
    ]
    value = joined(ONE.fields())
    others = [13, 18, 1, 7, 9, 12, 20, 21, 0, 0xFFFFFFFE]
    yield "Attributes of types that a validator does not support: passed over, and refused with NOSKIP", [
        *(validator([BEGINS, cdata(body(raw(it, b"abc"), value))]) for it in others),
        *(validator([BEGINS, cdata(body(raw(it, b"abc", flags=0x80), value))]) for it in others),
        validator([BEGINS, cdata(body(raw(14, value[12:], vendor=9)))]),
        validator([BEGINS, cdata(body(raw(14, value[12:], vendor=9, flags=0x80)))]),
        validator([BEGINS, cdata(body(raw(14, value[12:], flags=0xFF)))]),
    ]
    yield "Errors that come are noted and not answered, also of codes that have no meaning here; a list of subscriptions changes nothing", [
        validator([BEGINS, cdata(body(HEARD_ERROR))]),
        validator([BEGINS, cdata(says(error(6, 1, 0)))], subscribe=True, rounds=2),
        validator([BEGINS, cdata(body(raw(8, bytes([0, 0, 0, 9, 255, 255, 255, 255])), raw(8, bytes(8))))]),
        validator([BEGINS, cdata(body(HEARD_ERROR, value))]),
        validator([BEGINS, cdata(body(HEARD_ERROR, raw(14)), body(HEARD_ERROR))]),
        validator([BEGINS, cdata(body(raw(19, bytes(4)), value))]),
        validator([BEGINS, cdata(body(raw(19, bytes([0, 0, 0, 1]) + joined(asks(5, subscribe=True))[12:])))]),
    ]


A, B = record(1, "a"), record(2, "b")
GAP = cdata(reports(Events(7, 3, 3, [event(3, CREATION, B)])))


def answers():
    yield "What the mirror answers to a report, and what is asked then", [
        validator([BEGINS, cdata(reports(ONE))]),
        validator([BEGINS, cdata(reports(ONE, ONE))]),
        validator([BEGINS, cdata(reports(ONE, Events(7, 2, 2, [event(2, CREATION, B)])))]),
        validator([BEGINS, cdata(reports(ONE), reports(Inventory(7, 0)))]),
        validator([BEGINS, cdata(reports(Inventory(7, 0), Events(8, 1, 1, [event(1, CREATION, A)])))]),
        validator([BEGINS, cdata(reports(ONE, Events(7, 2, 2, [event(2, CREATION, A)])))]),
        validator([BEGINS, cdata(reports(ONE, Events(7, 2, 2, [event(2, ALTERATION, B)])))]),
        validator([BEGINS, cdata(reports(ONE, Events(7, 2, 2, [event(2, DELETION, record(1, "b"))])))]),
        validator([BEGINS, cdata(reports(ONE, Events(7, 2, 2, [event(2, DELETION, A)])))]),
        validator([BEGINS, cdata(reports(ONE, Events(7, 3, 3, [event(3, CREATION, B)])))]),
        validator([BEGINS, cdata(reports(Events(7, 1, 1, [event(1, CREATION, A)])))]),
        validator([BEGINS, cdata(reports(ONE))], full=True),
        validator([cdata(reports(ONE))]),
    ]
    yield "Three requests in vain end a round; a request that moved the mirror begins the count anew; the next round asks again", [
        validator([BEGINS, TWICE, TWICE, TWICE], rounds=1),
        validator([BEGINS, TWICE, TWICE, TWICE, "idle", TWICE, TWICE, TWICE]),
        validator([BEGINS, NONE, "idle", GAP, GAP, GAP]),
        validator([BEGINS, NONE, "idle", GAP, cdata(reports(ONE)), "idle"]),
        validator([BEGINS, BEGINS]),
        validator([BEGINS, cdata(reports(Inventory(7, 0, [A, A])), reports(Inventory(7, 0)), reports(Events(7, 2, 2, [])))]),
    ]
    partial = Events(7, 3, 1, [event(1, CREATION, A)])
    yield "A report of events that is partial is asked on; one of another epoch, one that was stale, or one that the mirror has passed is not", [
        validator([BEGINS, cdata(reports(Inventory(7, 0), partial)), BEGINS, BEGINS, BEGINS]),
        validator([BEGINS, cdata(reports(Inventory(7, 3), partial))]),
        validator([BEGINS, cdata(reports(Inventory(7, 0), partial, Inventory(7, 1)))]),
        validator([BEGINS, cdata(reports(Inventory(7, 1), Events(7, 3, 1, [])))]),
        validator([BEGINS, cdata(reports(Inventory(8, 0), Events(7, 3, 1, [])))]),
        validator([BEGINS, cdata(reports(Inventory(7, 0), Events(7, 2, 0, [])))]),
    ]
    yield "The last event that an epoch can have: the mirror wants nothing more, and asks for the inventory", [
        validator([BEGINS, cdata(reports(Inventory(7, 4294967295))), "idle"]),
        validator([BEGINS, cdata(reports(Inventory(0, 4294967294))), "idle"]),
    ]
    yield "Reports of a CRETRY are taken; it is answered by an SDATA without a request, unless an SRETRY crossed", [
        validator([client(CRETRY, INVENTORY)]),
        validator([BEGINS, client(CRETRY, INVENTORY)]),
        validator([BEGINS, NONE, client(CRETRY, reports(ONE)), BEGINS]),
        validator([BEGINS, NONE, "idle", RETRIES, BEGINS]),
        validator([BEGINS, NONE, "idle", RETRIES, RETRIES, NONE, RETRIES]),
        validator([BEGINS, NONE, "idle", client(CRETRY, reports(Inventory(7, 1, [A, A]))), TWICE, TWICE]),
    ]


def turns():
    yield "Idle turns before, between and after batches: in Decided an SRETRY, unless it has subscribed; none at the last", [
        validator(["idle", BEGINS, "idle", NONE, "idle", "idle"]),
        validator([BEGINS, NONE, "idle"], subscribe=True),
        validator([BEGINS, NONE, "idle"], idle=1),
        validator(["idle", "idle"], idle=2),
        validator([BEGINS, "idle", "idle", NONE], idle=2),
        validator([BEGINS, NONE, "idle", "idle"], idle=2),
        validator([BEGINS, NONE[:5], "idle", NONE[5:60], "idle", NONE[60:], "idle", "idle"], idle=2),
        validator(["idle", "idle", "idle"], idle=4),
    ]
    yield "With `subscribe` the first request of the session subscribes, and no other", [
        validator([BEGINS, TWICE], subscribe=True),
        validator([BEGINS, NONE, client(CRETRY, reports(Events(7, 1, 1, [event(1, CREATION, A)], flags=0x80))), BEGINS], subscribe=True),
    ]
    yield "The link ends: between batches, in a header, in a batch, and after the session", [
        validator(["end", BEGINS]),
        validator([BEGINS, NONE[:9], "end", "idle"]),
        validator([BEGINS, NONE, "end"], rounds=1),
        validator([BEGINS, NONE, "end"]),
    ]
    yield "After each octet of a session: how many octets of a batch are there, and what was written by then", [
        validator_cut(BEGINS + NONE, rounds=1),
        validator_cut(BEGINS + NONE + RETRIES + BEGINS + CLIENT_CLOSES),
        validator_cut(CLIENT_FAULTS["version_3"]),
        validator_cut(BEGINS + CLIENT_FAULTS["no_subtype"]),
        validator_cut(BEGINS + TWICE + TWICE + TWICE, rounds=1),
    ]
    yield "As many octets as are allowed: within a batch, at its end, at the last round, at a fault, and at a CLOSE", [
        validator([BEGINS], octets=1),
        validator([BEGINS, NONE], octets=8),
        validator([BEGINS, NONE], octets=75, rounds=1),
        validator([BEGINS, NONE], octets=76, rounds=1),
        validator([BEGINS, NONE], octets=76),
        validator([CLIENT_FAULTS["version_3"]], octets=7),
        validator([CLIENT_FAULTS["version_3"][:8]], octets=8),
        validator([BEGINS, CLIENT_CLOSES], octets=16),
    ]
    yield "A batch that says that it is longer than what comes, and one that is shorter", [
        validator([BEGINS, patched(NONE, {7: 0x45}), "end"]),
        validator([BEGINS, patched(NONE, {4: 1, 7: 0}), "idle", "end"]),
        validator([BEGINS, patched(NONE, {7: 0x08})]),
        validator([BEGINS, patched(NONE, {7: 0x20})]),
    ]


PARTS = [
    ("batches and their faults", faults),
    ("batches, by the state", batches),
    ("messages and attributes", messages),
    ("reports and requests", answers),
    ("turns", turns),
]
