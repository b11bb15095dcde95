"""The rows of subscriptions at a collector's end."""

from row_texts import collector, name
from row_values import ASK, ASKS_NOTHING, CLOSES, DECIDES, REQUEST, RETRIES_NOTHING, SUBSCRIBES, asks, body, raw, says, sdata

A = ("create", "a", 0)
B = ("create", "b", 0)
C = ("create", "c", 0)
STATUS = raw(18)
ASKS_STATUS = name("asks_status", sdata(body(STATUS)))


def subscribes(identifier, **more):
    return says(asks(identifier, subscribe=True, **more))


def held(count):
    """A batch with that many subscriptions."""
    return sdata(*(subscribes(it) for it in range(1, count + 1)))


def answers():
    yield "A subscription is answered by a report, and held: the status has its request", [
        collector([SUBSCRIBES, ASKS_STATUS]),
        collector([sdata(subscribes(5, targets=[b"a", b"b"], earliest=3), body(STATUS))]),
        collector([ASKS_STATUS]),
    ]
    yield "A 17th subscription is denied, and the desk is not asked", [
        collector([held(16), sdata(subscribes(17)), ASKS_STATUS]),
        collector([held(17)]),
        collector([held(16), sdata(subscribes(17, clear=True)), ASKS_STATUS]),
        collector([held(16), sdata(says(asks(18)))]),
    ]
    yield "An identifier that is held, and with the flag that clears; in one batch, in one message", [
        collector([SUBSCRIBES, SUBSCRIBES, ASKS_STATUS]),
        collector([SUBSCRIBES, sdata(subscribes(5, clear=True)), ASKS_STATUS]),
        collector([sdata(subscribes(5), subscribes(5))]),
        collector([sdata(says(asks(5, subscribe=True), asks(5, subscribe=True, targets=[b"a"])))]),
        collector([held(16), SUBSCRIBES]),
        collector([SUBSCRIBES, sdata(says(asks(5)))]),
    ]
    yield "A request that clears what is held, or what is not", [
        collector([SUBSCRIBES, sdata(says(asks(9, clear=True))), ASKS_STATUS]),
        collector([sdata(says(asks(9, clear=True))), ASKS_STATUS]),
        collector([sdata(subscribes(5), subscribes(6), says(asks(9, clear=True)), body(STATUS))]),
        collector([sdata(subscribes(5, clear=True)), ASKS_STATUS]),
        collector([SUBSCRIBES, A, sdata(says(asks(9, earliest=1, clear=True)))]),
    ]


def rooms():
    yield "A list of subscriptions that has room, and one that has not: the Error has the ID 0 and the room that is left", [
        collector([A, sdata(body(STATUS))], max=4),
        collector([A, sdata(body(STATUS))], max=3),
        collector([SUBSCRIBES, ASKS_STATUS], max=16),
        collector([SUBSCRIBES, sdata(subscribes(6)), ASKS_STATUS], max=28),
        collector([SUBSCRIBES, sdata(subscribes(6)), ASKS_STATUS], max=27),
        collector([sdata(REQUEST, body(STATUS))], max=19),
        collector([sdata(REQUEST, body(STATUS))], max=20),
        collector([sdata(body(STATUS), REQUEST)], max=19),
        collector([sdata(body(STATUS, STATUS))], max=7),
    ]
    yield "A report that is too large ends its subscription, and others in the batch take the room", [
        collector([A, SUBSCRIBES, ASKS_STATUS], max=30),
        collector([A, SUBSCRIBES, ASKS_STATUS], max=31),
        collector([A, sdata(says(asks(1)), subscribes(5)), ASKS_STATUS], max=61),
        collector([A, sdata(says(asks(1)), subscribes(5)), ASKS_STATUS], max=62),
        collector([A, sdata(says(asks(1, earliest=1)))], max=58),
        collector([A, sdata(says(asks(1, earliest=2)))], max=20),
        collector([A, sdata(says(asks(1, earliest=2)))], max=19),
        collector([A, sdata(says(asks(1), asks(2), asks(3, earliest=2)))], max=64),
    ]
    yield "A subscribed report that is too large ends the subscription where the batch has nothing else, and waits where it has", [
        collector([SUBSCRIBES, DECIDES, A, "idle", ASKS_NOTHING, ASKS_STATUS], max=58),
        collector([SUBSCRIBES, DECIDES, A, "idle", ASKS_NOTHING, ASKS_STATUS], max=59),
        collector([SUBSCRIBES, A, sdata(says(asks(1, earliest=2))), ASKS_NOTHING, ASKS_STATUS], max=78),
        collector([SUBSCRIBES, A, sdata(says(asks(1, earliest=2))), ASKS_NOTHING, ASKS_STATUS], max=79),
        collector([SUBSCRIBES, A, ASKS_STATUS, ASKS_NOTHING], max=60),
        collector([sdata(subscribes(5), subscribes(6)), A, ASKS_NOTHING, ASKS_NOTHING, ASKS_STATUS], max=60),
        collector([sdata(subscribes(5, targets=[b"zz"]), subscribes(6)), A, ASKS_NOTHING, ASKS_STATUS], max=58),
    ]


def reports():
    yield "A report for a subscription comes after the answers, with the flag that it fulfils: what is new since the last one", [
        collector([SUBSCRIBES, A, ASK, B, ASK, ASK]),
        collector([SUBSCRIBES, A, ASKS_NOTHING, ("delete", 1), ASKS_NOTHING, ASKS_NOTHING]),
        collector([sdata(subscribes(5), subscribes(6)), A, ASKS_NOTHING]),
        collector([SUBSCRIBES, A, B, C, ASKS_NOTHING, ASKS_NOTHING, ASKS_NOTHING], max=98),
    ]
    yield "With targets: only what has one of them counts", [
        collector([sdata(subscribes(5, targets=[b"b"])), A, ASKS_NOTHING, B, ASKS_NOTHING]),
        collector([A, B, sdata(subscribes(5, targets=[b"b", b"c"])), C, ASKS_NOTHING]),
        collector([sdata(subscribes(5, targets=[b"b"])), DECIDES, A, "idle", B, "idle", ASKS_NOTHING]),
    ]
    yield "Another epoch, and a log that no longer has the next event: the inventory", [
        collector([A, SUBSCRIBES, ("epoch", 8), ASKS_NOTHING, B, ASKS_NOTHING]),
        collector([A, SUBSCRIBES, B, ("trim", 3), ASKS_NOTHING]),
        collector([A, SUBSCRIBES, B, C, ASKS_NOTHING], cap=1),
        collector([A, sdata(subscribes(5, targets=[b"zz"])), ("epoch", 8), DECIDES, "idle", ASKS_NOTHING]),
    ]
    yield "An idle turn in Decided: an empty CRETRY where something moved; not in other states, and not at the last turn", [
        collector([SUBSCRIBES, DECIDES, "idle", A, "idle", "idle", ASKS_NOTHING, DECIDES, "idle"]),
        collector([SUBSCRIBES, A, "idle", DECIDES, "idle"]),
        collector([ASK, DECIDES, A, "idle"]),
        collector([SUBSCRIBES, DECIDES, A, "idle"], idle=1),
        collector([SUBSCRIBES, DECIDES, "idle", A, "idle"], idle=2),
        collector([SUBSCRIBES, DECIDES, A, "idle", RETRIES_NOTHING, ASKS_NOTHING]),
        collector([SUBSCRIBES, DECIDES, A, RETRIES_NOTHING, DECIDES, "idle"]),
        collector([SUBSCRIBES, DECIDES, A, "idle", ASKS_NOTHING, DECIDES, CLOSES]),
    ]
    yield "64 messages of answers leave no room for a subscribed report, which waits; 63 leave room", [
        collector([SUBSCRIBES, A, sdata(*[REQUEST] * 64), ASKS_NOTHING]),
        collector([SUBSCRIBES, A, sdata(*[REQUEST] * 63)]),
        collector([SUBSCRIBES, A, sdata(*[body(raw(8, bytes(8)))] * 64)]),
    ]
    yield "With `reports` those for subscriptions count", [collector([SUBSCRIBES, DECIDES, A, "idle", ASKS_NOTHING, DECIDES], reports=2)]


PARTS = [("answers to requests that subscribe", answers), ("room", rooms), ("the reports of subscriptions", reports)]
