"""The rows of whole sessions over a link in memory, some of whose calls fail."""

from collector_rows import server
from reading import SDATA
from row_texts import collector_of, setting, spelled, turn_word, validator_of
from row_values import ASK, BEGINS, CLIENT_CLOSES, CLIENT_FAULTS, CLOSES, DECIDES, MESSAGE_FAULTS, NONE, SERVER_FAULTS, TWICE


class Broken(Exception):
    """A call failed."""


class Link:
    """A link that moves at most `piece` octets in a call, is given at most `room`, and fails at the calls of these numbers."""

    def __init__(self, turns, piece, room, failing):
        self.turns, self.piece, self.room, self.failing, self.calls = list(turns), piece, room, failing, 0
        self.given = b""

    def call(self, full=False):
        self.calls += 1
        if self.calls in self.failing or full:
            raise Broken

    def give(self, octets):
        self.call(not self.room)
        count = min(len(octets), self.piece, self.room)
        self.given, self.room = self.given + octets[:count], self.room - count
        return count

    def take(self, most):
        """Octets, `idle` or `end`."""
        self.call()
        if not self.turns:
            return "end"
        first = self.turns.pop(0)
        if first == "idle":
            return first
        while self.turns and self.turns[0] != "idle":
            first += self.turns.pop(0)
        count = min(self.piece, most)
        if first[count:]:
            self.turns.insert(0, first[count:])
        return first[:count]


def drive(end, link):
    """Drives an end over a link until it is over: gives all that waits, then takes once, and so on."""
    try:
        while True:
            while end.waits:
                end.carried(link.give(end.waits))
            if end.over is not None:
                return end.over
            turn = link.take(end.most_octets - end.received)
            if isinstance(turn, bytes):
                end.hear(turn)
            else:
                {"idle": end.idle, "end": end.link_ended}[turn]()
    except Broken:
        return "link-fault"


def row(call, make, turns, piece, room, failing, settings):
    end, link = make(dict(settings))[1], Link(turns, piece, room, failing)
    over = drive(end, link)
    calls = ",".join(map(str, failing)) or "-"
    words = f"{setting(settings)} {piece} {room} {calls} {' '.join(map(turn_word, turns))}"
    return f"{call} {words} = {spelled(link.given)}; {over}; sent {len(link.given)}; received {end.received}"


def collector(turns, piece=4096, room=4096, failing=(), **settings):
    return row("collector_link", collector_of, turns, piece, room, failing, settings)


def validator(turns, piece=4096, room=4096, failing=(), **settings):
    return row("validator_link", validator_of, turns, piece, room, failing, settings)


def whole():
    yield "Whole sessions, in pieces: 1 octet, some, and all", [
        *(collector([ASK, DECIDES, CLOSES], piece=it) for it in (1, 7, 64, 4096)),
        *(validator([BEGINS, NONE], piece=it, rounds=1) for it in (1, 7, 64, 4096)),
        validator([BEGINS, TWICE, TWICE, TWICE], piece=50, rounds=1),
        collector([server(SDATA, MESSAGE_FAULTS["version 2"]), CLOSES], piece=9),
    ]
    yield "Idle turns, the last octet that is allowed, a fault, and an end of the link", [
        collector(["idle", ASK, "idle", "idle"], idle=2),
        validator([BEGINS, NONE, "idle", "idle"], idle=2),
        collector([ASK + DECIDES], octets=64),
        validator([BEGINS + NONE], octets=76),
        collector([SERVER_FAULTS["message_of_11"] + ASK]),
        validator([CLIENT_FAULTS["version_3"]]),
        collector([ASK, DECIDES]),
        validator([BEGINS, NONE[:9]], piece=5),
        validator([BEGINS, NONE, CLIENT_CLOSES + BEGINS], piece=4),
    ]


def failing():
    yield "Each call fails in turn, in pieces of 32 octets; what was given before stays given", [
        *(collector([ASK, DECIDES, CLOSES], piece=32, failing=(it,)) for it in range(1, 13)),
        *(validator([BEGINS, NONE], piece=32, failing=(it,), rounds=1) for it in range(1, 12)),
    ]
    yield "A call that fails goes before every other end, also where a batch is refused and its answer cannot be given", [
        collector([SERVER_FAULTS["version_3"]], failing=(3,)),
        validator([CLIENT_FAULTS["version_3"]], failing=(2,)),
        collector([CLOSES], failing=(3,)),
    ]
    yield "A link that is full", [
        collector([ASK, DECIDES, CLOSES], room=7),
        collector([ASK, DECIDES, CLOSES], room=75),
        collector([ASK, DECIDES, CLOSES], room=76),
        validator([BEGINS, NONE], room=95, rounds=1),
        validator([BEGINS, NONE], room=96, rounds=1),
    ]


PARTS = [("whole sessions", whole), ("calls that fail", failing)]
