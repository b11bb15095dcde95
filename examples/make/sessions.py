"""Both ends of a session, over octets: what each writes as it hears octets, idle turns and the end of the link, and how it ends.

The rules follow RFC 5793 and RFC 8412, as docs/rules/sessions.md says them. The other end may write what it pleases.
"""

from dataclasses import replace

from formats import FULFILMENT, Events, attribute, joined
from inventory import octets_of
from reading import ASSESSMENT, CDATA, CLOSE, COLLECTOR_READS, CRETRY, ERROR, MOST_MESSAGES, REPORTS, REQUEST, RESULT, SDATA
from reading import SRETRY, STATUS_RESPONSE, UNEXPECTED, VALIDATOR_READS
from reading import Fault, Refused, Request, batch_in, bodies, ends_session, words_in
from session_octets import CLIENT, SERVER, batch, error, fault_batch, pa_message, pb_message, request_fields, status

DO_NOT_KNOW = 4
DENIED, TOO_LARGE, REUSED = 5, 6, 8  # codes of PA-TNC Errors (RFC 8412, section 5.15)
MOST_IN_VAIN = 3
MOST_SUBSCRIPTIONS = 16
MOST_ROOM = 16_000_000
MOST = 4_294_967_295

INIT, CLIENT_WORKING, SERVER_WORKING, DECIDED, END = "Init", "Client Working", "Server Working", "Decided", "End"
SENT = {CDATA: SERVER_WORKING, CRETRY: SERVER_WORKING, SDATA: CLIENT_WORKING, RESULT: DECIDED, SRETRY: CLIENT_WORKING, CLOSE: END}
HEARD_BY_CLIENT = {
    (INIT, SDATA): CLIENT_WORKING,
    (SERVER_WORKING, SDATA): CLIENT_WORKING,
    (SERVER_WORKING, RESULT): DECIDED,
    (DECIDED, SRETRY): CLIENT_WORKING,
}
HEARD_BY_SERVER = {
    (INIT, CDATA): SERVER_WORKING,
    (CLIENT_WORKING, CDATA): SERVER_WORKING,
    (SERVER_WORKING, CRETRY): SERVER_WORKING,
    (CLIENT_WORKING, CRETRY): SERVER_WORKING,
    (DECIDED, CRETRY): SERVER_WORKING,
}


# What both ends do.


class End:
    """An end. `hears` has the machine's table, `reads` the attribute types that are supported."""

    def __init__(self, direction, hears, reads, idle, octets):
        self.direction, self.hears, self.reads, self.most_idle, self.most_octets = direction, hears, reads, idle, octets
        self.state, self.held, self.quiet, self.over = INIT, b"", 0, None
        self.waits, self.numbered = b"", 0
        self.errors, self.reports, self.received = [], 0, 0

    def hear(self, piece):
        if self.over is not None:
            return
        piece = piece[: self.most_octets - self.received]
        self.received += len(piece)
        self.held += piece
        self.quiet = 0 if piece else self.quiet
        while self.over is None:
            try:
                found = batch_in(self.held, self.direction == CLIENT)
            except Fault as fault:
                self.refuse(fault)
                continue
            if found is None:
                break
            self.held = self.held[found.length :]
            self.take(found)
        if self.over is None and self.received == self.most_octets:
            self.over = "enough"

    def take(self, found):
        """A whole batch."""
        if self.is_ignored(found.kind):
            return
        if found.kind != CLOSE and (self.state, found.kind) not in self.hears:
            self.refuse(Fault(UNEXPECTED, 0))
            return
        self.state = self.hears.get((self.state, found.kind), END)
        ended = ends_session(found)
        if ended is not None:
            self.over = "peer-error {} {}".format(*ended)
        elif found.kind == CLOSE:
            self.over = "peer-closed"
        else:
            self.obey(found)

    def is_ignored(self, kind):
        return self.state == END

    def refuse(self, fault):
        self.write_octets(fault_batch(self.direction, fault), CLOSE)
        self.over = f"refused {fault.code} {fault.place}"

    def close(self):
        self.write(CLOSE, [])
        self.over = "closed"

    def idle(self):
        if self.over is not None:
            return
        self.quiet += 1
        if self.quiet >= self.most_idle:
            self.over = f"idle-out {self.quiet}"
        elif self.state == DECIDED:
            self.rest()

    def link_ended(self):
        if self.over is None:
            self.over = f"torn {len(self.held)}" if self.held else "ended"

    def write(self, kind, messages):
        self.write_octets(batch(self.direction, kind, messages), kind)

    def write_octets(self, octets, kind):
        self.waits += octets
        self.state = SENT[kind]

    def carried(self, count):
        """That many of the octets that wait are given, the first ones."""
        octets, self.waits = self.waits[:count], self.waits[count:]
        return octets

    def next_number(self):
        self.numbered += 1
        return self.numbered


# The collector.


class Subscription:
    """What a request subscribes to, and up to which point it was fulfilled."""

    def __init__(self, asked):
        self.asked, self.place = asked, None


class Collector(End):
    """The client of PB-TNC, which answers requests by its book. It closes after that many reports, if that is not None."""

    def __init__(self, book, room=MOST_ROOM, reports=None, idle=MOST, octets=MOST):
        super().__init__(CLIENT, HEARD_BY_CLIENT, COLLECTOR_READS, idle, octets)
        self.book, self.room, self.most_reports = book, room, reports
        self.subscriptions, self.points = [], []
        self.write(CDATA, [])

    def is_ignored(self, kind):
        return self.state == END or (self.state, kind) == (SERVER_WORKING, SRETRY)

    def obey(self, found):
        if found.kind == RESULT:
            if self.most_reports is not None and self.reports >= self.most_reports:
                self.close()
            return
        earlier = list(self.subscriptions)
        self.left, messages = self.room, []
        for body in bodies(found):
            self.put(messages, self.answers(body))
        if len(messages) < MOST_MESSAGES:
            self.put(messages, [it for one in earlier if one in self.subscriptions for it in self.renewal(one)])
        self.write(CDATA, messages)

    def put(self, messages, attributes):
        if attributes:
            messages.append(pa_message(self.next_number(), attributes))

    def answers(self, body):
        try:
            words = words_in(body, self.reads)
        except Refused as refusal:
            return [] if refusal.information is None else [error(refusal.code, refusal.information)]
        self.errors += [value for kind, value in words if kind == ERROR]
        answered = [(kind, value) for kind, value in words if kind != ERROR]
        return [self.answer(value) if kind == REQUEST else self.tell_status() for kind, value in answered]

    def tell_status(self):
        value = status([it.asked for it in self.subscriptions])
        if len(joined(value)) > self.left:
            return error(TOO_LARGE, 0, self.left)
        self.left -= len(joined(value))
        return attribute(STATUS_RESPONSE, value)

    def answer(self, asked):
        if asked.clear:
            self.subscriptions = []
        if asked.subscribe:
            if any(it.asked.identifier == asked.identifier for it in self.subscriptions):
                return error(REUSED, asked.identifier)
            if len(self.subscriptions) == MOST_SUBSCRIPTIONS:
                return error(DENIED, asked.identifier)
        report = self.book.answer(asked, self.left)
        if report is None:
            return error(TOO_LARGE, asked.identifier, self.left)
        if asked.subscribe:
            held = Subscription(asked)
            held.place = place_of(report)
            self.subscriptions.append(held)
        return self.report(report)

    def report(self, report):
        self.left -= octets_of(report)
        self.points.append((report.epoch, report.eid))
        self.reports += 1
        return report.fields()

    def renewal(self, held):
        """The attributes that a subscription gets: a report where something moved, an Error, or none."""
        if not self.book.moved(held.place, held.asked.targets):
            return []
        epoch, eid = held.place
        earliest = eid + 1 if epoch == self.book.epoch else 0
        asked = replace(held.asked, clear=False, subscribe=False, earliest=earliest)
        report = self.book.answer(asked, self.left)
        if report is not None:
            held.place = place_of(report)
            return [self.report(replace(report, flags=FULFILMENT))]
        if self.left < self.room:
            return []
        self.subscriptions.remove(held)
        return [error(TOO_LARGE, asked.identifier, self.left)]

    def rest(self):
        if any(self.book.moved(it.place, it.asked.targets) for it in self.subscriptions):
            self.write(CRETRY, [])


def place_of(report):
    return report.epoch, report.consulted if isinstance(report, Events) else report.eid


# The validator.


class Validator(End):
    """The server of PB-TNC, which asks and lets its mirror take the reports."""

    def __init__(self, mirror, subscribe=False, rounds=MOST, idle=MOST, octets=MOST):
        super().__init__(SERVER, HEARD_BY_SERVER, VALIDATOR_READS, idle, octets)
        self.mirror, self.subscribe, self.most_rounds = mirror, subscribe, rounds
        self.asked, self.rounds, self.retried = 0, 0, False
        self.tries = []  # the mirror's point at each request of the round
        self.last, self.taken = None, []

    def obey(self, found):
        answers = []
        for body in bodies(found):
            self.hear_message(body, answers)
        if found.kind == CRETRY:
            self.write(SDATA, answers + ([self.request()] if self.retried else []))
            return
        self.retried = False
        if self.asks():
            self.write(SDATA, answers + [self.request()])
            return
        self.write(RESULT, [pb_message(ASSESSMENT, DO_NOT_KNOW.to_bytes(4, "big")), *answers])
        self.tries, self.rounds = [], self.rounds + 1
        if self.rounds >= self.most_rounds:
            self.close()

    def hear_message(self, body, answers):
        try:
            words = words_in(body, self.reads)
        except Refused as refusal:
            if refusal.information is not None and len(answers) < MOST_MESSAGES - 1:
                answers.append(pa_message(self.next_number(), [error(refusal.code, refusal.information)]))
            return
        for kind, value in words:
            if kind == ERROR:
                self.errors.append(value)
            if kind in REPORTS:
                self.taken.append(self.mirror.take(value))
                self.last, self.reports = value, self.reports + 1

    def in_vain(self):
        """How many requests of the round in a row left the mirror's point as it is."""
        count = 0
        while count < len(self.tries) and self.tries[-1 - count] == self.mirror.point:
            count += 1
        return count

    def is_partial(self):
        it, point = self.last, self.mirror.point
        if not isinstance(it, Events) or point is None or point[0] != it.epoch:
            return False
        return it.consulted < it.eid and point[1] < it.eid

    def asks(self):
        if self.asked == 0:
            return True
        return self.in_vain() < MOST_IN_VAIN and (self.mirror.off or self.is_partial())

    def request(self):
        """A request, as the message that carries it."""
        mirror = self.mirror
        full = mirror.point is None or mirror.off or mirror.point[1] == MOST
        self.asked += 1
        self.tries.append(mirror.point)
        subscribes = self.subscribe and self.asked == 1
        asked = Request(self.asked, mirror.kind, 0 if full else mirror.point[1] + 1, subscribe=subscribes)
        return pa_message(self.next_number(), [attribute(REQUEST, request_fields(asked))])

    def rest(self):
        if not self.subscribe:
            self.retried = True
            self.write(SRETRY, [self.request()])
