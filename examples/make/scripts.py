"""Scripts of both ends: what `swid replay` prints of their lines."""

from dataclasses import dataclass

from formats import Mirror, printed, text
from inventory import Book
from sessions import MOST, Collector, Validator


class World:
    def __init__(self, epoch, cap, room, kind, subscribe=False):
        self.book, self.room, self.mirror, self.subscribe = Book(epoch, cap), room, Mirror(kind), subscribe
        self.collector = self.validator = None
        self.changes = 0

    def change(self, how, *values):
        self.changes += 1
        refused = how(*values)
        return [refused] if refused else []

    def stamp(self):
        return f"1970-01-01T00:{(self.changes + 1) // 60:02}:{(self.changes + 1) % 60:02}Z"

    def create(self, ident, body=b""):
        return self.change(self.book.create, self.stamp(), ident, body)

    def alter(self, identifier, ident, body=b""):
        return self.change(self.book.alter, self.stamp(), identifier, ident, body)

    def delete(self, identifier):
        return self.change(self.book.delete, self.stamp(), identifier)

    def epoch(self, epoch):
        return self.change(self.book.begin_epoch, epoch)

    def trim(self, first):
        return self.change(self.book.trim, first)

    def open(self):
        self.collector, self.validator = Collector(self.book, self.room), Validator(self.mirror, self.subscribe)
        return []

    def cut(self):
        self.collector = self.validator = None
        return []

    def up(self, most):
        if self.collector is None:
            return []
        before = len(self.validator.taken)
        self.validator.hear(self.collector.carried(most))
        return self.validator.taken[before:]

    def down(self, most):
        if self.collector is not None:
            self.collector.hear(self.validator.carried(most))
        return []

    def run(self):
        lines = []
        while self.collector is not None and (self.collector.waits or self.validator.waits):
            lines += self.up(MOST) + self.down(MOST)
        return lines

    def idle(self):
        if self.collector is not None:
            self.collector.idle()
            self.validator.idle()
        return []

    def again(self):
        if self.validator is None or self.validator.last is None:
            return []
        return [self.mirror.take(self.validator.last)]

    def waits(self):
        if self.collector is None:
            return []
        up, down = self.collector.waits, self.validator.waits
        return [f"waits up {up.hex() or '-'}", f"waits down {down.hex() or '-'}"]

    def show(self):
        return self.mirror.lines()


@dataclass
class Script:
    """The first line's values, and the lines after it: a word and its values. One of them may be none that there is, by
    the number of its line."""

    epoch: int
    cap: int
    room: int
    kind: str
    lines: list
    bad: int = 0
    subscribe: bool = False

    def octets(self):
        first = f"replay {self.epoch} {self.cap} {self.room} {self.kind} {'yes' if self.subscribe else 'no'}"
        return text([first, *(" ".join([word, *map(spelled, values)]) for word, *values in self.filled())]).encode("ascii")

    def filled(self):
        """The lines, with the empty body where a record has none."""
        wanted = {"create": 3, "alter": 4}
        return [(*it, b"") if len(it) < wanted.get(it[0], 0) else it for it in self.lines]

    def output(self):
        world, lines = World(self.epoch, self.cap, self.room, self.kind, self.subscribe), []
        for place, (word, *values) in enumerate(self.lines, 2):
            if place == self.bad:
                return text([*lines, f"script {place}"])
            lines += getattr(world, word)(*values)
        return text(lines)

    def status(self):
        return 1 if self.bad else 0


def spelled(value):
    """A word of a line: a number, an identifier, or a body in hexadecimal digits."""
    if isinstance(value, bytes):
        return value.hex() or "-"
    return printed(value.encode("utf-8")) if isinstance(value, str) else str(value)
