"""An endpoint's inventory and what it answers, by the rules of docs/rules/inventory.md: values alone, no octets."""

from formats import ALTERATION, COSWID, CREATION, DELETION
from formats import Event, Events, Inventory, Record, joined


class Book:
    """An inventory: its epoch, the events of it, of which the last `cap` are kept, and the records that are live."""

    def __init__(self, epoch, cap):
        self.epoch, self.cap, self.next, self.trimmed = epoch, cap, 1, 1
        self.records, self.events = {}, []

    def first(self):
        return max(self.trimmed, len(self.events) + 1 - self.cap)

    def enter(self, stamp, action, record):
        self.events.append(Event(len(self.events) + 1, stamp, action, record))
        self.records[record.identifier] = record
        if action == DELETION:
            del self.records[record.identifier]

    def create(self, stamp, ident, body, source=0):
        self.enter(stamp, CREATION, Record(self.next, ident, "", COSWID, source, body))
        self.next += 1

    def alter(self, stamp, identifier, ident, body):
        if identifier not in self.records:
            return f"book unknown-record {identifier}"
        return self.enter(stamp, ALTERATION, Record(identifier, ident, "", COSWID, 0, body))

    def delete(self, stamp, identifier):
        if identifier not in self.records:
            return f"book unknown-record {identifier}"
        return self.enter(stamp, DELETION, self.records[identifier])

    def begin_epoch(self, epoch):
        if epoch <= self.epoch:
            return f"book epoch-not-new {self.epoch} {epoch}"
        self.epoch, self.events, self.trimmed = epoch, [], 1
        return None

    def trim(self, first):
        if first > len(self.events) + 1:
            return f"book trim-past {len(self.events)} {first}"
        self.trimmed = max(self.trimmed, first)
        return None

    def moved(self, place, targets):
        """Whether something that the targets name has changed since a point: an epoch and an EID."""
        epoch, eid = place
        if epoch != self.epoch or eid + 1 < self.first():
            return True
        return any(it.eid > eid and meets(it.subject, targets) for it in self.events)

    def answer(self, asked, room):
        """The report of at most `room` octets, or None where there is none."""
        if asked.earliest == 0 or asked.earliest < self.first():
            records = [self.records[it] for it in sorted(self.records) if meets(self.records[it], asked.targets)]
            report = Inventory(self.epoch, len(self.events), records, asked.kind, asked.identifier)
            return report if octets_of(report) <= room else None
        wanted = [it for it in self.events if it.eid >= asked.earliest and meets(it.subject, asked.targets)]
        for count in range(len(wanted), -1, -1):
            consulted = len(self.events) if count == len(wanted) else wanted[count].eid - 1
            report = Events(self.epoch, len(self.events), consulted, wanted[:count], asked.kind, asked.identifier)
            if octets_of(report) <= room and (count or not wanted):
                return report
        return None


def meets(record, targets):
    """Whether a record is of one of the targets; where there is no target, each is."""
    return not targets or record.ident.encode("utf-8") in targets


def octets_of(report):
    return len(joined(report.value()))
