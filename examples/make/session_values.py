"""The scripts of the folder sessions/, as values. Beside lines stands what `swid replay` prints of them."""

from formats import FULL, IDS
from scripts import Script

OPEN, RUN, IDLE, CUT, SHOW, WAITS, AGAIN = (("open",), ("run",), ("idle",), ("cut",), ("show",), ("waits",), ("again",))


def create(*idents):
    return [("create", it) for it in idents]


FIRST = [
    *create("example.com__editor", "example.com__shell"),
    OPEN,
    RUN,  # took adopted 7 2 2: a new mirror asks for the inventory
]

# A session is lost with the request in it, and the next one makes up for it.
LOST = [
    *FIRST,
    ("alter", 1, "example.com__editor_2"),
    IDLE,  # the validator asks for what came after event 2
    CUT,
    *create("example.com__fonts"),
    OPEN,
    RUN,  # took advanced 2 4
    SHOW,
]

# A session is cut in the middle of a report, which is not taken.
CUT_REPORT = [
    *create("example.com__editor"),
    OPEN,
    ("up", 8),  # the collector begins with an empty batch
    ("down", 64),  # the validator asks for the inventory
    ("up", 50),  # the report has more
    CUT,
    SHOW,  # mirror none
    OPEN,
    RUN,  # took adopted 7 1 1
    AGAIN,  # took stale
    SHOW,
]

# The log keeps two events, and the validator asks for one that it no longer has.
TRUNCATED = [
    *FIRST,
    *create("example.com__a", "example.com__b", "example.com__c"),
    IDLE,
    RUN,  # took adopted 7 5 5: an inventory, since event 3 is gone
    ("delete", 3),
    ("trim", 7),
    IDLE,
    RUN,  # took adopted 7 6 4
    ("trim", 9),  # book trim-past 6 9
    SHOW,
]

# Event identifiers begin anew, so the events say nothing to the mirror, and it asks for the inventory.
EPOCH = [
    *FIRST,
    ("epoch", 8),
    *create("example.com__fonts"),
    IDLE,
    RUN,  # took other-epoch 7 8, then took adopted 8 1 3
    ("epoch", 8),  # book epoch-not-new 8 8
    SHOW,
]

# A report may have 150 octets, which is two events of these, so three come in two reports.
PARTIAL = [
    OPEN,
    RUN,  # took adopted 7 0 0
    *create("example.com__1", "example.com__2", "example.com__3"),
    IDLE,
    RUN,  # took advanced 0 2, then took advanced 2 3
    SHOW,
]

# The first request subscribes, so the collector reports a change at an idle turn, and nobody asks for it.
SUBSCRIBED = [
    *FIRST,
    ("alter", 1, "example.com__editor_2"),
    IDLE,  # the collector asks for a turn of its own, and reports
    RUN,  # took advanced 2 3
    ("delete", 2),
    WAITS,  # nothing: a change alone writes nothing
    IDLE,
    WAITS,
    RUN,  # took advanced 3 4
    SHOW,
]

# The octets of a session, batch by batch.
OCTETS = [
    *create("a"),
    OPEN,
    WAITS,
    ("up", 8),
    WAITS,
    ("down", 64),
    WAITS,
    RUN,  # took adopted 7 1 1
    WAITS,
]

# Bodies are printed by their length and their digest.
BODIES = [
    ("create", "example.com__editor", b"tag of the editor"),
    ("create", "example.com__café"),
    OPEN,
    RUN,  # took adopted 1 2 2
    ("alter", 2, "example.com__café", b"tag of the fonts"),
    ("delete", 9),  # book unknown-record 9
    IDLE,
    RUN,  # took advanced 2 3
    SHOW,
]

# The lines before one that is none have had their effect.
BAD_LINE = [
    *FIRST,
    ("up", "eight"),  # script 6
    SHOW,
]

CASES = {
    "lost": Script(7, 1024, 16000000, IDS, LOST),
    "cut-report": Script(7, 1024, 16000000, IDS, CUT_REPORT),
    "truncated": Script(7, 2, 16000000, IDS, TRUNCATED),
    "epoch": Script(7, 1024, 16000000, IDS, EPOCH),
    "partial": Script(7, 1024, 150, IDS, PARTIAL),
    "subscribed": Script(7, 1024, 16000000, IDS, SUBSCRIBED, subscribe=True),
    "octets": Script(7, 1024, 16000000, IDS, OCTETS),
    "bodies": Script(1, 1024, 16000000, FULL, BODIES),
    "bad-line": Script(7, 1024, 16000000, IDS, BAD_LINE, bad=6),
}
