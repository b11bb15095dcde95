"""Items of CBOR (RFC 8949) as values: their canonical octets, other spellings, and their diagnostic notation.

An item is a Python value: an int, a str, bytes, a bool, a list (an array), a dict (a map) or a Tagged. A value is
spelled with shortest arguments and definite lengths, the pairs of a map as they stand in the dict; Wide, Chunks and
Open spell what they hold otherwise, and Bad stands for octets that are no item. Nothing here reads octets back.
"""

from dataclasses import dataclass

UNSIGNED, NEGATIVE, OCTETS, TEXT, ARRAY, MAP, TAG = range(7)  # the major types
INDEFINITE = 31  # the additional information of what ends by a break
BREAK = b"\xff"
FOLLOWING = {1: 24, 2: 25, 4: 26, 8: 27}  # the additional information of an argument in that many octets
INDICATOR = {1: "_0", 2: "_1", 4: "_2", 8: "_3"}  # how the diagnostic notation writes it


@dataclass(frozen=True)
class Tagged:
    """An item under a tag."""

    number: int
    item: object


@dataclass(frozen=True)
class Wide:
    """An item whose argument has that many octets: 1, 2, 4 or 8."""

    item: object
    size: int


@dataclass(frozen=True)
class Chunks:
    """A string in chunks, all str or all bytes, up to a break."""

    parts: tuple


@dataclass
class Open:
    """An array or a map that ends by a break."""

    item: object


@dataclass(frozen=True)
class Bad:
    """Octets at which the item round them shows the fault of the kind, and what they are in words."""

    octets: bytes
    kind: int
    words: str


def head(major, argument, size=None):
    """An initial octet and the argument, the shortest or in that many octets."""
    if size is None and argument < 24:
        return bytes([major << 5 | argument])
    if size is None:
        size = next(it for it in FOLLOWING if argument < 1 << 8 * it)
    return bytes([major << 5 | FOLLOWING[size]]) + argument.to_bytes(size, "big")


def start_and_parts(item, size=None):
    """The head of an item, which is not a spelling's wrapper, and the items that follow it."""
    if isinstance(item, bool):
        return (b"\xf5" if item else b"\xf4"), []
    if isinstance(item, int):
        return (head(UNSIGNED, item, size) if item >= 0 else head(NEGATIVE, -1 - item, size)), []
    if isinstance(item, bytes):
        return head(OCTETS, len(item), size) + item, []
    if isinstance(item, str):
        octets = item.encode("utf-8")
        return head(TEXT, len(octets), size) + octets, []
    if isinstance(item, list):
        return head(ARRAY, len(item), size), item
    if isinstance(item, dict):
        return head(MAP, len(item), size), [it for pair in item.items() for it in pair]
    return head(TAG, item.number, size), [item.item]


def pieces(item):
    """The spelling of an item, piece by piece. What is Bad is a piece itself."""
    if isinstance(item, Bad):
        yield item
        return
    if isinstance(item, Chunks):
        major = TEXT if isinstance(item.parts[0], str) else OCTETS
        start, parts, end = bytes([major << 5 | INDEFINITE]), item.parts, BREAK
    elif isinstance(item, Open):
        major = MAP if isinstance(item.item, dict) else ARRAY
        start, parts, end = bytes([major << 5 | INDEFINITE]), start_and_parts(item.item)[1], BREAK
    else:
        start, parts = start_and_parts(item.item, item.size) if isinstance(item, Wide) else start_and_parts(item)
        end = b""
    yield start
    for part in parts:
        yield from pieces(part)
    yield end


def spelled(item):
    return b"".join(it.octets if isinstance(it, Bad) else it for it in pieces(item))


def fault(item):
    """The kind of the fault that a spelling shows, and its place; None where nothing in it is Bad."""
    place = 0
    for piece in pieces(item):
        if isinstance(piece, Bad):
            return piece.kind, place
        place += len(piece)
    return None


def plain(item):
    """The item that a spelling is of."""
    if isinstance(item, Chunks):
        return item.parts[0][:0].join(item.parts)
    if isinstance(item, (Wide, Open)):
        return plain(item.item)
    if isinstance(item, list):
        return [plain(it) for it in item]
    if isinstance(item, dict):
        return {plain(key): plain(value) for key, value in item.items()}
    if isinstance(item, Tagged):
        return Tagged(item.number, plain(item.item))
    return item


def canonical(item):
    """The octets that an item is written as: the pairs of each map stand in the order of their keys' octets."""
    if isinstance(item, list):
        return head(ARRAY, len(item)) + b"".join(canonical(it) for it in item)
    if isinstance(item, dict):
        pairs = sorted((canonical(key), canonical(value)) for key, value in item.items())
        return head(MAP, len(item)) + b"".join(key + value for key, value in pairs)
    if isinstance(item, Tagged):
        return head(TAG, item.number) + canonical(item.item)
    return spelled(item)


def depth(item):
    """1 more than the depth of the deepest part."""
    parts = start_and_parts(item)[1]
    return 1 + max((depth(it) for it in parts), default=0)


def escaped(text):
    return '"' + text.replace("\\", "\\\\").replace('"', '\\"') + '"'


def simple(item, mark=""):
    """The diagnostic notation of an item without parts."""
    if isinstance(item, Bad):
        return f"/ {item.words}: the octets {item.octets.hex()} /"
    if isinstance(item, Chunks):
        return "(_ " + ", ".join(simple(it) for it in item.parts) + ")"
    if isinstance(item, bool):
        return "true" if item else "false"
    if isinstance(item, int):
        return f"{item}{mark}"
    if isinstance(item, bytes):
        return f"h'{item.hex()}'{mark}"
    return escaped(item) + mark


def has_map(item):
    if isinstance(item, (Open, Wide, Tagged)):
        return has_map(item.item)
    return isinstance(item, dict) or isinstance(item, list) and any(has_map(it) for it in item)


def listed(opening, rows, closing, indent):
    """The rows between brackets, one on each line."""
    inner = "  " * (indent + 1)
    return opening + "\n" + ",\n".join(inner + it for it in rows) + "\n" + "  " * indent + closing


def notation(item, names, indent=0):
    """The diagnostic notation of an item (RFC 8949, section 8), with the names of the keys that have one as comments."""
    mark = ""
    if isinstance(item, Open):
        mark, item = "_", item.item
    elif isinstance(item, Wide):
        mark, item = INDICATOR[item.size], item.item
    if isinstance(item, Tagged):
        return f"{item.number}{mark}(" + notation(item.item, names, indent) + ")"
    if isinstance(item, list) and not has_map(item):
        return "[" + mark + " " * (mark == "_") + ", ".join(notation(it, names) for it in item) + "]"
    if isinstance(item, list):
        return listed("[" + mark, [notation(it, names, indent + 1) for it in item], "]", indent)
    if isinstance(item, dict):
        rows = [f"{key_notation(key, names)}: {notation(value, names, indent + 1)}" for key, value in item.items()]
        return listed("{" + mark, rows, "}", indent)
    return simple(item, mark)


def key_notation(key, names):
    name = names.get(plain(key))
    return (f"/ {name} / " if name else "") + notation(key, {})
