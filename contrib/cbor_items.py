"""Items of CBOR (RFC 8949) as Python values, written and read.

An item is an int, bytes, a str, a list (an array), a dict (a map) or a Tagged. What is written is
the core deterministic encoding (section 4.2.1). Every well-formed item is read, except one deeper
than 64, a text that is not UTF-8, and a map with one integer as two keys. Of a map the pairs with
an integer as key are kept, and a boolean, another simple value or a float is read as None.
"""

UNSIGNED, NEGATIVE, OCTETS, TEXT, ARRAY, MAP, TAG = range(7)  # the major types, except the last
INDEFINITE = 31  # the additional information of what ends by a break
BREAK = b"\xff"
DEPTH = 64
FOLLOWING = {24: 1, 25: 2, 26: 4, 27: 8}  # the octets of an argument, by additional information


class Fault(Exception):
    """Why octets are no item, in words that follow `it`."""


class Tagged:
    """An item under a tag."""

    def __init__(self, number, item):
        self.number, self.item = number, item


def head(major, argument):
    """The shortest head of an item."""
    if argument < 24:
        return bytes([major << 5 | argument])
    for information, size in FOLLOWING.items():
        if argument < 1 << 8 * size:
            return bytes([major << 5 | information]) + argument.to_bytes(size, "big")
    raise ValueError(argument)


def written(item):
    """The octets that an item is written as."""
    if isinstance(item, int):
        return head(UNSIGNED, item) if item >= 0 else head(NEGATIVE, -1 - item)
    if isinstance(item, bytes):
        return head(OCTETS, len(item)) + item
    if isinstance(item, str):
        octets = item.encode()
        return head(TEXT, len(octets)) + octets
    if isinstance(item, list):
        return head(ARRAY, len(item)) + b"".join(map(written, item))
    if isinstance(item, dict):
        pairs = sorted((written(key), written(part)) for key, part in item.items())
        return head(MAP, len(pairs)) + b"".join(key + part for key, part in pairs)
    if isinstance(item, Tagged):
        return head(TAG, item.number) + written(item.item)
    raise TypeError(item)


class Reader:
    """Reads items one after another. `at` is how many octets were taken."""

    def __init__(self, octets):
        self.octets, self.at = octets, 0

    def is_spent(self):
        return self.at == len(self.octets)

    def take(self, count):
        taken = self.octets[self.at : self.at + count]
        if len(taken) < count:
            raise Fault("is cut short by the end of the input")
        self.at += count
        return taken

    def argument(self, information):
        if information < 24:
            return information
        if information not in FOLLOWING:
            raise Fault("is not well-formed CBOR")
        return int.from_bytes(self.take(FOLLOWING[information]), "big")

    def item(self, depth=DEPTH):
        """The next item, which may be so deep."""
        if depth == 0:
            raise Fault("is deeper than {} items".format(DEPTH))
        major, information = divmod(self.take(1)[0], 32)
        if information == INDEFINITE:
            return self.indefinite(major, depth)
        argument = self.argument(information)
        if major == UNSIGNED:
            return argument
        if major == NEGATIVE:
            return -1 - argument
        if major == OCTETS:
            return self.take(argument)
        if major == TEXT:
            return text(self.take(argument))
        if major == ARRAY:
            return [self.item(depth - 1) for _ in range(argument)]
        if major == MAP:
            return members([self.item(depth - 1) for _ in range(2 * argument)])
        if major == TAG:
            return Tagged(argument, self.item(depth - 1))
        return None

    def indefinite(self, major, depth):
        """The rest of an item that ends by a break."""
        if major not in (OCTETS, TEXT, ARRAY, MAP):
            raise Fault("is not well-formed CBOR")
        parts = []
        while self.octets[self.at : self.at + 1] != BREAK:
            parts.append(self.chunk(major) if major in (OCTETS, TEXT) else self.item(depth - 1))
        self.take(1)
        if major in (OCTETS, TEXT):
            return (b"" if major == OCTETS else "").join(parts)
        if major == ARRAY:
            return parts
        if len(parts) % 2:
            raise Fault("is not well-formed CBOR")
        return members(parts)

    def chunk(self, major):
        """A part of a string that ends by a break: a definite string of the same type."""
        following, information = divmod(self.take(1)[0], 32)
        if following != major:
            raise Fault("is not well-formed CBOR")
        octets = self.take(self.argument(information))
        return octets if major == OCTETS else text(octets)


def text(octets):
    try:
        return octets.decode()
    except UnicodeDecodeError:
        raise Fault("has a text that is not UTF-8") from None


def members(items):
    """The pairs of a map whose key is an integer, from its keys and values in turn."""
    kept = {}
    for key, value in zip(items[0::2], items[1::2]):
        if isinstance(key, int):
            if key in kept:
                raise Fault("has a map with the key {} twice".format(key))
            kept[key] = value
    return kept
