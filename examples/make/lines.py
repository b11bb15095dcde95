"""The items that a source of lines reports, by the rules of docs/rules/sources.md. A tag is known by its octets: those of `tags`, with
the identifier and the canonical octets of each, or None where a tag is not taken."""

import re

MOST_LINE = 4_194_304
MOST_TEXT = 65_535
MOST_BODY = 1_048_576


def items(octets, tags):
    """The texts of the items of octets, and `quiet` at their end."""
    found, number = [], 0
    while True:
        number += 1
        end = octets.find(b"\n", 0, MOST_LINE + 1)
        if end < 0 and len(octets) <= MOST_LINE:
            return [*found, "quiet"]
        line, octets = (octets[:end], octets[end + 1 :]) if end >= 0 else (None, octets[MOST_LINE:])
        item = None if line is None else item_of(line, tags)
        found.append(f"bad {number}" if item is None else item)


def item_of(line, tags):
    """The text of the item that a line is, or None where it is none."""
    words = line.split(b" ")
    wanted = {b"add": 4, b"change": 4, b"xml": 5, b"gone": 2, b"quiet": 1, b"end": 1}.get(words[0])
    if len(words) != wanted:
        return None
    if wanted == 1:
        return {b"quiet": "quiet", b"end": "ended"}[words[0]]
    key = key_of(words[1])
    if words[0] == b"gone":
        return None if key is None else f"gone {key}"
    texts, body = [text_of(it) for it in words[2:-1]], digits_of(words[-1])
    if key is None or None in texts or body is None:
        return None
    if words[0] == b"xml":
        return content("add", key, "0/0", *texts, body) if len(body) <= MOST_BODY else None
    tag = tags.get(body)
    return None if tag is None else content(words[0].decode("ascii"), key, "0/2", tag[0], *texts, tag[1])


def content(word, key, model, ident, locator, body):
    return f"{word} {key} {model} {shown(ident)} {shown(locator)} {body.hex() or '-'}"


def shown(octets):
    """A text of octets, as commands print it."""
    return "".join(chr(it) if 0x21 <= it <= 0x7E and it != 0x5C else f"\\x{it:02x}" for it in octets) or "\\e"


def key_of(word):
    """A decimal number below 2^32, without a sign or a leading zero."""
    if not re.fullmatch(rb"0|[1-9][0-9]*", word) or int(word) > 4_294_967_295:
        return None
    return int(word)


def text_of(word):
    """The octets of a text: what is shown as that text."""
    octets = b"" if word == b"\\e" else re.sub(rb"\\x([0-9a-f]{2})", lambda it: bytes([int(it[1], 16)]), word)
    return octets if shown(octets).encode("ascii") == word and len(octets) <= MOST_TEXT else None


def digits_of(word):
    if word == b"-":
        return b""
    return bytes.fromhex(word.decode("ascii")) if re.fullmatch(rb"([0-9a-fA-F]{2})+", word) else None
