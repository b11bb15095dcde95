"""The rows of lines of a source: parts of rules, each a heading and the lines that show it."""

from cbor import Tagged, canonical
from coswid import COSWID, ENTITY, ENTITY_NAME, ROLE, SOFTWARE_NAME, TAG_CREATOR, TAG_ID, TAG_VERSION
from lines import items

MAP = {TAG_ID: "a", SOFTWARE_NAME: "b", ENTITY: {ENTITY_NAME: "c", ROLE: TAG_CREATOR}, TAG_VERSION: 0}
TAG = canonical(Tagged(COSWID, MAP))
BARE = canonical(MAP)
WITHOUT_CREATOR = canonical(Tagged(COSWID, {**MAP, ENTITY: {ENTITY_NAME: "c", ROLE: 2}}))
TAGS = {TAG: (b"invalid.unavailable__a", TAG), BARE: (b"invalid.unavailable__a", TAG), WITHOUT_CREATOR: None}
HEX = TAG.hex()
A_LINE = f"add 1 \\e {HEX}"


def lines(text, counted=None):
    """A row of lines; an octet `|` is the end of one. `counted` has the text as the row spells it, where it repeats something."""
    wanted = "; ".join(items(text.replace("|", "\n").encode("utf-8"), TAGS))
    return f"lines '{counted or text}' = {counted_answer(wanted)}"


def counted_answer(text):
    for letter in "ai":
        text = text.replace(letter * 65535, f"{{{letter}*65535}}")
    return text.replace("00" * 1048576, "{00*1048576}")


def digits(octets):
    """A row of lines whose octets are given by digits."""
    return f"lines {octets.hex()} = {'; '.join(items(octets, TAGS))}"


def good():
    yield "Each kind of line", [
        lines(f"{A_LINE}|change 1 /opt/a {HEX}|xml 2 i \\x20 00ff|gone 2|quiet|end|"),
        lines(f"add 0 \\e {HEX.upper()}|add 4294967295 a\\x20b {BARE.hex()}|"),
        lines("xml 1 \\e \\e -|xml 1 i l 0aF0|gone 0|gone 4294967295|"),
        lines(""),
    ]
    yield "After `end` and `quiet` the lines go on; the source says it, and the set acts on it", [lines("quiet|quiet|end|gone 1|end|")]


def bad():
    yield "A word is missing, doubled, or one too many", [
        lines(f"|add|add 1|add 1 \\e|add \\e {HEX}|add 1 {HEX}|"),
        lines(f"add 1 \\e \\e {HEX}|add 1 1 \\e {HEX}|add add 1 \\e {HEX}|{A_LINE} {HEX}|"),
        lines(f"change 1 \\e|change 1 1 \\e {HEX}|xml 1 i \\e|xml 1 i -|xml 1 i \\e - -|"),
        lines("gone|gone 1 1|gone gone 1|quiet quiet|end end|quiet 1|end 1|"),
    ]
    yield "Words with two spaces between them, and with one before or after them", [
        lines(f"add  1 \\e {HEX}|add 1  \\e {HEX}|add 1 \\e  {HEX}| {A_LINE}|{A_LINE} |"),
        lines("xml 1  \\e -|xml 1 i  -|xml 1 i \\e |gone  1| gone 1|gone 1 |gone |quiet | quiet|end | end| |"),
    ]
    yield "A tab in place of a space, and a CR before the LF", [
        digits(b"gone\t1\ngone 1\t\n\tgone 1\nadd\t1 \\e " + HEX.encode("ascii") + b"\n"),
        digits(b"gone 1\r\nquiet\r\nend\r\n\r\n"),
        digits(b"xml 1 i \\e -\r\nxml 1 i\t\\e -\n"),
        digits(b"gone 1\0\ngone \xc3\xa9\n\xff\n"),
    ]
    yield "Words in capitals, and others", [lines(f"End|QUIET|Gone 1|ADD 1 \\e {HEX}|remove 1|quiets|en|")]
    yield "Keys: 4294967296, with a sign, with a leading zero, and other texts", [
        lines("gone 4294967296|gone 99999999999999999999|gone +1|gone -1|gone 01|gone 00|gone 1.0|gone 0x1|gone 1a|gone ١|"),
        lines(f"add 4294967296 \\e {HEX}|change +1 \\e {HEX}|xml 01 i \\e -|"),
    ]
    yield "Digits of an odd count, digits that are none, and none at all", [
        lines(f"add 1 \\e {HEX[:-1]}|add 1 \\e {HEX}0|add 1 \\e 0x{HEX}|add 1 \\e zz|add 1 \\e -|"),
        lines("xml 1 i \\e 0|xml 1 i \\e 0g|xml 1 i \\e --|xml 1 i \\e 00-|xml 1 i \\e \\e|"),
    ]
    yield "Tags that are refused: cut, with an octet after it, without a creator, in no form; octets that are none", [
        lines(f"add 1 \\e {HEX[:-2]}|add 1 \\e {HEX}00|add 1 \\e {WITHOUT_CREATOR.hex()}|add 1 \\e a0|add 1 \\e 00|add 1 \\e ff|"),
        lines(f"change 1 \\e {HEX[:-2]}|change 1 \\e {WITHOUT_CREATOR.hex()}|add 1 \\e {HEX}{HEX}|"),
    ]
    yield "Texts that none is printed as: escapes that are none, and octets that want one", [
        lines(f"add 1 \\q {HEX}|add 1 \\ {HEX}|add 1 \\x2 {HEX}|add 1 \\xFF {HEX}|add 1 \\x41 {HEX}|add 1 a\\e {HEX}|add 1 \\e\\e {HEX}|"),
        lines("xml 1 \\x2 \\e -|xml 1 i \\x -|xml 1 é \\e -|xml 1 i é -|"),
        digits(b"xml 1 \x7f \\e -\nxml 1 i \x01 -\n"),
    ]
    yield "Each bad line has its number, and the lines after it are read", [lines("gone 1|x|gone 2|y||gone 3|z|")]


def large():
    octet = "00"
    yield "Parts at their limit, and one octet past it", [
        lines(f"xml 1 {'i' * 65535} \\e -|xml 1 {'i' * 65536} \\e -|", "xml 1 {i*65535} \\e -|xml 1 {i*65536} \\e -|"),
        lines(f"xml 1 i {'a' * 65535} -|xml 1 i {'a' * 65536} -|", "xml 1 i {a*65535} -|xml 1 i {a*65536} -|"),
        lines(f"xml 1 i \\e {octet * 1048576}|", "xml 1 i \\e {00*1048576}|"),
        lines(f"xml 1 i \\e {octet * 1048577}|gone 1|", "xml 1 i \\e {00*1048577}|gone 1|"),
        lines(f"add 1 {'a' * 65536} {HEX}|", f"add 1 {{a*65536}} {HEX}|"),
    ]
    yield "A line that the end of input cuts waits for more: it is quiet, whatever the line says", [
        lines("gone 1"),
        lines("gone 1|gone 2"),
        lines("x"),
        lines("end"),
    ]
    yield "4194304 octets are a line, 4194305 without a line feed a bad one of which the rest begins the next", [
        lines(f"{'x' * 4194304}|gone 1|", "{x*4194304}|gone 1|"),
        lines(f"{'x' * 4194304}gone 1|gone 2|", "{x*4194304}gone 1|gone 2|"),
        lines(f"{'x' * 4194304}", "{x*4194304}"),
        lines(f"{'x' * 4194305}", "{x*4194305}"),
        lines(f"{'x' * 4194305}|gone 1|", "{x*4194305}|gone 1|"),
        lines(f"gone 1|{'x' * 8388608}gone 2|", "gone 1|{x*8388608}gone 2|"),
    ]


PARTS = [("what they say", good), ("what is no item", bad), ("long lines", large)]
