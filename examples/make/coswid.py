"""CoSWID tags (RFC 9393) as items, and what `swid tag` prints of them, by the rules of docs/rules/tags.md and docs/rules/commands.md.

A tag is an item of `cbor.py`, a map with the keys below, alone or under their tag. All of it is written from values:
nothing here runs the program or reads octets back.
"""

import uuid
from dataclasses import dataclass

from cbor import Tagged, canonical, depth, fault, notation, plain, spelled
from formats import printed, text

COSWID = 1398229316  # the tag of a CoSWID tag
URI = 32  # the tag of a URI
TIME = 1  # the tag of a time
MOST_DEEP = 64

# The keys, by name.
TAG_ID, SOFTWARE_NAME, ENTITY, EVIDENCE, LINK, SOFTWARE_META, PAYLOAD = range(7)
HASH, CORPUS, PATCH, MEDIA, SUPPLEMENTAL, TAG_VERSION, SOFTWARE_VERSION, VERSION_SCHEME, LANG = range(7, 16)
DIRECTORY, FILE, PROCESS, RESOURCE, SIZE, FILE_VERSION, KEY, LOCATION, FS_NAME, ROOT, PATH_ELEMENTS = range(16, 27)
PROCESS_NAME, PID, TYPE = range(27, 30)
ENTITY_NAME, REG_ID, ROLE, THUMBPRINT, DATE, DEVICE_ID = range(31, 37)
ARTIFACT, HREF, OWNERSHIP, REL, MEDIA_TYPE, USE = range(37, 43)
COLLOQUIAL_VERSION, DESCRIPTION, EDITION, GENERATOR, PRODUCT, SUMMARY = 45, 46, 47, 50, 52, 55

# The forms of values.
IS_PLAIN = {
    "text": lambda it: isinstance(it, str),
    "bool": lambda it: isinstance(it, bool),
    "int": lambda it: is_integer(it),
    "uint": lambda it: is_integer(it) and it >= 0,
    "id": lambda it: isinstance(it, str) or isinstance(it, bytes) and len(it) == 16,
    "code": lambda it: is_integer(it) or isinstance(it, str),
    "uri": lambda it: isinstance(it, str) or isinstance(it, Tagged) and it.number == URI and isinstance(it.item, str),
    "time": lambda it: is_integer(it) or isinstance(it, Tagged) and it.number == TIME and is_integer(it.item),
}


@dataclass(frozen=True)
class Some:
    """One or more of a form: an array, or one value alone."""

    form: object


# The maps: the keys that must be there, and those that may be, each with the name and the form of its value.
ENTITIES = (
    {ENTITY_NAME: ("entity-name", "text"), ROLE: ("role", Some("code"))},
    {REG_ID: ("reg-id", "uri"), THUMBPRINT: ("thumbprint", "hash")},
)
LINKS = (
    {HREF: ("href", "uri"), REL: ("rel", "code")},
    {
        MEDIA: ("media", "text"),
        ARTIFACT: ("artifact", "text"),
        OWNERSHIP: ("ownership", "code"),
        MEDIA_TYPE: ("media-type", "text"),
        USE: ("use", "code"),
    },
)
META_NAMES = {
    43: "activation-status",
    44: "channel-type",
    COLLOQUIAL_VERSION: "colloquial-version",
    DESCRIPTION: "description",
    EDITION: "edition",
    48: "entitlement-data-required",
    49: "entitlement-key",
    GENERATOR: "generator",
    51: "persistent-id",
    PRODUCT: "product",
    53: "product-family",
    54: "revision",
    SUMMARY: "summary",
    56: "unspsc-code",
    57: "unspsc-version",
}
METAS = ({}, {key: (name, {48: "bool", GENERATOR: "id"}.get(key, "text")) for key, name in META_NAMES.items()})
# What a directory and a file are both named by, a directory and what it holds, and what a payload and evidence both have.
PLACES = {KEY: ("key", "bool"), LOCATION: ("location", "text"), ROOT: ("root", "text")}
FILES = (
    {FS_NAME: ("fs-name", "text")},
    {HASH: ("hash", "hash"), SIZE: ("size", "uint"), FILE_VERSION: ("file-version", "text"), **PLACES},
)
HELD = ({}, {FILE: ("file", Some(FILES))})
DIRECTORIES = ({FS_NAME: ("fs-name", "text")}, {**PLACES, PATH_ELEMENTS: ("path-elements", HELD)})
HELD[1][DIRECTORY] = ("directory", Some(DIRECTORIES))
PROCESSES = ({PROCESS_NAME: ("process-name", "text")}, {PID: ("pid", "int")})
RESOURCES = ({TYPE: ("type", "text")}, {})
PAYLOADS = ({}, {**HELD[1], PROCESS: ("process", Some(PROCESSES)), RESOURCE: ("resource", Some(RESOURCES))})
SEEN = {LOCATION: ("location", "text"), DATE: ("date", "time"), DEVICE_ID: ("device-id", "text")}
EVIDENCES = ({}, {**PAYLOADS[1], **SEEN})
TAGS = (
    {
        TAG_ID: ("tag-id", "id"),
        SOFTWARE_NAME: ("software-name", "text"),
        ENTITY: ("entity", Some(ENTITIES)),
        TAG_VERSION: ("tag-version", "int"),
    },
    {
        EVIDENCE: ("evidence", EVIDENCES),
        LINK: ("link", Some(LINKS)),
        SOFTWARE_META: ("software-meta", Some(METAS)),
        PAYLOAD: ("payload", PAYLOADS),
        CORPUS: ("corpus", "bool"),
        PATCH: ("patch", "bool"),
        MEDIA: ("media", "text"),
        SUPPLEMENTAL: ("supplemental", "bool"),
        SOFTWARE_VERSION: ("software-version", "text"),
        VERSION_SCHEME: ("version-scheme", "code"),
        LANG: ("lang", "text"),
    },
)
TABLES = (TAGS, ENTITIES, LINKS, METAS, EVIDENCES, DIRECTORIES, FILES, PROCESSES, RESOURCES)
NAMES = {key: name for table in TABLES for keys in table for key, (name, _) in keys.items()}

# Numbers of the registries: roles, rels, ownerships, uses, version schemes and algorithms of hashes.
TAG_CREATOR, SOFTWARE_CREATOR, DISTRIBUTOR = 1, 2, 4
PATCHES, REQUIRES, SEE_ALSO, SUPPLEMENTS = 7, 8, 9, 11
SHARED = 3
USE_REQUIRED = 2
SEMANTIC_VERSION = 16384
SHA_256 = 1
REL_NAMES = {"patches": PATCHES, "supplemental": SUPPLEMENTS}

MISSING_KEY, WRONG_FORM, BOTH, DEEP = range(1, 5)  # the kinds of form faults


def is_integer(item):
    return isinstance(item, int) and not isinstance(item, bool)


# Form faults, each a kind and a path.


def under(place, found):
    return found and (found[0], [place, *found[1]])


def first(faults):
    return next((it for it in faults if it), None)


def form_fault(form, item):
    """The first fault of an item that has to be in a form, or None."""
    if isinstance(form, Some) and isinstance(item, list):
        faults = [under(place, form_fault(form.form, it)) for place, it in enumerate(item)]
        return first(faults) if item else (WRONG_FORM, [])
    if isinstance(form, Some):
        return form_fault(form.form, item)
    if isinstance(form, tuple):
        return map_fault(form, item)
    if form == "hash":
        return hash_fault(item)
    return None if IS_PLAIN[form](item) else (WRONG_FORM, [])


def map_fault(table, item):
    if not isinstance(item, dict):
        return WRONG_FORM, []
    required, optional = table
    missing = [(MISSING_KEY, [key]) for key in sorted(required) if key not in item]
    known = {key: form for keys in (required, optional) for key, (_, form) in keys.items() if key in item}
    return first(missing + [under(key, form_fault(known[key], item[key])) for key in sorted(known)])


def hash_fault(item):
    if not isinstance(item, list) or len(item) != 2:
        return WRONG_FORM, []
    if not is_integer(item[0]):
        return WRONG_FORM, [0]
    return None if isinstance(item[1], bytes) else (WRONG_FORM, [1])


def tag_fault(item):
    """The first form fault of a tag, alone or under the tag of tags."""
    is_marked = isinstance(item, Tagged) and item.number == COSWID
    if not is_marked and depth(item) == MOST_DEEP:
        return DEEP, []
    content = item.item if is_marked else item
    if isinstance(content, dict) and EVIDENCE in content and PAYLOAD in content:
        return BOTH, []
    return form_fault(TAGS, content)


# What is printed of a tag: its map, which is in the form.


def written(form, item):
    """The item that a value in the form is written as."""
    if isinstance(form, Some):
        values = [written(form.form, it) for it in (item if isinstance(item, list) else [item])]
        return values[0] if len(values) == 1 else values
    if isinstance(form, tuple):
        known = {key: it for keys in form for key, (_, it) in keys.items()}
        return {key: written(known[key], it) if key in known else it for key, it in item.items()}
    if form == "uri" and isinstance(item, str):
        return Tagged(URI, item)
    if form == "time" and is_integer(item):
        return Tagged(TIME, item)
    return item


def several(item):
    return item if isinstance(item, list) else [item]


def creators(tag):
    return [it for it in several(tag[ENTITY]) if TAG_CREATOR in filter(is_integer, several(it[ROLE]))]


def rels(tag):
    return [REL_NAMES.get(it[REL], it[REL]) for it in several(tag.get(LINK, []))]


def kind(tag):
    flags = [(CORPUS, "corpus"), (PATCH, "patch"), (SUPPLEMENTAL, "supplemental")]
    return next((name for key, name in flags if tag.get(key)), "primary")


def findings(tag):
    """The numbers of what is wrong with a tag by itself."""
    corpus, patch, supplemental = (bool(tag.get(key)) for key in (CORPUS, PATCH, SUPPLEMENTAL))
    versioned = SOFTWARE_VERSION in tag
    shown = {
        1: patch and supplemental,
        2: not (corpus or patch or supplemental or versioned),
        3: corpus and not versioned,
        4: patch and PATCHES not in rels(tag),
        5: supplemental and SUPPLEMENTS not in rels(tag),
        6: not creators(tag),
    }
    return [number for number, shows in shown.items() if shows]


def identifier(tag):
    """The words that give the software identifier."""
    if not creators(tag):
        return "none"
    reg_id = creators(tag)[0].get(REG_ID, "invalid.unavailable")
    tag_id = tag[TAG_ID]
    who = reg_id.item if isinstance(reg_id, Tagged) else reg_id
    which = tag_id if isinstance(tag_id, str) else uuid.UUID(bytes=tag_id).urn
    octets = f"{who}__{which}".encode("utf-8")
    return printed(octets) if len(octets) <= 65535 else f"long {len(octets)}"


def told(tag, verdicts=()):
    """The lines of a tag with verdicts on files, each with its path, and its status."""
    found = findings(tag)
    octets = canonical(Tagged(COSWID, written(TAGS, tag)))
    lines = [f"tag {kind(tag)}", f"ident {identifier(tag)}", *(f"finding F{it}" for it in found)]
    lines += [f"file {verdict} {printed(path.encode('utf-8'))}" for path, verdict in verdicts]
    wrong = [verdict for _, verdict in verdicts if verdict not in ("same", "unhashed")]
    return [*lines, f"canonical {len(octets)} {octets.hex()}"], 1 if found or wrong else 0


# Inputs.


@dataclass(frozen=True)
class Torn:
    """An item of which only that many octets are there."""

    item: object
    have: int

    def octets(self):
        return spelled(self.item)[: self.have]

    def told(self):
        return [f"fault 1 {self.have}"], 1

    def notation(self):
        return f"{notation(self.item, NAMES)}\n/ only the first {self.have} of {len(spelled(self.item))} octets are there /"


@dataclass(frozen=True)
class Followed:
    """An item that octets follow."""

    item: object
    rest: bytes

    def octets(self):
        return spelled(self.item) + self.rest

    def told(self):
        return [f"trailing {len(spelled(self.item))}"], 1

    def notation(self):
        return f"{notation(self.item, NAMES)}\n/ and after it / h'{self.rest.hex()}'"


@dataclass(frozen=True)
class Whole:
    """An item, and nothing else."""

    item: object

    def octets(self):
        return spelled(self.item)

    def told(self):
        shown = fault(self.item)
        if shown:
            return [f"fault {shown[0]} {shown[1]}"], 1
        item = plain(self.item)
        wrong = tag_fault(item)
        if wrong:
            return [f"form {wrong[0]} {'/'.join(map(str, wrong[1])) or '.'}"], 1
        return told(item.item if isinstance(item, Tagged) else item)

    def notation(self):
        return notation(self.item, NAMES)


def run(case):
    """The octets of an input, its diagnostic notation, the text that is printed of it, and the status."""
    lines, status = case.told()
    return case.octets(), case.notation() + "\n", text(lines), status
