"""The tags of the folder tags/, as values. Beside each stands what `swid tag` prints of it."""

from cbor import Bad, Chunks, Open, Tagged, Wide
from coswid import COLLOQUIAL_VERSION, CORPUS, COSWID, DATE, DESCRIPTION, DISTRIBUTOR, EDITION, ENTITY, ENTITY_NAME, EVIDENCE
from coswid import FILE, FS_NAME, GENERATOR, HASH, HREF, LANG, LINK, MEDIA_TYPE, OWNERSHIP, PATCH, PATCHES, PAYLOAD, PRODUCT
from coswid import REG_ID, REL, REQUIRES, ROLE, SEE_ALSO, SEMANTIC_VERSION, SHA_256, SHARED, SIZE, SOFTWARE_CREATOR
from coswid import SOFTWARE_META, SOFTWARE_NAME, SOFTWARE_VERSION, SUMMARY, SUPPLEMENTAL, SUPPLEMENTS, TAG_CREATOR, TAG_ID
from coswid import TAG_VERSION, THUMBPRINT, URI, USE, USE_REQUIRED, VERSION_SCHEME
from coswid import Followed, Torn, Whole


def uri(text):
    return Tagged(URI, text)


def link(rel, href):
    return {HREF: uri(href), REL: rel}


MAKER = {ENTITY_NAME: "Example Ltd.", REG_ID: uri("example.com"), ROLE: [TAG_CREATOR, SOFTWARE_CREATOR]}
SHOP = {ENTITY_NAME: "Café du Code", REG_ID: uri("example.org"), ROLE: DISTRIBUTOR, THUMBPRINT: [SHA_256, bytes(range(32))]}


def tag(name, more=None, version="4.2.1", entity=MAKER):
    """The map of a tag of this name with the keys `more`, the keys in rising order."""
    fields = {TAG_ID: f"org.example.{name}", SOFTWARE_NAME: f"Example {name}", ENTITY: entity, TAG_VERSION: 0}
    if version is not None:
        fields[SOFTWARE_VERSION] = version
    return dict(sorted({**fields, **(more or {})}.items()))


def marked(fields):
    """A tag under the tag of tags."""
    return Whole(Tagged(COSWID, fields))


# Tags of each kind.

EDITOR_LINKS = [
    {**link(REQUIRES, "swid:org.example.library"), USE: USE_REQUIRED},
    {HREF: uri("https://example.com/editor"), OWNERSHIP: SHARED, REL: SEE_ALSO, MEDIA_TYPE: "text/html"},
]
EDITOR_META = {
    COLLOQUIAL_VERSION: "2026",
    DESCRIPTION: 'An editor of texts, called "ed\\it"',
    EDITION: "Standard",
    GENERATOR: bytes.fromhex("7c4f2a0e5b1d4e6f8a9b0c1d2e3f4a5b"),
    PRODUCT: "Editor",
    SUMMARY: "Edits texts",
}
EDITOR = tag(
    "editor",
    {LINK: EDITOR_LINKS, SOFTWARE_META: EDITOR_META, VERSION_SCHEME: SEMANTIC_VERSION, LANG: "en"},
    entity=[MAKER, SHOP],
)

# The editor's tag in another spelling: not under the tag of tags, its keys in another order, the URIs of links bare, one
# description in an array, and arguments, strings, arrays and maps as the canonical spelling does not have them.
EDITOR_AGAIN = Open(
    {
        Wide(TAG_VERSION, 1): Wide(0, 8),
        LANG: Chunks(("e", "n")),
        SOFTWARE_VERSION: Wide("4.2.1", 2),
        TAG_ID: "org.example.editor",
        SOFTWARE_NAME: Chunks(("Example ", "editor")),
        VERSION_SCHEME: SEMANTIC_VERSION,
        SOFTWARE_META: [Open(dict(reversed(EDITOR_META.items())))],
        ENTITY: Open([Wide(MAKER, 1), SHOP]),
        LINK: [{**it, HREF: it[HREF].item} for it in EDITOR_LINKS],
    }
)

EDITOR_PATCH = tag("editor-patch", {PATCH: True, LINK: link(PATCHES, "swid:org.example.editor")})
EDITOR_FONTS = tag("editor-fonts", {SUPPLEMENTAL: True, LINK: link("supplemental", "swid:org.example.editor")}, version=None)
EDITOR_SETUP = tag("editor-setup", {CORPUS: True})

NAMELESS = {ENTITY_NAME: "Example Ltd.", ROLE: TAG_CREATOR}
UUID_TAG = tag("driver", {TAG_ID: bytes.fromhex("00112233445566778899aabbccddeeff")}, entity=NAMELESS)

# Keys that no table has: a number, a negative number, a text, octets, and one of another map.
EXTRAS = {
    **tag("archive", entity={**MAKER, SOFTWARE_NAME: "not a key of entities"}),
    200: [1, {"any": True}, Tagged(99, b"\x00\xff")],
    -1: "private use",
    b"\x01\x02": False,
    "vendor": {},
}

# A payload of one file with the SHA-256 digest of `abc`, and evidence of a moment alone, without the tag of times.
ABC = bytes.fromhex("ba7816bf8f01cfea414140de5dae2223b00361a396177a9cb410ff61f20015ad")
SHORT = {TAG_ID: "a", SOFTWARE_NAME: "b", ENTITY: {ENTITY_NAME: "c", ROLE: TAG_CREATOR}}
HASHED_FILE = {HASH: [SHA_256, ABC], SIZE: 3, FS_NAME: "f"}
PAYLOAD_TAG = {**SHORT, PAYLOAD: {FILE: HASHED_FILE}, TAG_VERSION: 0, SOFTWARE_VERSION: "1"}
EVIDENCE_TAG = {**SHORT, EVIDENCE: {DATE: 0}, TAG_VERSION: 0}


# Findings, each alone.

FINDING_1 = tag(
    "both",
    {
        PATCH: True,
        SUPPLEMENTAL: True,
        LINK: [link(PATCHES, "swid:org.example.editor"), link(SUPPLEMENTS, "swid:org.example.editor")],
    },
)
FINDING_2 = tag("versionless", version=None)
FINDING_3 = tag("versionless-setup", {CORPUS: True}, version=None)
FINDING_4 = tag("lost-patch", {PATCH: True, LINK: link(REQUIRES, "swid:org.example.editor")})
FINDING_5 = tag("lost-fonts", {SUPPLEMENTAL: True})
FINDING_6 = tag("foundling", entity={**MAKER, ROLE: [SOFTWARE_CREATOR, "tag-creator"]})


# Refusals.

FLOAT = Bad(bytes.fromhex("f93c00"), 3, "1.0, a float")
DOUBLED = Bad(b"\x00", 8, "the key 0 again")
NO_ROLE = {ENTITY_NAME: "Café du Code"}
BARE_HASH = {**SHOP, THUMBPRINT: [SHA_256, "not octets"]}
FIRMWARE = {
    **tag("firmware", {PAYLOAD: [{FILE: [{FS_NAME: "firmware.bin", HASH: [[SHA_256, bytes(32)]]}]}]}),
}
del FIRMWARE[TAG_VERSION]


def nested(levels):
    return [] if levels == 1 else [nested(levels - 1)]


CASES = {
    "primary": marked(EDITOR),
    "respelled": Whole(EDITOR_AGAIN),  # the lines of `primary`
    "patch": marked(EDITOR_PATCH),
    "supplemental": marked(EDITOR_FONTS),
    "corpus": marked(EDITOR_SETUP),
    "uuid": marked(UUID_TAG),
    "extras": marked(EXTRAS),
    "payload": Whole(PAYLOAD_TAG),
    "evidence": Whole(EVIDENCE_TAG),
    "finding-1": marked(FINDING_1),
    "finding-2": marked(FINDING_2),
    "finding-3": marked(FINDING_3),
    "finding-4": marked(FINDING_4),
    "finding-5": marked(FINDING_5),
    "finding-6": marked(FINDING_6),
    "fault-torn": Torn(Tagged(COSWID, EDITOR_SETUP), 40),  # fault 1 40
    "fault-float": marked({**EDITOR_SETUP, TAG_VERSION: FLOAT}),  # fault 3, the float
    "fault-doubled": marked({**EDITOR_SETUP, DOUBLED: "again"}),  # fault 8, the second key 0
    "form-missing": marked(tag("roleless", entity=[MAKER, NO_ROLE])),  # form 1 2/1/33
    "form-empty": marked(tag("orphan", entity=[])),  # form 2 2: at least one has to be there
    "form-hash": marked(tag("bare", entity=[MAKER, BARE_HASH])),  # form 2 2/1/34/1
    "form-order": marked(tag("untold", {SOFTWARE_NAME: 1, LINK: {HREF: 2}}, entity=NO_ROLE)),  # form 2 1: the lowest key
    "form-firmware": marked(FIRMWARE),  # form 1 12: before what is wrong in other keys
    "form-both": marked({**SHORT, EVIDENCE: {DATE: 0}, PAYLOAD: {FILE: 1}, TAG_VERSION: 0}),  # form 3 .: before form 2 6/17
    "form-deep": Whole({**EDITOR_SETUP, 200: nested(63)}),  # form 4 .: under the tag of tags it would be 65 deep
    "trailing": Followed(Tagged(COSWID, EDITOR_SETUP), b"\x00"),
}
