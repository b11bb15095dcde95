"""The lists of tags of the folder links/, as values. Beside each stands what `swid links` prints of it."""

from coswid import LINK, PATCH, PATCHES, REQUIRES, SEE_ALSO, SUPPLEMENTAL, SUPPLEMENTS, TAG_ID, TAG_VERSION
from coswid_links import Listed
from tag_values import EDITOR_FONTS, EDITOR_PATCH, EDITOR_SETUP, UUID_TAG, link, tag

LIBRARY = tag("library")
EDITOR = tag("editor", {LINK: [link(REQUIRES, "swid:org.example.library"), link(SEE_ALSO, "https://example.com/editor")]})
PLUGIN = tag("plugin", {LINK: link("requires", "swid:00112233-4455-6677-8899-aabbccddeeff")})
SECOND_PATCH = tag("second-patch", {PATCH: True, LINK: link(PATCHES, "swid:org.example.editor-patch")})
GLYPHS = tag("glyphs", {SUPPLEMENTAL: True, LINK: link(SUPPLEMENTS, "swid:org.example.editor-setup")})
GUIDE = tag("guide", {LINK: [link(SEE_ALSO, "swid:org.example.editor"), link(SEE_ALSO, "swid:org.example.handbook")]})
OTHER_LIBRARY = tag("library", version="4.2.2")
NEXT_LIBRARY = tag("library", {TAG_VERSION: 1}, version="4.2.2")
NO_VERSION = {key: part for key, part in LIBRARY.items() if key != TAG_VERSION}

CASES = {
    "sound": Listed([EDITOR, LIBRARY, EDITOR_PATCH, EDITOR_FONTS, PLUGIN, UUID_TAG, NEXT_LIBRARY]),  # nothing
    "finding-1": Listed([EDITOR, LIBRARY, GUIDE]),  # L1 3 2: no handbook
    "finding-2": Listed([EDITOR, LIBRARY, EDITOR_PATCH, SECOND_PATCH]),  # L2 4 1: a patch of a patch
    "finding-3": Listed([EDITOR, PLUGIN]),  # L3 1 1 and L3 2 1: neither is there
    "finding-4": Listed([LIBRARY, OTHER_LIBRARY, LIBRARY]),  # L4 1 2 and L4 2 3: the first and the third are one
    "findings": Listed([GUIDE, EDITOR, GLYPHS, EDITOR_SETUP, {**EDITOR, TAG_ID: "org.example.guide"}]),  # each
    "torn": Listed([EDITOR, LIBRARY, EDITOR_PATCH], 40),  # at-tag 3 fault 1 40
    "form": Listed([EDITOR, NO_VERSION]),  # at-tag 2 form 1 12
}
