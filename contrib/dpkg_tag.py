"""The CoSWID tag (RFC 9393) of an installed package, and what the scripts that write tags share."""

import argparse
import hashlib
import re
import sys

from cbor_items import Tagged, written
from dpkg_packages import names_of, shown

COSWID, URI = 1398229316, 32  # tags of CBOR
# Keys of a tag, of an entity, of a link, and of other maps (RFC 9393, section 2).
TAG_ID, SOFTWARE_NAME, ENTITY, LINK, SOFTWARE_META, PAYLOAD = 0, 1, 2, 4, 5, 6
TAG_VERSION, SOFTWARE_VERSION = 12, 13
ENTITY_NAME, REG_ID, ROLE = 31, 32, 33
HREF, REL = 38, 40
FILE, SUMMARY = 17, 55
TAG_CREATOR, MAINTAINER = 1, 6  # roles
REQUIRES = 8  # rel
LABEL = "[a-z0-9]([a-z0-9-]*[a-z0-9])?"


class Trouble:
    """Says on standard error what went wrong, and whether anything did."""

    def __init__(self, program):
        self.program, self.any = program, False

    def __call__(self, text):
        self.any = True
        print(self.program + ": " + text, file=sys.stderr)


def one_or_more(values):
    """One value stands alone, several in an array."""
    return values[0] if len(values) == 1 else values


def tag_id(package, authority):
    return "{}/{Package}_{Version}_{Architecture}".format(authority, **package)


def entities(package, authority):
    """Who made the tag: this program, by the authority; and who maintains the package."""
    reg_id = Tagged(URI, "https://" + authority)
    found = [{ENTITY_NAME: "dpkg-tags", REG_ID: reg_id, ROLE: TAG_CREATOR}]
    if package.get("Maintainer"):
        found.append({ENTITY_NAME: package["Maintainer"], ROLE: MAINTAINER})
    return found


def links(package, dependencies, authority):
    """A link for each dependency."""
    hrefs = []
    for field in ("Pre-Depends", "Depends"):
        for names in names_of(package.get(field, "")):
            met = dependencies.met(names, package)
            aim = tag_id(met, authority) if met else authority + "/" + names[0]
            if "swid:" + aim not in hrefs:
                hrefs.append("swid:" + aim)
    return [{HREF: Tagged(URI, href), REL: REQUIRES} for href in hrefs]


def content_number(value):
    """A number of 63 bits for what a tag says other than its tag-version."""
    return int.from_bytes(hashlib.sha256(written(value)).digest()[:8], "big") >> 1


def tag(package, dependencies, authority, entries):
    """The octets of the tag of a package, with entries of files."""
    value = {
        TAG_ID: tag_id(package, authority),
        SOFTWARE_NAME: package["Package"],
        ENTITY: one_or_more(entities(package, authority)),
        SOFTWARE_VERSION: package["Version"],
    }
    if package.get("Description"):
        value[SOFTWARE_META] = {SUMMARY: package["Description"]}
    requires = links(package, dependencies, authority)
    if requires:
        value[LINK] = one_or_more(requires)
    if entries:
        value[PAYLOAD] = {FILE: one_or_more(entries)}
    value[TAG_VERSION] = content_number(value)
    return written(Tagged(COSWID, value))


def domain(text):
    """A DNS domain name of two labels or more, in lower case."""
    if not re.fullmatch(r"{0}(\.{0})+".format(LABEL), text):
        raise argparse.ArgumentTypeError(shown(text) + " is no domain name in lower case")
    return text
