"""The installed packages, and which of them meets a dependency.

A package is its paragraph of dpkg's file `status`: a dict of the fields, of each the first line.
"""

import os
import re

# The states of a package that is installed (dpkg(1)); two of them await the work of a trigger.
INSTALLED = ("installed", "triggers-awaited", "triggers-pending")
REQUIRED = ("Package", "Version", "Architecture")
LOOKED_AT = (*REQUIRED, "Maintainer", "Description", "Pre-Depends", "Depends", "Provides")


class Unreadable(Exception):
    """What could not be read, in words."""


def shown(text):
    """A text for people: characters other than visible ASCII are escaped."""
    return ascii(text)[1:-1]


def is_utf8(text):
    try:
        text.encode()
    except UnicodeEncodeError:
        return False
    return True


def lines_of(path):
    """The lines of a file; an octet that is not UTF-8 is a surrogate in them."""
    try:
        with open(path, encoding="utf-8", errors="surrogateescape", newline="\n") as content:
            return content.read().split("\n")
    except OSError as error:
        raise Unreadable("cannot read {}: {}".format(shown(path), error.strerror)) from None


def paragraphs(lines):
    """The paragraphs of a control file."""
    fields = {}
    for line in [*lines, ""]:
        if not line:
            if fields:
                yield fields
            fields = {}
        elif not line[0].isspace():
            name, _, value = line.partition(":")
            fields[name] = value.strip()


def fault(package):
    """Why no tag can be made of an installed package, in words, or None."""
    for field in REQUIRED:
        if not package.get(field):
            return "has no field " + field
    for field in LOOKED_AT:
        if not is_utf8(package.get(field, "")):
            return "has a field {} that is not UTF-8".format(field)
    return None


def installed(admindir, trouble):
    """The installed packages, in the order of their names."""
    packages = []
    for package in paragraphs(lines_of(os.path.join(admindir, "status"))):
        if package.get("Status", "").split(" ")[-1] in INSTALLED:
            wrong = fault(package)
            if wrong:
                name = shown(package.get("Package", "a package"))
                trouble("{} {} in dpkg's status: no tag is written".format(name, wrong))
            else:
                packages.append(package)
    return sorted(packages, key=lambda package: (package["Package"], package["Architecture"]))


def full_name(package):
    return "{Package}:{Architecture}".format(**package)


def called(package):
    """What a package may be named by."""
    return {package["Package"], full_name(package)}


def names_of(field):
    """The names in a list of relations: a list for each relation, which may name alternatives."""
    relations = [relation.split("|") for relation in field.split(",") if relation.strip()]
    return [
        [re.split(r"[\s(:\[<]", name.strip(), maxsplit=1)[0] for name in relation]
        for relation in relations
    ]


class Dependencies:
    """Which installed package meets a dependency."""

    def __init__(self, packages):
        self.found = {}  # of a name, the packages that provide it (True) or have it (False)
        self.native = "all"  # the machine's architecture: that of dpkg
        for package in packages:
            self.found.setdefault(package["Package"], []).append((False, package))
            if package["Package"] == "dpkg":
                self.native = package["Architecture"]
            for names in names_of(package.get("Provides", "")):
                self.found.setdefault(names[0], []).append((True, package))

    def met(self, names, package):
        """The package that meets a dependency of a package on one of the names, or None."""
        own = package["Architecture"]
        near = ("all", self.native if own == "all" else own)

        def rank(candidate):
            place, provides, there = candidate
            return there["Architecture"] not in near, place, provides

        candidates = [
            (place, provides, there)
            for place, name in enumerate(names)
            for provides, there in self.found.get(name, ())
        ]
        return min(candidates, key=rank)[2] if candidates else None
