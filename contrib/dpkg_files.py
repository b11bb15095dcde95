"""The files of a package: where they lie, and what a tag states of them."""

import functools
import hashlib
import os
import stat

from dpkg_packages import Unreadable, full_name, is_utf8, lines_of, shown

SHA_256 = 1
HASH, SIZE, LOCATION, FS_NAME = 7, 20, 23, 24  # keys of a file (RFC 9393, section 2.9.2)
PIECE = 1 << 20


class Place:
    """Where the packages are installed, and where dpkg keeps what it knows of them."""

    def __init__(self, root, admindir):
        self.root, self.admindir = root, admindir
        self.diversions = None  # not read yet

    def listed(self, package):
        """The paths that the package has put down, before any diversion."""
        info = os.path.join(self.admindir, "info")
        path = os.path.join(info, full_name(package) + ".list")
        if not os.path.exists(path):
            path = os.path.join(info, package["Package"] + ".list")
        return [line for line in lines_of(path) if line]

    def diverted(self):
        """Of each diverted path, where to and by which package; `:` is the administrator."""
        if self.diversions is None:
            path = os.path.join(self.admindir, "diversions")
            lines = lines_of(path)[:-1] if os.path.lexists(path) else []
            if len(lines) % 3:
                raise Unreadable(shown(path) + " is not three lines for each diversion")
            entries = zip(lines[0::3], lines[1::3], lines[2::3])
            self.diversions = {origin: (target, by) for origin, target, by in entries}
        return self.diversions

    def paths(self, package):
        """Where the package's files lie, seen from the root."""
        for path in self.listed(package):
            target, by = self.diverted().get(path, (path, package["Package"]))
            yield path if by == package["Package"] else target

    def inside(self, path):
        """A path seen from the root, in the octets that the system takes in any locale."""
        return os.fsencode(self.root).rstrip(b"/") + path.encode("utf-8", "surrogateescape")

    @functools.lru_cache(maxsize=None)
    def holds(self, folder):
        """Whether a folder lies in the root, its links followed: an absolute one leads out."""
        root = os.path.realpath(os.fsencode(self.root))
        return os.path.commonpath([root, os.path.realpath(self.inside(folder))]) == root


def file_entry(path, place):
    """The entry of a regular file; None for a folder, a link and other files."""
    folder, name = os.path.split(path)
    if not stat.S_ISREG(os.lstat(place.inside(path)).st_mode):
        return None
    if not is_utf8(path):
        raise Unreadable("cannot state {}: its name is not UTF-8".format(shown(path)))
    if not place.holds(folder):
        raise Unreadable("cannot read {}: a link leads out of the root".format(shown(path)))
    digest, size = hashlib.sha256(), 0
    with open(place.inside(path), "rb") as content:
        while piece := content.read(PIECE):
            digest.update(piece)
            size += len(piece)
    return {HASH: [SHA_256, digest.digest()], SIZE: size, LOCATION: folder, FS_NAME: name}


def entries_of(package, place, trouble):
    """The entries of a package's files, or None where one could not be read."""
    entries, is_whole = [], True
    try:
        for path in place.paths(package):
            try:
                entry = file_entry(path, place)
                if entry is not None:
                    entries.append(entry)
            except (FileNotFoundError, NotADirectoryError):
                trouble("{}: {} is not there".format(full_name(package), shown(path)))
            except OSError as error:
                is_whole = False
                words = "{}: cannot read {}: {}"
                trouble(words.format(full_name(package), shown(path), error.strerror))
    except Unreadable as error:
        is_whole = False
        trouble("{}: {}".format(full_name(package), error))
    return entries if is_whole else None
