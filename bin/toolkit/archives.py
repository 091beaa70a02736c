"""Archives whose bytes depend on nothing but their files: one owner, one time, sorted names, gzip without a name and a time.

A tree is a dict of files by path, each with its mode and what it holds.
"""

import collections
import gzip
import io
import os
import tarfile

# A file of a tree.
File = collections.namedtuple("File", "mode data")
PROGRAM, TEXT = 0o755, 0o644


def compressed(data):
    """Bytes as gzip writes them."""
    packed = io.BytesIO()
    with gzip.GzipFile(filename="", mode="wb", compresslevel=9, fileobj=packed, mtime=0) as file:
        file.write(data)
    return packed.getvalue()


def folders_of(paths):
    """The folders that paths lie in, each after the one that it lies in."""
    found = set()
    for path in paths:
        while "/" in path:
            path = os.path.dirname(path)
            found.add(path)
    return sorted(found)


def entry_of(path, mode, time):
    entry = tarfile.TarInfo(path)
    entry.mode, entry.mtime = mode, time
    entry.uid = entry.gid = 0
    entry.uname = entry.gname = "root"
    return entry


def tar(tree, time, top=""):
    """A compressed tar of a tree; `top` stands before each path."""
    whole = io.BytesIO()
    with tarfile.open(fileobj=whole, mode="w", format=tarfile.USTAR_FORMAT) as archive:
        for path in folders_of(top + path for path in tree):
            entry = entry_of(path, 0o755, time)
            entry.type = tarfile.DIRTYPE
            archive.addfile(entry)
        for path in sorted(tree):
            entry = entry_of(top + path, tree[path].mode, time)
            entry.size = len(tree[path].data)
            archive.addfile(entry, io.BytesIO(tree[path].data))
    return compressed(whole.getvalue())


def member(name, data, time):
    """A file of an `ar` archive."""
    head = f"{name:<16}{time:<12}{0:<6}{0:<6}{'100644':<8}{len(data):<10}`\n".encode()
    return head + data + b"\n" * (len(data) % 2)


def deb(control, tree, time):
    """A Debian package (deb(5)) of a tree, with the files that describe it."""
    members = [("debian-binary", b"2.0\n"), ("control.tar.gz", tar(control, time, "./")), ("data.tar.gz", tar(tree, time, "./"))]
    return b"!<arch>\n" + b"".join(member(name, data, time) for name, data in members)
