#!/usr/bin/env python3
"""Renames or removes program sections of an eBPF object: rename_sections.py OBJECT OUT OLD=NEW..

Each OLD is the whole name of a section, as `llvm-readelf -S` prints it; NEW is its new name, which no other section may have, or
empty to remove the section with its programs. `llvm-objcopy` does the same to the section alone: the records of functions, lines
and type relocations in `.BTF.ext` keep the old name, and an object whose type relocations are in a section that isn't there is
refused. This script changes both. It needs `llvm-objcopy`. OUT may be OBJECT.
"""

import os
import struct
import subprocess
import sys
import tempfile

OBJCOPY = os.environ.get("LLVM_OBJCOPY", "llvm-objcopy")
MAGIC = 0xEB9F


def order_of(data):
    """The byte order of types, as `struct` writes it."""
    for order in "<>":
        if len(data) >= 24 and struct.unpack_from(order + "H", data)[0] == MAGIC:
            return order
    sys.exit("rename_sections.py: the section .BTF has no types")


class Strings:
    """The strings of the section `.BTF`, which stand at its end."""

    def __init__(self, data):
        self.order = order_of(data)
        header, = struct.unpack_from(self.order + "I", data, 4)
        start, length = struct.unpack_from(self.order + "II", data, 16)
        self.start, self.data = header + start, bytearray(data)
        if self.start + length != len(data):
            sys.exit("rename_sections.py: the strings aren't at the end of the section .BTF")

    def at(self, offset):
        first = self.start + offset
        return bytes(self.data[first : self.data.index(0, first)])

    def added(self, text):
        """The offset of a string that is appended."""
        offset = len(self.data) - self.start
        self.data += text + b"\0"
        struct.pack_into(self.order + "I", self.data, 20, len(self.data) - self.start)
        return offset


def changed_part(data, strings, offsets):
    """A part of `.BTF.ext` whose records are for the renamed sections: by old name its new offset, or nothing to remove them."""
    order = strings.order
    size, = struct.unpack_from(order + "I", data)
    out, at = bytearray(data[:4]), 4
    while at < len(data):
        name, count = struct.unpack_from(order + "II", data, at)
        end = at + 8 + count * size
        new = offsets.get(strings.at(name), name)
        if new is not None:
            out += struct.pack(order + "I", new) + data[at + 4 : end]
        at = end
    return out


def changed_extension(data, strings, offsets):
    """The section `.BTF.ext` with its parts one after another."""
    order = strings.order
    header, = struct.unpack_from(order + "I", data, 4)
    out, parts = bytearray(data[:header]), bytearray()
    for field in range(8, header, 8):
        start, length = struct.unpack_from(order + "II", data, field)
        part = changed_part(data[header + start : header + start + length], strings, offsets) if length else b""
        struct.pack_into(order + "II", out, field, len(parts), len(part))
        parts += part
    return bytes(out + parts)


def objcopy(*words):
    try:
        ended = subprocess.run([OBJCOPY, *words], stderr=subprocess.PIPE, text=True)
    except OSError as error:
        sys.exit(f"rename_sections.py: {OBJCOPY}: {error.strerror}")
    if ended.returncode:
        sys.exit(f"rename_sections.py: {ended.stderr.strip()}")


def dumped(source, folder, section):
    """The file and the bytes of a section; no bytes where the object hasn't it."""
    path = os.path.join(folder, section)
    ended = subprocess.run([OBJCOPY, "--dump-section", f"{section}={path}", source, os.devnull], stderr=subprocess.DEVNULL)
    if ended.returncode or not os.path.exists(path):
        return path, b""
    with open(path, "rb") as file:
        return path, file.read()


def removed(section):
    """The words that remove a section, and what refers to it: its relocations, debug information, and relocations of types."""
    sections = (section, f".rel{section}", ".rel.BTF", ".rel.BTF.ext")
    return ["--strip-debug", *(word for name in sections for word in ("--remove-section", name))]


def main():
    if len(sys.argv) < 4 or not all("=" in word for word in sys.argv[3:]):
        print(__doc__.splitlines()[0], file=sys.stderr)
        return 2
    source, target, *changes = sys.argv[1:]
    renamed = dict(word.rsplit("=", 1) for word in changes)
    words = []
    for old, new in renamed.items():
        words += ["--rename-section", f"{old}={new}"] if new else removed(old)
    with tempfile.TemporaryDirectory() as folder:
        types_file, types = dumped(source, folder, ".BTF")
        extension_file, extension = dumped(source, folder, ".BTF.ext")
        if types and extension:
            strings = Strings(types)
            offsets = {os.fsencode(old): strings.added(os.fsencode(new)) if new else None for old, new in renamed.items()}
            changed = changed_extension(extension, strings, offsets)
            for section, path, data in ((".BTF", types_file, strings.data), (".BTF.ext", extension_file, changed)):
                with open(path, "wb") as file:
                    file.write(data)
                words += ["--update-section", f"{section}={path}"]
        objcopy(*words, source, target)
    return 0


sys.exit(main())
