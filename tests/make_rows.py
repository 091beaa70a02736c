#!/usr/bin/env python3
"""Makes the objects of tests/rows and tests/inspections from their descriptions: make_rows.py [--check]

Each of their folders with an object.bin has an object.txt that says in its first line what the row shows,
and then what the object holds. Where there is a types.bin, types2.bin .., a table of a kernel's types, types.txt, types2.txt ..
says what it holds, in lines of pieces as sections have them; kernels-NAME.txt says it of kernels/NAME. A first line
`elf NAME [KEY=N ..]` makes of the pieces a section NAME of an ELF64 file without symbols, with the keys of `file` below.
Without --check the files are written; with it, each file that differs from its description is named and the exit status
is 1.

Lines of object.txt ('#' begins a comment, a name in double quotes may hold spaces and escapes):

  from ROW               begins with the object of another row beside it; what follows are changes alone
  change OFFSET HEX      writes bytes at an offset
  first COUNT            keeps as many bytes
  bytes HEX              a file of these bytes alone, or more bytes behind others
  hold ROW [COUNT]       the object of another row behind these bytes, or its first bytes, as programs hold objects

  file type=N machine=N version=N    e_type, e_machine and e_version, 0 where not given; with big=1 numbers are most byte
                                     first, but those of slots
  sections align=N entry=N           sh_addralign of each section (its bytes begin at a multiple of it; 0 is no
                                     alignment) and sh_entsize of the symbol table
  section NAME [KEY=N ..]            a section, of type SHT_PROGBITS where `type` isn't given; keys: type, flags, address,
                                     link, info, entry (sh_entsize), size (sh_size, where it isn't the number of
                                     bytes), pad (its bytes begin at a multiple of it)
    text "TEXT"                      its bytes, piece by piece: a text
    hex HEX ..                       bytes
    words N ..                       numbers of 32 bits, those below 0 in two's complement
    slot CODE REGISTERS OFFSET IMM   an instruction slot, the first two in hex
    relocation OFFSET SYMBOL TYPE    an entry of a section of type SHT_REL
    again COUNT PIECE                a piece so many times
  symbols                            the symbol table and its names stand here, before the sections that follow
  symbol NAME INFO SECTION VALUE SIZE    st_info (0x12: a global function), the section's index, st_value, st_size

Without a line `symbols` the symbol table and its names stand after the sections. The sections' names stand after
all, and the section headers at the next multiple of 8. Numbers are little-endian where nothing else is said.
"""
import json
import pathlib
import re
import struct
import sys

TESTS = pathlib.Path(__file__).resolve().parent

FOLDERS = ("rows", "inspections")


def words_of(line):
    """The words of a line, those in double quotes decoded, and whether it is indented."""
    found = re.findall(r'"(?:[^"\\]|\\.)*"|#.*|[^\s"]+', line)
    return [json.loads(w) if w[0] == '"' else w for w in found if w[0] != "#"]


def keys_of(words):
    return {key: int(value, 0) for key, value in (word.split("=") for word in words)}


def piece(words, order="<"):
    """The bytes that a line of a section stands for."""
    kind, rest = words[0], words[1:]
    if kind == "text":
        return rest[0].encode("latin-1")
    if kind == "hex":
        return bytes.fromhex("".join(rest))
    if kind == "again":
        return piece(rest[1:], order) * int(rest[0])
    if kind == "words":
        return b"".join(struct.pack(order + "I", int(word, 0) & 0xffffffff) for word in rest)
    if kind == "slot":
        return struct.pack("<BBhi", int(rest[0], 16), int(rest[1], 16), int(rest[2]), int(rest[3]))
    if kind == "relocation":
        return struct.pack(order + "QQ", int(rest[0], 0), int(rest[1]) << 32 | int(rest[2]))
    raise ValueError(f"unknown line: {' '.join(words)}")


class Names:
    """A string table: a NUL, and then each name with its NUL."""

    def __init__(self):
        self.bytes = b"\0"

    def add(self, name):
        if not name:
            return 0
        at = len(self.bytes)
        self.bytes += name.encode("latin-1") + b"\0"
        return at


def aligned(data, multiple):
    return data + bytes(-len(data) % multiple) if multiple else data


def symbol_table(symbols, order):
    names = Names()
    table = bytes(24)
    for name, info, section, value, size in symbols:
        table += struct.pack(order + "IBBHQQ", names.add(name), info, 0, section, value, size)
    return table, names.bytes


def order_of(file_keys):
    """The order of bytes of a file, as `struct` has it."""
    return ">" if file_keys.get("big") else "<"


def object_of(file_keys, defaults, sections, table_at, symbols):
    """The ELF64 file of some sections and symbols; the symbol table stands before the section at `table_at`."""
    align, order = defaults.get("align", 0), order_of(file_keys)
    table, symbol_names = symbol_table(symbols, order)
    tables = [
        (".symtab", {"type": 2, "link": table_at + 2, "entry": defaults.get("entry", 0)}, table),
        (".strtab", {"type": 3}, symbol_names),
    ]
    sections = sections[:table_at] + tables + sections[table_at:] + [(".shstrtab", {"type": 3}, b"")]
    names = Names()
    places = [names.add(name) for name, _, _ in sections]
    data = bytes(64)
    headers = bytes(64)
    for place, (name, keys, body) in zip(places, sections):
        body = names.bytes if name == ".shstrtab" else body
        data = aligned(data, keys.get("pad", align))
        headers += struct.pack(
            order + "IIQQQQIIQQ", place, keys.get("type", 1), keys.get("flags", 0), keys.get("address", 0), len(data),
            keys.get("size", len(body)), keys.get("link", 0), keys.get("info", 0), align, keys.get("entry", 0))
        data += body
    data = aligned(data, 8)
    header = b"\x7fELF\x02" + bytes([1 if order == "<" else 2, file_keys.get("version", 0)]) + bytes(9)
    header += struct.pack(
        order + "HHIQQQIHHHHHH", file_keys.get("type", 0), file_keys.get("machine", 0), file_keys.get("version", 0), 0, 0,
        len(data), 0, file_keys.get("header", 0), 0, 0, 64, len(sections) + 1, len(sections))
    return header + data[64:] + headers


def made(row):
    """The object that a row's description stands for."""
    data, file_keys, defaults, sections, table_at, symbols = None, {}, {}, [], None, []
    for line in (row / "object.txt").read_text().splitlines():
        words = words_of(line)
        if not words:
            continue
        kind, rest = words[0], words[1:]
        if line[0] == " ":
            name, keys, body = sections[-1]
            sections[-1] = (name, keys, body + piece(words, order_of(file_keys)))
        elif kind == "from":
            data = made(row.parent / rest[0])
        elif kind == "bytes":
            data = (data or b"") + bytes.fromhex("".join(rest))
        elif kind == "hold":
            data = (data or b"") + made(row.parent / rest[0])[:int(rest[1]) if rest[1:] else None]
        elif kind == "first":
            data = data[:int(rest[0])]
        elif kind == "change":
            at, change = int(rest[0]), bytes.fromhex(rest[1])
            data = data[:at] + change + data[at + len(change):]
        elif kind == "file":
            file_keys = keys_of(rest)
        elif kind == "sections":
            defaults = keys_of(rest)
        elif kind == "section":
            sections.append((rest[0], keys_of(rest[1:]), b""))
        elif kind == "symbols":
            table_at = len(sections)
        elif kind == "symbol":
            symbols.append((rest[0], *(int(word, 0) for word in rest[1:])))
        else:
            raise ValueError(f"{row.name}: unknown line: {line}")
    if data is not None:
        return data
    return object_of(file_keys, defaults, sections, len(sections) if table_at is None else table_at, symbols)


def made_types(name):
    """What makes a table of the kernel's types of a description of this name beside a row."""

    def made_table(row):
        lines = [words for words in map(words_of, (row / name).read_text().splitlines()) if words]
        if lines[:1] and lines[0][0] == "elf":
            section, keys = lines[0][1], keys_of(lines[0][2:])
            table = b"".join(piece(words, order_of(keys)) for words in lines[1:])
            return object_of(keys, {"align": 8, "entry": 24}, [(section, {}, table)], 1, [])
        return b"".join(piece(words) for words in lines)

    return made_table


def described_files(folder):
    """The files of a row that are described, with what describes them and what makes them."""
    files = [(folder / "object.bin", folder / "object.txt", made)]
    names = {path.stem for pattern in ("types*.txt", "types*.bin") for path in folder.glob(pattern)}
    for name in sorted(names):
        files.append((folder / f"{name}.bin", folder / f"{name}.txt", made_types(f"{name}.txt")))
    # A file of the folder `kernels` is described beside it.
    names = {path.stem[len("kernels-"):] for path in folder.glob("kernels-*.txt")}
    names |= {path.name for path in folder.glob("kernels/*") if path.is_file()}
    for name in sorted(names):
        description = f"kernels-{name}.txt"
        files.append((folder / "kernels" / name, folder / description, made_types(description)))
    return files


def main():
    if sys.argv[1:] not in ([], ["--check"]):
        print("usage: make_rows.py [--check]", file=sys.stderr)
        return 2
    agree, differ = 0, 0
    for folder in sorted(path for rows in FOLDERS for path in (TESTS / rows).glob("*/")):
        for target, description, make in described_files(folder):
            if not description.exists():
                if target.exists():
                    print(f"{folder.name}: {target.name} has no description")
                    differ += 1
                continue
            data = make(folder)
            if len(sys.argv) == 1:
                target.parent.mkdir(exist_ok=True)
                target.write_bytes(data)
            elif not target.exists() or target.read_bytes() != data:
                print(f"{folder.name}: {target.name} isn't what {description.name} describes")
                differ += 1
                continue
            agree += 1
    print(f"{agree} files agree, {differ} differ")
    return 1 if differ else 0


if __name__ == "__main__":
    sys.exit(main())
