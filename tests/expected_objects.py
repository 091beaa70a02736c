#!/usr/bin/env python3
"""Writes what inspect_object must print of each object of tests/objects: expected_objects.py [--check] [READELF]

Sections, symbols, relocations and bytes are those that llvm-readelf prints (READELF; llvm-readelf-14 where none is
given). It doesn't print what `.BTF` and `.BTF.ext` say: these are read here, by the kernel's Documentation/bpf/btf.rst.
What becomes of all this is said by docs/OBJECTS.md. Without --check the texts are written beside the objects; with it,
each text that differs is named and the exit status is 1.

NAME.facts beside an object, and NAME.little.facts or NAME.big.facts for one byte order, are written by hand from the
source: each line is a line that the text must have, and one that begins with '! ' a line that it must not have. ' .. '
stands for any words, and what stands after the fact in the line is free. A text that breaks one isn't written.
"""
import pathlib
import re
import struct
import subprocess
import sys

OBJECTS = pathlib.Path(__file__).resolve().parent / "objects"

INT, PTR, ARRAY, STRUCT, UNION, ENUM, FWD, TYPEDEF, VOLATILE, CONST, RESTRICT, FUNC, FUNC_PROTO, VAR, DATASEC = range(1, 16)
FLOAT, DECL_TAG, TYPE_TAG, ENUM64 = range(16, 20)
MODIFIERS = (TYPEDEF, VOLATILE, CONST, RESTRICT, TYPE_TAG)

BEGINNINGS = (("license", "License"), ("version", "Version"), ("maps", "Maps"), (".maps", "BtfMaps"), (".text", "Text"),
              (".bss", "Bss"), (".data", "Data"), (".rodata", "Rodata"))
WHOLE_NAMES = {".BTF": "Btf", ".BTF.ext": "BtfExt"}

# Kinds of programs, of the sections' names that the sources have.
PROGRAMS = {
    "xdp": "Xdp { frags: false, attach_type: Interface }",
    "xdp.frags/devmap": "Xdp { frags: true, attach_type: DevMap }",
    "kprobe": "KProbe",
    "tracepoint": "TracePoint",
    "tp": "TracePoint",
    "raw_tp": "RawTracePoint",
    "fentry.s": "FEntry { sleepable: true }",
    "classifier": "SchedClassifier",
    "cgroup_skb/ingress": "CgroupSkb { attach_type: Some(Ingress) }",
}

# What BPF_PROG_LOAD takes for these: program type, expected attach type and flags, by the kernel's bpf.h and the table
# of libbpf's section_defs.
LOADS = {
    "xdp": (6, 37, 0),
    "xdp.frags/devmap": (6, 33, 32),
    "kprobe": (2, None, 0),
    "tracepoint": (5, None, 0),
    "tp": (5, None, 0),
    "raw_tp": (17, None, 0),
    "fentry.s": (26, 24, 16),
    "classifier": (3, None, 0),
    "cgroup_skb/ingress": (8, 0, 0),
}

WIDTHS = {"R_BPF_64_64": 64, "R_BPF_64_32": 32}

# The numbers that define a map, by words in the order of a section `maps`.
DEFINED_BY_WORDS = ("type", "key_size", "value_size", "max_entries", "map_flags", "id", "pinning")
DEFINED_BY_TYPES = ("type", "key_size", "value_size", "max_entries", "map_flags", "map_extra", "pinning", "key", "value")


def word(text):
    """A text as a word of a line."""
    data = text.encode("utf-8") if isinstance(text, str) else text
    if data and data != b"-" and all(0x21 <= b <= 0x7e and b not in b'"\\' for b in data):
        return data.decode("ascii")
    return '"' + "".join(chr(b) if 0x20 <= b <= 0x7e and b not in b'"\\' else f"\\x{b:02x}" for b in data) + '"'


def hexadecimal(data):
    return data.hex() or "-"


def said_words(words):
    """The numbers that define a map, as words of a line."""
    said = (f"type {words['type']} key-size {words['key_size']} value-size {words['value_size']} "
            f"max-entries {words['max_entries']} flags {words['map_flags']} "
            f"pinning {'ByName' if words['pinning'] == 1 else 'None'}")
    if "id" in words:
        return f"{said} id {words['id']}"
    return f"{said} extra {words['map_extra']} key-type {words['key']} value-type {words['value']}"


class Elf:
    """What llvm-readelf prints of a file."""

    def __init__(self, path, readelf):
        self.path, self.readelf = path, readelf
        self.order = ">" if "big endian" in self.said("-h") else "<"
        self.sections = self.read_sections()
        self.symbols = self.read_symbols()
        self.relocations = self.read_relocations()

    def said(self, *words):
        return subprocess.run([self.readelf, "-W", *words, str(self.path)], capture_output=True, text=True, check=True).stdout

    def read_sections(self):
        line = re.compile(r"\s*\[\s*(\d+)\] (\S*)\s+(\S+)\s+([0-9a-f]{16}) ([0-9a-f]+) ([0-9a-f]+) ([0-9a-f]{2}) (.{3})\s+(\d+)\s+(\d+)")
        found = [line.match(text) for text in self.said("-S").splitlines()]
        return [{"index": int(m[1]), "name": m[2], "type": m[3], "address": int(m[4], 16), "size": int(m[6], 16),
                 "flags": m[8], "info": int(m[10])} for m in found if m and int(m[1])]

    def read_symbols(self):
        line = re.compile(r"\s*(\d+): ([0-9a-f]{16})\s+(\d+) (\S+)\s+(\S+)\s+\S+\s+(\S+) ?(.*)$")
        found = [line.match(text) for text in self.said("-s").splitlines()]
        return [{"index": int(m[1]), "value": int(m[2], 16), "size": int(m[3]), "type": m[4], "bind": m[5],
                 "section": int(m[6]) if m[6].isdigit() else None, "name": m[7]} for m in found if m]

    def read_relocations(self):
        """The relocations of each section, by its index."""
        by_section, target = {}, None
        for text in self.said("-r").splitlines():
            begin = re.match(r"Relocation section '(.*)' at offset 0x([0-9a-f]+) ", text)
            entry = re.match(r"([0-9a-f]{16})\s+([0-9a-f]{16}) (\S+)", text)
            if begin:
                target = next(s["info"] for s in self.sections if s["name"] == begin[1])
            elif entry:
                symbol = int(entry[2], 16) >> 32
                by_section.setdefault(target, []).append((int(entry[1], 16), symbol, WIDTHS.get(entry[3], 0)))
        return by_section

    def bytes_of(self, section):
        if section["type"] == "NOBITS" or section["size"] == 0:
            return b""
        lines = self.said("-x", str(section["index"])).splitlines()
        return b"".join(bytes.fromhex(line[11:46]) for line in lines if line.startswith("0x"))[:section["size"]]

    def first(self, name):
        return next((s for s in self.sections if s["name"] == name), None)


class Types:
    """The records of a section `.BTF`, by id."""

    def __init__(self, order, data):
        magic, _, _, header, type_at, type_size, string_at, string_size = struct.unpack_from(order + "HBBIIIII", data)
        assert magic == 0xEB9F
        self.order = order
        self.strings = data[header + string_at:header + string_at + string_size]
        self.records = [None]
        self.read(data[header + type_at:header + type_at + type_size])

    def text(self, offset):
        return self.strings[offset:self.strings.index(b"\0", offset)].decode("utf-8")

    def read(self, data):
        at = 0
        lengths = {INT: 1, ARRAY: 3, VAR: 1, DECL_TAG: 1}
        each = {STRUCT: 3, UNION: 3, ENUM: 2, FUNC_PROTO: 2, DATASEC: 3, ENUM64: 3}
        while at < len(data):
            name, info, third = struct.unpack_from(self.order + "III", data, at)
            kind, count, flag = info >> 24 & 0x1F, info & 0xFFFF, info >> 31
            words = lengths.get(kind, 0) + each.get(kind, 0) * count
            more = struct.unpack_from(f"{self.order}{words}I", data, at + 12)
            self.records.append({"name": self.text(name), "kind": kind, "count": count, "flag": flag, "third": third,
                                 "words": more})
            at += 12 + 4 * words

    def end_of(self, id):
        """The id at the end of a chain of modifiers."""
        while id and self.records[id]["kind"] in MODIFIERS:
            id = self.records[id]["third"]
        return id

    def size(self, id):
        record = self.records[self.end_of(id)]
        if record["kind"] == PTR:
            return 8
        if record["kind"] == ARRAY:
            return record["words"][2] * self.size(record["words"][0])
        assert record["kind"] in (INT, STRUCT, UNION, ENUM, FLOAT, ENUM64)
        return record["third"]

    def sections(self, name):
        return [r for r in self.records[1:] if r["kind"] == DATASEC and r["name"] == name]

    def entries(self, section):
        return [section["words"][at] for at in range(0, 3 * section["count"], 3)]

    def members(self, record):
        words = record["words"]
        return [(self.text(words[at]), words[at + 1]) for at in range(0, 3 * record["count"], 3)]


class Extension:
    """The section infos of a section `.BTF.ext`: by kind a list of the section's name and the records' words."""

    def __init__(self, order, data, types):
        self.order, self.data, self.types = order, data, types
        header = struct.unpack_from(order + "I", data, 4)[0]
        places = struct.unpack_from(order + "IIIIII", data, 8)
        self.header = header
        self.functions, self.function_size = self.section_infos(places[0], places[1], 2)
        self.lines, self.line_size = self.section_infos(places[2], places[3], 4)
        self.relocations, _ = self.section_infos(places[4], places[5], 4) if header >= 32 else ([], 0)

    def section_infos(self, offset, length, words):
        if not length:
            return [], 0
        at, end = self.header + offset + 4, self.header + offset + length
        size = struct.unpack_from(self.order + "I", self.data, at - 4)[0]
        found = []
        while at < end:
            name, count = struct.unpack_from(self.order + "II", self.data, at)
            records = [struct.unpack_from(f"{self.order}{words}I", self.data, at + 8 + i * size) for i in range(count)]
            found.append((self.types.text(name), records))
            at += 8 + count * size
        return found, size

    @staticmethod
    def of_section(section_infos, name):
        return next((records for section, records in reversed(section_infos) if section == name), [])


def kind_of(section):
    for beginning, kind in BEGINNINGS:
        if section["name"].startswith(beginning):
            return kind
    if section["name"] in WHOLE_NAMES:
        return WHOLE_NAMES[section["name"]]
    is_code = section["type"] == "PROGBITS" and "A" in section["flags"] and "X" in section["flags"]
    return "Program" if is_code and section["size"] else "Undefined"


def by_pieces(table, name):
    """What a table of kinds of programs has for a section's name."""
    pieces = name.split("/")
    return table.get("/".join(pieces[:2])) or table[pieces[0]]


def program_kind(name):
    return by_pieces(PROGRAMS, name)


def load_line(name, section):
    kind, attach_type, flags = by_pieces(LOADS, section["name"])
    return f"load {word(name)} type {kind} attach-type {'-' if attach_type is None else attach_type} flags {flags}"


class Object:
    def __init__(self, path, readelf):
        self.elf = Elf(path, readelf)
        types, extension = self.elf.first(".BTF"), self.elf.first(".BTF.ext")
        self.types = Types(self.elf.order, self.elf.bytes_of(types)) if types else None
        self.extension = Extension(self.elf.order, self.elf.bytes_of(extension), self.types) if types and extension else None
        self.externs = self.read_externs()

    def lines(self):
        return (self.head() + self.section_lines() + self.relocation_lines() + self.program_lines()
                + self.function_lines() + self.map_lines() + self.extern_lines() + self.type_relocation_lines()
                + self.last_lines() + self.notes())

    def license(self):
        section = self.elf.first("license")
        return self.elf.bytes_of(section)[:-1] if section else b"GPL"

    def version(self):
        """The kernel version, None for any."""
        section = self.elf.first("version")
        number = struct.unpack(self.elf.order + "I", self.elf.bytes_of(section))[0] if section else 0xFFFFFFFE
        return None if number == 0xFFFFFFFE else number

    def head(self):
        return [
            "byte-order " + ("big" if self.elf.order == ">" else "little"),
            "license " + word(self.license()),
            "version " + ("any" if self.version() is None else str(self.version())),
            "types " + (str(len(self.types.records) - 1 + self.appended()) if self.types else "none"),
        ]

    def appended(self):
        """How many records stand for functions among the externs."""
        if not any(e["kind"] == FUNC for e in self.externs.values()):
            return 0
        return 1 if any(r["kind"] == INT and r["third"] == 4 for r in self.types.records[1:]) else 2

    def section_lines(self):
        return [f"section {s['index']} {kind_of(s)} {word(s['name'])} address {s['address']} size {s['size']}"
                for s in self.elf.sections]

    def relocation_lines(self):
        return [line for s in self.elf.sections for line in self.relocations_in(s, self.elf.relocations.get(s["index"], []))]

    @staticmethod
    def relocations_in(section, found):
        """The lines of a section's relocations; those of sections that nothing reads are counted."""
        if kind_of(section) in ("Undefined", "Btf", "BtfExt", "License", "Version"):
            return [f"relocations {section['index']} count {len(found)}"] if found else []
        return [f"relocation {section['index']} offset {offset} symbol {symbol or '-'} width {width}"
                for offset, symbol, width in found]

    def functions_of(self, kind):
        """The symbols of functions in sections of a kind, with their sections."""
        return [(s, f) for s in self.elf.sections if kind_of(s) == kind
                for f in self.elf.symbols if f["section"] == s["index"] and f["type"] == "FUNC" and f["name"]]

    def program_lines(self):
        programs = {f["name"]: (s, f) for s, f in self.functions_of("Program")}
        lines = []
        for name, (s, f) in sorted(programs.items()):
            lines.append(f"program {word(name)} section {s['index']} address {f['value']} kind {program_kind(s['name'])}")
            lines.append(load_line(name, s))
        return lines

    def function_lines(self):
        found = {(s["index"], f["value"]): (s, f) for kind in ("Program", "Text") for s, f in self.functions_of(kind)}
        return [line for key in sorted(found) for line in self.lines_of_function(*found[key])]

    def lines_of_function(self, section, function):
        begin = function["value"] - section["address"]
        code = self.elf.bytes_of(section)[begin:begin + function["size"]]
        key = f"{section['index']} {function['value']}"
        offset = function["value"] if kind_of(section) == "Program" else begin
        lines = [f"function {key} {word(function['name'])} offset {offset} slots {len(code) // 8} borrowed {hexadecimal(code)}"]
        extension = self.extension
        if not extension:
            return lines
        start, end = begin // 8, (begin + len(code)) // 8
        counted_from = start if kind_of(section) == "Program" else 0
        name = section["name"]
        for slot, id in extension.of_section(extension.functions, name):
            if slot // 8 == start:
                lines.append(f"func-info {key} slot {slot // 8 - counted_from} type {id}")
        for slot, file, text, column in extension.of_section(extension.lines, name):
            if start <= slot // 8 < end:
                lines.append(f"line-info {key} slot {slot // 8 - counted_from} file {file} text {text} "
                             f"line {column >> 10} column {column & 0x3ff}")
        return lines

    def maps(self):
        """The maps by name."""
        found = {}
        for section in self.elf.sections:
            kind = kind_of(section)
            if kind == "Maps":
                found.update(self.maps_by_words(section))
            elif kind == "BtfMaps":
                found.update(self.maps_by_types(section))
            elif kind in ("Data", "Rodata", "Bss"):
                found[section["name"]] = self.map_of_variables(section, kind)
        return {name: found[name] for name in sorted(found, key=lambda name: name.encode())}

    def map_lines(self):
        lines = []
        for name, found in self.maps().items():
            symbol = "-" if found["symbol"] is None else found["symbol"]
            lines.append(f"map {word(name)} {said_words(found['words'])} section {found['section']['index']} "
                         f"{kind_of(found['section'])} symbol {symbol} contents {hexadecimal(found['contents'])}")
            if found["inner"]:
                lines.append(f"inner-map {word(name)} {said_words(found['inner'])}")
        return lines

    def maps_by_words(self, section):
        data, found = self.elf.bytes_of(section), {}
        for symbol in self.elf.symbols:
            if symbol["section"] != section["index"] or symbol["type"] == "SECTION":
                continue
            bytes_of_words = data[symbol["value"]:symbol["value"] + symbol["size"]][:28]
            numbers = struct.unpack("<7I", bytes_of_words + bytes(28 - len(bytes_of_words)))
            found[symbol["name"]] = {"section": section, "symbol": symbol["index"], "contents": b"", "inner": None,
                                     "words": dict(zip(DEFINED_BY_WORDS, numbers))}
        return found

    def map_of_variables(self, section, kind):
        numbers = (2, 4, section["size"], 1, 128 if kind == "Rodata" else 0, 0, 0)
        data = bytes(section["size"]) if kind == "Bss" else self.elf.bytes_of(section)
        return {"section": section, "symbol": None, "contents": data, "inner": None,
                "words": dict(zip(DEFINED_BY_WORDS, numbers))}

    def maps_by_types(self, section):
        found = {}
        for datasec in self.types.sections(section["name"]):
            for id in self.types.entries(datasec):
                variable = self.types.records[id]
                symbol = [s for s in self.elf.symbols if s["section"] == section["index"] and s["name"] == variable["name"]][-1]
                words, inner = self.definition(variable["third"])
                found[variable["name"]] = {"section": section, "symbol": symbol["index"], "contents": b"", "inner": inner,
                                           "words": words}
        return found

    def definition(self, id):
        """The words of a map's definition, and those of the maps that it holds."""
        types, inner = self.types, None
        words = dict.fromkeys(DEFINED_BY_TYPES, 0)
        for name, member in types.members(types.records[types.end_of(id)]):
            record = types.records[member]
            if name in ("key", "value"):
                words[name], words[name + "_size"] = record["third"], types.size(record["third"])
            elif name == "values":
                words["value_size"] = 4
                held = types.records[types.end_of(record["words"][0])]
                inner = self.definition(held["third"])[0]
            elif name in words:
                words[name] = types.records[record["third"]]["words"][2]
        return words, inner

    def read_externs(self):
        found = {}
        for section in self.types.sections(".ksyms")[:1] if self.types else []:
            for id in self.types.entries(section):
                record = self.types.records[id]
                symbol = next(s for s in self.elf.symbols if s["name"] == record["name"])
                end = self.types.end_of(record["third"])
                found[record["name"]] = {"id": id, "kind": record["kind"], "is_weak": symbol["bind"] == "WEAK",
                                         "type": end or (None if record["kind"] == VAR else 0)}
        return found

    def extern_lines(self):
        return [f"extern {word(name)} declared {e['id']} weak {str(e['is_weak']).lower()} resolved false kernel-type - "
                f"address - type {'-' if e['type'] is None else e['type']}" for name, e in sorted(self.externs.items())]

    def type_relocation_lines(self):
        lines = []
        for name, records in self.extension.relocations if self.extension else []:
            lines.append(f"type-relocations {word(name)} {len(records)}")
            lines += [f"type-relocation offset {slot} type {id} access {at} {word(self.types.text(at))} kind {kind}"
                      for slot, id, at, kind in records]
        return lines

    def last_lines(self):
        typed = [e for e in self.externs.values() if e["type"] is not None]
        answers = (("btf-relocations", bool(self.extension and self.extension.relocations)), ("typed-ksyms", bool(typed)),
                   ("strong-typed-ksyms", any(not e["is_weak"] for e in typed)))
        return [f"has-{what} {str(answer).lower()}" for what, answer in answers]

    def notes(self):
        """What may surprise in the object. All are files for eBPF."""
        notes = []
        if self.elf.order == ">":
            notes.append("the file is big-endian, but its slots and the words that define maps are read as little-endian: no kernel takes them so")
        if not self.elf.first("license"):
            notes.append("no section is called license: the license counts as GPL")
        for section in self.elf.sections:
            if self.elf.relocations.get(section["index"]):
                if kind_of(section) in ("Maps", "BtfMaps"):
                    notes.append(f'the first values of maps of section "{section["name"]}" aren\'t in a plan')
                elif kind_of(section) in ("Data", "Rodata", "Bss"):
                    notes.append(f'the pointers in section "{section["name"]}" aren\'t in a plan: their bytes stay as the '
                                 "file has them")
        return [f"note {note}" for note in notes]


def broken_facts(path, lines):
    """The facts of an object that its text breaks."""
    name, order = path.name.split(".")[:2]
    facts = []
    for file in (f"{name}.facts", f"{name}.{order}.facts"):
        if (OBJECTS / file).exists():
            facts += [line for line in (OBJECTS / file).read_text().splitlines() if line]
    if not facts:
        return ["no facts"]
    return [f for f in facts if has_line(lines, f.removeprefix("! ")) == f.startswith("! ")]


def has_line(lines, fact):
    pattern = re.compile(" .* ".join(re.escape(part) for part in fact.split(" .. ")) + "( |$)")
    return any(pattern.match(line) for line in lines)


def main():
    words = sys.argv[1:]
    is_check = "--check" in words
    words = [w for w in words if w != "--check"]
    if len(words) > 1:
        print("usage: expected_objects.py [--check] [READELF]", file=sys.stderr)
        return 2
    agree, differ = 0, 0
    for path in sorted(OBJECTS.glob("*.o")):
        lines = Object(path, words[0] if words else "llvm-readelf-14").lines()
        text, target = "".join(line + "\n" for line in lines), path.with_suffix(".txt")
        broken = broken_facts(path, lines)
        for fact in broken:
            print(f"{path.name}: {fact}")
        if broken or is_check and (not target.exists() or target.read_text() != text):
            print(f"{path.name}: the text differs")
            differ += 1
            continue
        if not is_check:
            target.write_text(text)
        agree += 1
    print(f"{agree} objects agree, {differ} differ")
    return 1 if differ else 0


if __name__ == "__main__":
    sys.exit(main())
