#!/usr/bin/env python3
"""Writes an object of COUNT things of a kind: large_object.py KIND COUNT FILE [LENGTH]

What is said to have 1,000,000 bytes, a text or a section, has LENGTH where that is given, and a text of 500,000 half as many.

functions    functions in `.text`, each of which calls the next; a program calls the first
sections     program sections with a program each
symbols      symbols in the section of one program, each with a name of its own
relocations  calls of a program, each by a relocation, of 100 functions in turn
calls        functions in `.text`, each of which calls one that is the last; a program calls all
callers      programs that call one function
places       calls of one program, each by a relocation, of one function
loads        loads of maps by a program, each by a relocation, of a tenth as many maps in turn
loaders      programs that load one map each, of a tenth as many in turn
variables    variables of 8 bytes in `.data`
records      program sections with a program each, of which `.BTF.ext` has a function's record and a line's
fields       loads of a program, each by a type relocation, of the fields of one struct of the kernel's in turn
structs      loads of a program, each by a type relocation, of a field of a struct of its own, which no kernel has

Costly to read:

shared-symbols   symbols of one name of 1,000,000 bytes
shared-sections  program sections with a program each, of one name of 1,000,000 bytes
ending-sections  program sections with a program each, whose names are ends of one text of 1,000,000 bytes
shared-programs  programs of one name of 1,000,000 bytes
ending-programs  programs whose names are ends of one text of 1,000,000 bytes
ending-maps      maps in a section `maps`, whose names are ends of one text of 1,000,000 bytes
mixed-maps       the same, in an order in which their names neither rise nor fall
mixed-programs   ending-programs in the order of mixed-maps
mixed-variables  variables in `.data`, of names as those of mixed-programs, and a type table whose `.data` has one variable, which
                 no symbol names
mixed-externs    externs without types, whose names are ends of one text of 500,000 bytes in the types and of one in the symbols, in
                 the order of mixed-maps
mixed-definitions
                 maps that types define, whose names are ends of one text of 500,000 bytes in the types and of one in the symbols, in
                 such an order
mixed-structs    as structs, but the names of the structs are ends of one text of 1,000,000 bytes, in such an order
mixed-sections   sections of variables in the types, whose names are ends of one text of 1,000,000 bytes, in such an order, and a map
                 that the types define
slashed-sections the same, but the sections have one name, `/` and 1,000,000 bytes: each gets a text of its own, without the `/`
shared-records   as records, but of sections of one name of 1,000,000 bytes
like-records     as records, but of sections whose names are of one length and begin with the same 1,031 bytes
inner-records    the same, but the names end with the same 1,024 bytes too
section-records  program sections of one name with a program each, of which `.BTF.ext` has as many lines' records
overlapping      programs, each of which begins a slot after the one before and ends with the section
crossing         programs, and as many functions that call each the next; each program calls the first
overlapping-data sections of variables, which all hold the same 1,000,000 bytes of the file
zeroed           sections `.bss` of 1,000,000 bytes, of which the file holds none
map-entries      entries of `.maps` of one variable, whose struct has as many members
map-values       members of a map's struct that say that it holds maps, whose struct has as many members
map-sections     sections `.maps` with one symbol each, and as many entries of `.maps` of the variable of that name
no-section       variables of 8 bytes in `.data`, and a last one that no section has
"""
import struct
import sys

LONG = 1_000_000
# As many bytes at either end of the names of `inner-records` are alike.
ALIKE = 1_024
PROGBITS, SYMTAB, STRTAB, NOBITS, REL = 1, 2, 3, 8, 9
CODE, DATA = 6, 3
NOTYPE, OBJECT, FUNC = 0, 1, 2
# The id of no type, and the linkages of variables (include/uapi/linux/btf.h).
VOID = 0
DEFINED, EXTERN = 1, 2
GLOBAL = 1
LOAD_BY_SYMBOL, CALL_BY_SYMBOL = 1, 10
CALLED = 100
LOADS_OF_A_MAP = 10
# By steps of a prime, each index below a count that isn't a multiple of it comes once.
MIXING_STEP = 4_937
LONG_SECTION = "kprobe/" + "b" * LONG
EXIT = struct.pack("<BBhi", 0x95, 0, 0, 0)
MOVE = struct.pack("<BBhi", 0xB7, 0, 0, 0)
LOAD = struct.pack("<BBhiBBhi", 0x18, 1, 0, 0, 0, 0, 0, 0)
ARRAY_MAP = struct.pack("<IIIII", 2, 4, 8, 1, 0)
LOAD_FIELD = struct.pack("<BBhi", 0x61, 0x12, 0, 0)

# Kinds of type relocations (`enum bpf_core_relo_kind`, include/uapi/linux/bpf.h).
FIELD_BYTE_OFFSET, FIELD_EXISTS, TYPE_EXISTS, ENUM_VALUE = 0, 2, 8, 11

# Fields of 4 bytes of a struct that every kernel has.
TASK = "task_struct"
TASK_FIELDS = ("pid", "tgid", "prio", "static_prio", "normal_prio", "exit_state", "exit_code", "exit_signal")


def call(slots):
    """A call of the function that stands this number of slots after the next slot."""
    return struct.pack("<BBhi", 0x85, 0x10, 0, slots)


class Strings:
    def __init__(self):
        self.bytes, self.known = bytearray(1), {}

    def text(self, name):
        if name not in self.known:
            self.known[name] = len(self.bytes)
            self.bytes += name.encode() + b"\0"
        return self.known[name]

    def ends(self, length, count, part="b"):
        """Offsets of texts, each a part shorter than the one before, the first of this length or a part less."""
        start = self.text(part * (length // len(part)))
        return range(start, start + count * len(part), len(part))


class Made:
    def __init__(self):
        self.names, self.symbol_names = Strings(), Strings()
        self.sections = [bytes(64)]
        self.body = bytearray(64)
        self.symbols, self.relocations = [bytes(24)], []
        self.section("license", PROGBITS, DATA, b"GPL\0")

    def section(self, name, kind, flags, contents, link=0, info=0, size=0):
        """Adds a section, and answers its index; the name is a text or an offset in the names."""
        offset = name if isinstance(name, int) else self.names.text(name)
        self.body += bytes(-len(self.body) % 8)
        fields = (offset, kind, flags, 0, len(self.body), len(contents), link, info, 8, size)
        self.sections.append(struct.pack("<IIQQQQIIQQ", *fields))
        self.body += contents
        return len(self.sections) - 1

    def symbol(self, name, kind, section, address=0, size=0):
        """Adds a symbol, and answers its index; the name is a text or an offset in the symbols' names."""
        offset = name if isinstance(name, int) else self.symbol_names.text(name)
        self.symbols.append(struct.pack("<IBBHQQ", offset, GLOBAL << 4 | kind, 0, section, address, size))
        return len(self.symbols) - 1

    def program(self, section, name, slots=(MOVE, EXIT)):
        """Adds a program section with one program, and answers its index."""
        code = b"".join(slots)
        index = self.section(section, PROGBITS, CODE, code)
        self.symbol(name, FUNC, index, 0, len(code))
        return index

    def functions(self, bodies):
        """Adds `.text` with functions of these slots, and answers their symbols."""
        index = self.section(".text", PROGBITS, CODE, b"".join(b"".join(slots) for slots in bodies))
        symbols, address = [], 0
        for slots in bodies:
            size = 8 * len(slots)
            symbols.append(self.symbol(f"function_{len(symbols)}", FUNC, index, address, size))
            address += size
        return symbols

    def maps(self, count):
        """Adds a section `maps` with as many maps, and answers their symbols."""
        index, size = self.section("maps", PROGBITS, DATA, ARRAY_MAP * count), len(ARRAY_MAP)
        return [self.symbol(f"map_{place}", OBJECT, index, size * place, size) for place in range(count)]

    def relocate(self, section, symbols, step=1, kind=CALL_BY_SYMBOL):
        """Adds relocations by these symbols, of slots of a section from the first on, and this number of slots apart."""
        entries = (struct.pack("<QQ", 8 * step * index, symbol << 32 | kind) for index, symbol in enumerate(symbols))
        self.relocations.append((section, b"".join(entries)))

    def write(self):
        table = len(self.sections) + len(self.relocations)
        for target, entries in self.relocations:
            self.section(".rel", REL, 0, entries, table, target, 16)
        self.section(".symtab", SYMTAB, 0, b"".join(self.symbols), table + 1, 1, 24)
        self.section(".strtab", STRTAB, 0, self.symbol_names.bytes)
        self.names.text(".shstrtab")
        self.section(".shstrtab", STRTAB, 0, self.names.bytes)
        self.body += bytes(-len(self.body) % 8)
        count = len(self.sections)
        fields = (1, 247, 1, 0, 0, len(self.body), 0, 64, 0, 0, 64, count, count - 1)
        self.body[:64] = b"\x7fELF\x02\x01\x01" + bytes(9) + struct.pack("<HHIQQQIHHHHHH", *fields)
        return bytes(self.body) + b"".join(self.sections)


def chain(made, count):
    """Adds functions each of which calls the next, and answers the first one's symbol."""
    return made.functions([(call(1), EXIT)] * (count - 1) + [(MOVE, EXIT)])[0]


def functions(made, count):
    first = chain(made, count)
    made.relocate(made.program("socket", "program", (call(-1), EXIT)), [first])


def sections(made, count):
    for index in range(count):
        made.program(f"kprobe/place_{index}", f"program_{index}")


def symbols(made, count):
    section = made.program("socket", "program")
    for index in range(count):
        made.symbol(f"label_{index}", NOTYPE, section)


def call_in_turn(made, count, functions):
    """Adds a program of as many calls, each by a relocation, of the functions in turn."""
    called = made.functions([(MOVE, EXIT)] * functions)
    section = made.program("socket", "program", [call(-1)] * count + [EXIT])
    made.relocate(section, [called[index % functions] for index in range(count)])


def relocations(made, count):
    call_in_turn(made, count, CALLED)


def places(made, count):
    call_in_turn(made, count, 1)


def load_in_turn(made, count, section, step):
    """Adds a tenth as many maps, and relocations by which as many places of a section load them in turn."""
    maps = made.maps(max(count // LOADS_OF_A_MAP, 1))
    made.relocate(section, [maps[index % len(maps)] for index in range(count)], step, LOAD_BY_SYMBOL)


def loads(made, count):
    load_in_turn(made, count, made.program("socket", "program", [LOAD] * count + [EXIT]), 2)


def variables_of_names(made, names):
    section = made.section(".data", PROGBITS, DATA, bytes(8 * len(names)))
    for place, name in enumerate(names):
        made.symbol(name, OBJECT, section, 8 * place, 8)


def variables(made, count):
    variables_of_names(made, [f"variable_{index}" for index in range(count)])


def calls(made, count):
    last = 2 * count
    bodies = [(call(last - 2 * index - 1), EXIT) for index in range(count)]
    called = made.functions(bodies + [(MOVE, EXIT)])
    made.relocate(made.program("socket", "program", [call(-1)] * count + [EXIT]), called[:-1])


def programs(made, count, slots, name):
    """Adds programs of these slots in one section, of names by index."""
    section = made.section("socket", PROGBITS, CODE, b"".join(slots) * count)
    size = len(b"".join(slots))
    for index in range(count):
        made.symbol(name(index), FUNC, section, size * index, size)
    return section


def add_callers(made, count, called):
    section = programs(made, count, (call(-1), EXIT), lambda index: f"program_{index}")
    made.relocate(section, [called] * count, 2)


def callers(made, count):
    add_callers(made, count, made.functions([(MOVE, EXIT)])[0])


def crossing(made, count):
    add_callers(made, count, chain(made, count))


def loaders(made, count):
    load_in_turn(made, count, programs(made, count, (LOAD, EXIT), lambda index: f"program_{index}"), 3)


def type_table(names):
    """A table of a function's type, and the offsets of these names among its strings."""
    strings = Strings()
    words = [strings.text("int"), 1 << 24, 4, 0x0100_0020, 0, 13 << 24, 1, strings.text("function"), 12 << 24, 2]
    types = struct.pack(f"<{len(words)}I", *words)
    offsets = [strings.text(name) for name in names]
    header = struct.pack("<HBBIIIII", 0xEB9F, 1, 0, 24, 0, len(types), len(types), len(strings.bytes))
    return header + types + strings.bytes, offsets


def add_records(made, names):
    """Adds types, and records of the functions and lines of sections of these names."""
    table, offsets = type_table(names)
    made.section(".BTF", PROGBITS, 0, table)
    functions = b"".join(struct.pack("<IIII", offset, 1, 0, 3) for offset in offsets)
    lines = b"".join(struct.pack("<IIIIII", offset, 1, 0, 0, 0, 1 << 10) for offset in offsets)
    functions, lines = struct.pack("<I", 8) + functions, struct.pack("<I", 16) + lines
    places = (0, len(functions), len(functions), len(lines))
    header = struct.pack("<HBBIIIII", 0xEB9F, 1, 0, 24, *places)
    made.section(".BTF.ext", PROGBITS, 0, header + functions + lines)


def named_records(made, names):
    for index, name in enumerate(names):
        made.program(name, f"program_{index}")
    add_records(made, names)


def records(made, count):
    named_records(made, [f"kprobe/place_{index}" for index in range(count)])


def like_records(made, count):
    named_records(made, ["kprobe/" + "b" * ALIKE + f"{index:06}" for index in range(count)])


def inner_records(made, count):
    named_records(made, ["kprobe/" + "b" * ALIKE + f"{index:06}" + "b" * ALIKE for index in range(count)])


def section_records(made, count):
    for index in range(count):
        made.program("kprobe/place", f"program_{index}")
    table, (offset,) = type_table(["kprobe/place"])
    made.section(".BTF", PROGBITS, 0, table)
    # Lines of slots that no program has, the last one first.
    lines = b"".join(struct.pack("<IIII", 8 * slot, 0, 0, 1 << 10) for slot in range(count + 1, 1, -1))
    lines = struct.pack("<III", 16, offset, count) + lines
    header = struct.pack("<HBBIIIII", 0xEB9F, 1, 0, 24, 0, 0, 0, len(lines))
    made.section(".BTF.ext", PROGBITS, 0, header + lines)


def shared_records(made, count):
    shared_sections(made, count)
    add_records(made, [LONG_SECTION])


class Structs:
    """A table of an integer, and of structs with fields of it."""

    def __init__(self):
        self.strings = Strings()
        self.words = [self.strings.text("int"), 1 << 24, 4, 0x0100_0020]
        self.count = 1

    def struct(self, name, fields):
        """Adds a struct of fields that are integers, and answers its id."""
        return self.struct_of(name, [(field, 1) for field in fields])

    def struct_of(self, name, members):
        """Adds a struct of members, each a name, empty for none, and the id of its type; answers its id."""
        return self.struct_at(self.offset(name), members)

    def struct_at(self, offset, members):
        """Adds a struct whose name begins at this offset of the strings."""
        self.words += [offset, 4 << 24 | len(members), 4 * len(members)]
        for place, (member, id) in enumerate(members):
            self.words += [self.offset(member), id, 32 * place]
        self.count += 1
        return self.count

    def record(self, *words):
        """Adds a record of these words, and answers its id."""
        self.words += words
        self.count += 1
        return self.count

    def pointer(self, id):
        return self.record(0, 2 << 24, id)

    def ring(self, name, count):
        """Adds as many pointers, each to the next one and the last to the first, with a name for them; answers its id."""
        first = self.count + 1
        for place in range(count):
            self.pointer(first + (place + 1) % count)
        return self.record(self.offset(name), 8 << 24, first)

    def chain(self, count):
        """Adds as many pointers, each to the one before and the first to the integer; answers the id of the last."""
        id = 1
        for _ in range(count):
            id = self.pointer(id)
        return id

    def signature_ring(self, name, count, length):
        """Adds as many signatures, each returning the next one and taking a chain of pointers of its own; answers the name's id."""
        chains = [self.chain(length) for _ in range(count)]
        first = self.count + 1
        for place, taken in enumerate(chains):
            self.record(0, 13 << 24 | 1, first + (place + 1) % count, 0, taken)
        return self.record(self.offset(name), 8 << 24, first)

    def levels(self, name, count, taken, returned):
        """Adds as many signatures on each of as many levels, over integers; each takes that of its place on the level below and one so
        many places on, and returns one so many places on. Answers the id of a name for the first on the highest level."""
        below = [1] * count
        for _ in range(count):
            first = self.count + 1
            for place in range(count):
                one, next = below[place], below[(place + taken) % count]
                self.record(0, 13 << 24 | 2, below[(place + returned) % count], 0, one, 0, next)
            below = range(first, first + count)
        return self.record(self.offset(name), 8 << 24, below[0])

    def array(self, id, count):
        return self.record(0, 3 << 24, 0, id, 1, count)

    def variable(self, name, id):
        """Adds a global variable."""
        return self.variable_at(self.offset(name), id)

    def variable_at(self, offset, id, linkage=DEFINED):
        """Adds a variable whose name begins at this offset of the strings."""
        return self.record(offset, 14 << 24, id, linkage)

    def variables(self, section, ids):
        """Adds the entries of a section of variables."""
        return self.variables_at(self.offset(section), ids)

    def variables_at(self, offset, ids):
        """Adds the entries of a section whose name begins at this offset of the strings."""
        entries = (word for id in ids for word in (id, 0, 4))
        return self.record(offset, 15 << 24 | len(ids), 4, *entries)

    def offset(self, name):
        return self.strings.text(name) if name else 0

    def enumeration(self, name, variants):
        """Adds an enum of variants of these names, counted from 0."""
        words = (word for value, variant in enumerate(variants) for word in (self.offset(variant), value))
        return self.record(self.offset(name), 6 << 24 | len(variants), 4, *words)

    def relocation(self, slot, id, field, kind=FIELD_BYTE_OFFSET):
        """The record of a relocation of this kind, for a field of a struct, a variant of an enum, or for a type and 0."""
        path = str(field) if kind in (TYPE_EXISTS, ENUM_VALUE) else f"0:{field}"
        return struct.pack("<IIII", 8 * slot, id, self.strings.text(path), kind)

    def bytes(self):
        types = struct.pack(f"<{len(self.words)}I", *self.words)
        header = struct.pack("<HBBIIIII", 0xEB9F, 1, 0, 24, 0, len(types), len(types), len(self.strings.bytes))
        return header + types + self.strings.bytes


def load_fields(made, structs, relocations, slot=LOAD_FIELD):
    """Adds a program of a load, or of another slot, for each of these relocations, with the types that they name."""
    made.program("socket", "program", [slot] * len(relocations) + [MOVE, EXIT])
    section_info = struct.pack("<II", structs.strings.text("socket"), len(relocations)) + b"".join(relocations)
    region = struct.pack("<I", 16) + section_info
    made.section(".BTF", PROGBITS, 0, structs.bytes())
    header = struct.pack("<HBBIIIIIII", 0xEB9F, 1, 0, 32, 0, 0, 0, 0, 0, len(region))
    made.section(".BTF.ext", PROGBITS, 0, header + region)


def fields(made, count):
    table = Structs()
    task = table.struct(TASK, TASK_FIELDS)
    load_fields(made, table, [table.relocation(slot, task, slot % len(TASK_FIELDS)) for slot in range(count)])


def load_structs(made, table, ids):
    """Adds a program of a load for the first field of each of these structs."""
    load_fields(made, table, [table.relocation(slot, id, 0) for slot, id in enumerate(ids)])


def structs(made, count):
    table = Structs()
    load_structs(made, table, [table.struct(f"made_for_measurements_{index}", ["field"]) for index in range(count)])


def shared_symbols(made, count):
    section = made.program("socket", "program")
    name = made.symbol_names.text("b" * LONG)
    for _ in range(count):
        made.symbol(name, NOTYPE, section)


def shared_sections(made, count):
    name = made.names.text(LONG_SECTION)
    for index in range(count):
        made.program(name, f"program_{index}")


def ending_sections(made, count):
    for index, name in enumerate(made.names.ends(LONG, count, "kprobe/")):
        made.program(name, f"program_{index}")


def shared_programs(made, count):
    name = made.symbol_names.text("b" * LONG)
    programs(made, count, (MOVE, EXIT), lambda _: name)


def programs_of_names(made, names):
    programs(made, len(names), (MOVE, EXIT), lambda index: names[index])


def ending_programs(made, count):
    programs_of_names(made, made.symbol_names.ends(LONG, count))


def mixed(names):
    return [names[index * MIXING_STEP % len(names)] for index in range(len(names))]


def maps_of_names(made, names):
    section = made.section("maps", PROGBITS, DATA, struct.pack("<IIIII", 1, 4, 4, 1, 0))
    for name in names:
        made.symbol(name, OBJECT, section, 0, 20)


def ending_maps(made, count):
    maps_of_names(made, made.symbol_names.ends(LONG, count))


def mixed_maps(made, count):
    maps_of_names(made, mixed(made.symbol_names.ends(LONG, count)))


def mixed_programs(made, count):
    programs_of_names(made, mixed(made.symbol_names.ends(LONG, count)))


def mixed_variables(made, count):
    variables_of_names(made, mixed(made.symbol_names.ends(LONG, count)))
    table = Structs()
    table.variables(".data", [table.variable("b", 1)])
    made.section(".BTF", PROGBITS, 0, table.bytes())


def mixed_externs(made, count):
    table = Structs()
    names = mixed(table.strings.ends(LONG // 2, count))
    table.variables(".ksyms", [table.variable_at(name, VOID, EXTERN) for name in names])
    for name in mixed(made.symbol_names.ends(LONG // 2, count)):
        made.symbol(name, NOTYPE, 0)
    made.section(".BTF", PROGBITS, 0, table.bytes())


def mixed_definitions(made, count):
    table = Structs()
    id = table.struct_of("", [("type", table.pointer(table.array(1, 1)))])
    section = made.section(".maps", PROGBITS, DATA, bytes(8 * count))
    names = mixed(table.strings.ends(LONG // 2, count))
    table.variables(".maps", [table.variable_at(name, id) for name in names])
    for place, name in enumerate(mixed(made.symbol_names.ends(LONG // 2, count))):
        made.symbol(name, OBJECT, section, 8 * place, 8)
    made.section(".BTF", PROGBITS, 0, table.bytes())


def mixed_structs(made, count):
    table = Structs()
    ids = [table.struct_at(name, [("field", 1)]) for name in mixed(table.strings.ends(LONG, count))]
    load_structs(made, table, ids)


def mixed_sections(made, count):
    table = Structs()
    for name in mixed(table.strings.ends(LONG, count)):
        table.variables_at(name, [])
    map_sections_of(made, table, 1)


def slashed_sections(made, count):
    table = Structs()
    name = table.strings.text("/" + "b" * LONG)
    for _ in range(count):
        table.variables_at(name, [])
    map_sections_of(made, table, 1)


def overlapping(made, count):
    section = made.section("socket", PROGBITS, CODE, MOVE * count + EXIT)
    for index in range(count):
        made.symbol(f"program_{index}", FUNC, section, 8 * index, 8 * (count + 1 - index))


def overlapping_data(made, count):
    contents = bytes(range(250)) * (LONG // 250)
    made.section(".data.0", PROGBITS, DATA, contents)
    first = made.sections[-1]
    for index in range(1, count):
        made.sections.append(struct.pack("<I", made.names.text(f".data.{index}")) + first[4:])


def zeroed(made, count):
    for index in range(count):
        made.section(f".bss.{index}", NOBITS, DATA, b"")
        header = made.sections[-1]
        made.sections[-1] = header[:32] + struct.pack("<Q", LONG) + header[40:]


def map_types(made, table, id, count):
    """Adds a map of a struct, to which as many entries lead, and the table."""
    table.variables(".maps", [table.variable("map", id)] * count)
    made.section(".BTF", PROGBITS, 0, table.bytes())


def map_section(made):
    made.symbol("map", OBJECT, made.section(".maps", PROGBITS, DATA, bytes(8)))


def map_entries(made, count):
    table = Structs()
    number = table.pointer(1)
    map_section(made)
    map_types(made, table, table.struct_of("", [("key", number)] * count), count)


def map_values(made, count):
    table = Structs()
    inner = table.pointer(table.struct_of("", [("key", table.pointer(1))] * count))
    map_section(made)
    map_types(made, table, table.struct_of("", [("values", table.array(inner, 0))] * count), 1)


def map_sections_of(made, table, count):
    """Adds sections of a map, and as many entries of their variable to a table, which is added."""
    for _ in range(count):
        map_section(made)
    map_types(made, table, table.struct_of("", [("type", table.pointer(table.array(1, 1)))]), count)


def map_sections(made, count):
    map_sections_of(made, Structs(), count)


def no_section(made, count):
    variables(made, count)
    made.symbol("without_section", NOTYPE, 0, 0, 0)


KINDS = (functions, sections, symbols, relocations, calls, callers, places, loads, loaders, variables, records)
KINDS += (fields, structs)
COSTLY = (shared_symbols, shared_sections, ending_sections, shared_programs, ending_programs, ending_maps)
COSTLY += (mixed_maps, mixed_programs, mixed_variables, mixed_externs, mixed_definitions, mixed_structs,
           mixed_sections, slashed_sections)
COSTLY += (shared_records, like_records, inner_records, section_records, overlapping, crossing, overlapping_data)
COSTLY += (zeroed, map_entries, map_values, map_sections, no_section)


def set_length(length):
    """How long the long texts are."""
    global LONG, LONG_SECTION
    LONG = length
    LONG_SECTION = "kprobe/" + "b" * length


def main():
    if len(sys.argv) not in (4, 5):
        sys.exit(__doc__)
    makers = {maker.__name__.replace("_", "-"): maker for maker in KINDS + COSTLY}
    if sys.argv[1] not in makers:
        sys.exit(__doc__)
    if len(sys.argv) == 5:
        set_length(int(sys.argv[4]))
    made = Made()
    makers[sys.argv[1]](made, int(sys.argv[2]))
    with open(sys.argv[3], "wb") as file:
        file.write(made.write())


if __name__ == "__main__":
    main()
