"""What type relocations come to in a kernel's types, and what they write into slots, worked out slowly and plainly.

By the kernel's Documentation/bpf/llvm_reloc.rst ("CO-RE Relocations") and Documentation/bpf/btf.rst, and by docs/OBJECTS.md and
docs/FORMATS.md. Tables of types are the `Types` of expected_objects. Each relocation is looked up anew, and nothing is remembered.
What no compiler writes, as a path past a struct's last member, ends in an error of Python.
"""
import collections
import struct

from expected_objects import ARRAY, ENUM, ENUM64, FLOAT, FUNC_PROTO, FWD, INT, PTR, STRUCT, UNION

BYTE_OFFSET, BYTE_SIZE, EXISTS, SIGNED, LEFT_SHIFT, RIGHT_SHIFT = range(6)
LOCAL_ID, KERNEL_ID, TYPE_EXISTS, TYPE_SIZE, VALUE_EXISTS, VALUE = range(6, 12)

COMPOSITES = (STRUCT, UNION)

# The signed, the characters, the truth values, and none of these: all other encodings of integers are unknown.
ENCODINGS = (0, 1, 2, 4)

LOADS_IMMEDIATE, LOADS, STORES_IMMEDIATE, STORES, COMPUTES, _, _, COMPUTES_64 = range(8)
WIDTHS = {1: 0x10, 2: 0x08, 4: 0x00, 8: 0x18}
FARTHEST = 32767
POISON = bytes.fromhex("850000001023ad0b")


class Refused(Exception):
    """An object that gets no plan."""


class Uncomputable(Exception):
    """A value that a path doesn't have."""


# A step to a member or an element: the member's name, or None; its number; the record in which it stands, of an element the
# element's own; its type; the bits of a bit field, else 0.
Step = collections.namedtuple("Step", "name index inside type width")

# What a kernel's type has of what is asked for: the bits before it, and its value, or None where it can't be computed.
Match = collections.namedtuple("Match", "bits value")

# What a relocation comes to: its value, or None, and the place of the table of its first match, or None.
Outcome = collections.namedtuple("Outcome", "value table", defaults=(None,))

# A number to be written, and the field of which it is the offset, as its size and the record of its type.
Value = collections.namedtuple("Value", "number size type", defaults=(0, None))


def cut(name):
    """A name without its flavour."""
    return name.split("___")[0]


def end(types, id):
    """The record at the end of a chain of modifiers, None for void."""
    return types.records[types.end_of(id)]


def kind_of(types, id):
    return types.records[id]["kind"] if id else 0


def are_compatible(types, id, others, other):
    """Whether two types are compatible ("types are compatible")."""
    return kind_of(types, id) == kind_of(others, other) and are_ends_compatible(types, end(types, id), others, end(others, other))


def are_ends_compatible(types, one, others, two):
    if one is None or two is None:
        return one is two
    if one["kind"] != two["kind"]:
        return False
    if one["kind"] in (STRUCT, UNION, ENUM, ENUM64, FWD, FLOAT):
        return True
    if one["kind"] == INT:
        return not first_bit(one) and not first_bit(two)
    if one["kind"] == FUNC_PROTO and one["count"] != two["count"]:
        return False
    return all(are_ends_compatible(types, end(types, a), others, end(others, b)) for a, b in zip(parts(one), parts(two)))


def first_bit(integer):
    return integer["words"][0] >> 16 & 0xFF


def parts(record):
    """The types that a type is made of, as far as compatible types have compatible ones."""
    if record["kind"] == FUNC_PROTO:
        return list(record["words"][1::2]) + [record["third"]]
    assert record["kind"] in (PTR, ARRAY)
    return [record["third"] if record["kind"] == PTR else record["words"][0]]


def are_fields_compatible(types, id, others, other):
    """Whether the types of two members are compatible ("fields are compatible")."""
    one, two = end(types, id), end(others, other)
    if one["kind"] in COMPOSITES and two["kind"] in COMPOSITES:
        return True
    if one["kind"] != two["kind"]:
        return False
    if one["kind"] in (FWD, ENUM, ENUM64):
        return cut(one["name"]) == cut(two["name"])
    if one["kind"] == INT:
        return not first_bit(one) and not first_bit(two)
    if one["kind"] == ARRAY:
        return are_fields_compatible(types, one["words"][0], others, two["words"][0])
    assert one["kind"] in (PTR, FLOAT)
    return True


def members(types, record):
    """The members of a struct or a union: name, type, the bits before it, and the bits of a bit field, else 0."""
    for name, id, place in zip(record["words"][0::3], record["words"][1::3], record["words"][2::3]):
        before, width = (place & 0xFFFFFF, place >> 24) if record["flag"] else (place, 0)
        yield types.text(name), id, before, width


def variants(types, record):
    """The variants of an enum: name, and value as a number of 64 bits."""
    words = record["words"]
    if record["kind"] == ENUM64:
        return [(types.text(name), high << 32 | low) for name, low, high in zip(words[0::3], words[1::3], words[2::3])]
    assert record["kind"] == ENUM
    is_negative = [record["flag"] and value >> 31 for value in words[1::2]]
    return [(types.text(name), value | 0xFFFFFFFF << 32 if negative else value)
            for name, value, negative in zip(words[0::2], words[1::2], is_negative)]


class Path:
    """A way through a table of types: its steps, the type that it has come to, and the bits before that."""

    def __init__(self, types, root, index):
        self.types, self.bits, self.steps = types, 0, []
        self.step_to_element(root, index)

    def step_to_element(self, id, index):
        self.steps.append(Step(None, index, end(self.types, id), id, 0))
        self.go_to(id, 8 * index * self.types.size(id))

    def step_to_member(self, step, before):
        self.steps.append(step)
        self.go_to(step.type, before)

    def go_to(self, id, before):
        self.type, self.bits = id, self.bits + before
        assert self.bits < 1 << 32

    def record(self):
        return end(self.types, self.type)

    def has_element(self, array, index):
        """Whether an array has an element: one without elements has all, where it is the last member of a struct."""
        count, last = array["words"][2], self.steps[-1]
        is_last = last.inside["kind"] == STRUCT and last.index == last.inside["count"] - 1
        return index < count or not count and is_last


def local_path(types, id, numbers):
    """The way of an access string through the object's own types. Nameless members are no steps."""
    path = Path(types, id, numbers[0])
    for index in numbers[1:]:
        record = path.record()
        if record["kind"] == ARRAY:
            assert path.has_element(record, index)
            path.step_to_element(record["words"][0], index)
            continue
        assert record["kind"] in COMPOSITES
        name, type, before, width = list(members(types, record))[index]
        if name:
            path.step_to_member(Step(name, index, record, type, width), before)
        else:
            path.go_to(type, before)
    return path


def found_member(wanted, local, types, record):
    """The step to the member of a kernel's struct or union that a step in the object's own types means, with the bits before
    it, or None. The first member of the name decides in its own struct, and nameless ones are searched as they are met."""
    for index, (name, id, before, width) in enumerate(members(types, record)):
        inner = end(types, id)
        if not name and inner["kind"] in COMPOSITES:
            deeper = found_member(wanted, local, types, inner)
            if deeper:
                return deeper[0], before + deeper[1]
        if name and name == wanted.name:
            is_same = are_fields_compatible(local, wanted.type, types, id)
            return (Step(name, index, record, id, width), before) if is_same else None
    return None


def matching_path(local, types, id):
    """The steps of a path, made in a kernel's type; None where they can't be."""
    path = Path(types, id, local.steps[0].index)
    for step in local.steps[1:]:
        record = path.record()
        if step.name is None:
            if record["kind"] != ARRAY or not path.has_element(record, step.index):
                return None
            path.step_to_element(record["words"][0], step.index)
        else:
            member = found_member(step, local.types, types, record) if record["kind"] in COMPOSITES else None
            if not member:
                return None
            path.step_to_member(*member)
    assert len(path.steps) < 64
    return path


def unit_of(bits, width, size):
    """The first byte and the size of what is loaded to have a bit field: its type's size, twice that and so on."""
    assert size
    begin = bits // (8 * size) * size
    if bits + width <= 8 * (begin + size):
        return begin, size
    if size >= 8:
        raise Uncomputable
    return unit_of(bits, width, 2 * size)


def is_signed(record):
    if record["kind"] in (ENUM, ENUM64):
        return record["flag"]
    if record["kind"] != INT:
        return 0
    encoding = record["words"][0] >> 24 & 0xF
    return encoding & 1 if encoding in ENCODINGS else 1


def field_value(kind, path):
    """What a question about a field has for an answer, of the field that a path leads to."""
    if kind == EXISTS:
        return Value(1)
    step, record = path.steps[-1], end(path.types, path.steps[-1].type)
    size, begin = path.types.size(step.type), path.bits // 8
    if kind == BYTE_OFFSET and not step.width:
        return Value(begin, size, record)
    if step.name is None and kind not in (BYTE_OFFSET, BYTE_SIZE):
        raise Uncomputable
    width = step.width or 8 * size
    if step.width:
        begin, size = unit_of(path.bits, step.width, size)
    unused = {LEFT_SHIFT: 64 - (path.bits + width - 8 * begin), RIGHT_SHIFT: 64 - width}
    number = {BYTE_OFFSET: begin, BYTE_SIZE: size, SIGNED: is_signed(record)} | unused
    if number[kind] < 0:
        raise Uncomputable
    return Value(number[kind])


class FieldQuestion:
    """Where a field lies, whether it is there, and so on."""

    def __init__(self, kind, types, id, numbers):
        self.kind, self.path = kind, local_path(types, id, numbers)
        self.local_value = field_value(kind, self.path)

    def match(self, types, id):
        path = matching_path(self.path, types, id)
        return path and Match(path.bits, self.value(path))

    def value(self, path):
        try:
            return field_value(self.kind, path)
        except Uncomputable:
            return None


class VariantQuestion:
    """Whether an enum has a variant, and which value that is."""

    def __init__(self, kind, types, id, numbers):
        (index,) = numbers
        self.kind = kind
        self.name, number = variants(types, end(types, id))[index]
        self.local_value = self.value(number)

    def value(self, number):
        return Value(1 if self.kind == VALUE_EXISTS else number)

    def match(self, types, id):
        values = [value for name, value in variants(types, end(types, id)) if cut(name) == cut(self.name)]
        return Match(0, self.value(values[0])) if values else None


class TypeQuestion:
    """Whether a type is there, how large it is, and which id it has."""

    def __init__(self, kind, types, id, numbers):
        assert numbers == [0]
        self.kind, self.types, self.id = kind, types, id
        self.local_value = Value(id)

    def match(self, types, id):
        if not are_compatible(self.types, self.id, types, id):
            return None
        return Match(0, Value({KERNEL_ID: lambda: id, TYPE_EXISTS: lambda: 1, TYPE_SIZE: lambda: types.size(id)}[self.kind]()))


def question_of(kind, types, id, access):
    asked = FieldQuestion if kind <= RIGHT_SHIFT else TypeQuestion if kind <= TYPE_SIZE else VariantQuestion
    return asked(kind, types, id, [int(number) for number in access.split(":")])


def candidates(kind, record, tables):
    """The places of a kernel's tables and the ids in them that a relocation of a type is looked for in, in order."""
    searched = {LOCAL_ID: [], KERNEL_ID: tables[:1]}.get(kind, tables)
    wanted = (record["kind"], cut(record["name"]))
    return [(table, id) for table, types in enumerate(searched) for id, other in enumerate(types.records)
            if other and (other["kind"], cut(other["name"])) == wanted]


def outcome(kind, question, record, tables):
    """What a relocation comes to."""
    if kind == LOCAL_ID:
        return Outcome(question.local_value)
    found = [(question.match(tables[table], id), table) for table, id in candidates(kind, record, tables)]
    matches = [(match, table) for match, table in found if match]
    if not matches and kind in (KERNEL_ID, TYPE_SIZE):
        raise Refused("MissingTargetDefinition")
    if not matches:
        return Outcome(Value(0) if kind in (EXISTS, TYPE_EXISTS, VALUE_EXISTS) else None)
    first, table = matches[0]
    for other, _ in matches[1:]:
        is_other = first.value and other.value and first.value.number != other.value.number
        if first.bits != other.bits or is_other:
            raise Refused("ConflictingCandidates")
    return Outcome(first.value, table)


def is_unsigned(record):
    return record["kind"] == INT and not record["words"][0] >> 24 & 1


def with_width(code, local, value):
    """The code of a load or a store, with the width of the kernel's field."""
    if local.size == value.size:
        return code
    both = [local.type, value.type]
    can_change = None not in both and (all(r["kind"] == PTR for r in both) or all(is_unsigned(r) for r in both))
    if not can_change or value.size not in WIDTHS:
        raise Refused("InvalidInstruction")
    return code & ~0x18 | WIDTHS[value.size]


def write(slots, at, local, value):
    """Writes a value into a slot; of a load of 64 bits into two."""
    code, registers = slots[at][:2]
    if code & 7 in (COMPUTES, COMPUTES_64):
        if registers >> 4:
            raise Refused("InvalidInstruction")
        slots[at] = slots[at][:4] + low_word(value.number)
    elif code & 7 in (LOADS, STORES_IMMEDIATE, STORES):
        if value.number > FARTHEST:
            raise Refused("InvalidInstruction")
        slots[at] = bytes((with_width(code, local, value), registers)) + struct.pack("<h", value.number) + slots[at][4:]
    elif code & 7 == LOADS_IMMEDIATE:
        slots[at] = slots[at][:4] + low_word(value.number)
        slots[at + 1] = slots[at + 1][:4] + low_word(value.number >> 32)
    else:
        raise Refused("InvalidInstruction")


def low_word(number):
    return struct.pack("<I", number & 0xFFFFFFFF)


def poison(slots, at):
    """Writes a call that no kernel takes, so that none takes a program that reaches it."""
    if slots[at][0] == 0x18:
        slots[at + 1] = POISON
    slots[at] = POISON


def make(slots, at, local, value):
    """Makes a relocation at a slot."""
    if value is None:
        poison(slots, at)
    else:
        write(slots, at, local, value)


def relocate(types, section_infos, sections, functions, tables):
    """Makes the relocations of an object, section info by section info.

    Functions are by key, with `offset`, `slots` and `tables`, to which the tables of first matches are added, by place; a section
    info names the last section of its name, and its relocations are made in the first function that holds their offset.
    """
    for name, records in section_infos:
        index = {section["name"]: section["index"] for section in sections}[name]
        inside = [functions[key] for key in sorted(functions) if key[0] == index]
        for offset, id, access, kind in records:
            function = next(f for f in inside if f.offset <= offset < f.offset + 8 * len(f.slots))
            question = question_of(kind, types, id, types.text(access))
            try:
                value, table = outcome(kind, question, types.records[id], tables)
                function.tables |= {table} - {None}
                make(function.slots, (offset - function.offset) // 8, question.local_value, value)
            except Refused as why:
                raise Refused(f"{why} {name}") from why
