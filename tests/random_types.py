"""Random tables of types, an object's own and a kernel's that is like it, and type relocations over them.

Types are told by what they are, so that both tables can hold the same ones at other ids: `Float("double", 8)`, `Pointer(of)` and so
on. A struct stands for its members by its place in `Types.structs`, so that types may lead in circles.
"""

import collections
import struct

from expected_objects import ARRAY, CONST, DATASEC, DECL_TAG, ENUM, ENUM64, FLOAT, FUNC, FUNC_PROTO, INT, PTR, STRUCT, TYPE_TAG
from expected_objects import TYPEDEF, VAR
from make_rows import Names
from type_relocations import EXISTS, KERNEL_ID, LOCAL_ID, RIGHT_SHIFT, TYPE_EXISTS, TYPE_SIZE, VALUE, VALUE_EXISTS

Integer = collections.namedtuple("Integer", "name size encoding")
Float = collections.namedtuple("Float", "name size")
Pointer = collections.namedtuple("Pointer", "of")
Array = collections.namedtuple("Array", "of count")
Enumeration = collections.namedtuple("Enumeration", "name variants is_signed")
Enumeration64 = collections.namedtuple("Enumeration64", "name variants is_signed")
Modifier = collections.namedtuple("Modifier", "kind name of")
Struct = collections.namedtuple("Struct", "place")
Prototype = collections.namedtuple("Prototype", "result parameter")
Function = collections.namedtuple("Function", "name prototype linkage")
Variable = collections.namedtuple("Variable", "name of")
Section = collections.namedtuple("Section", "name variable")
Tag = collections.namedtuple("Tag", "name of")

INT32 = Integer("int", 4, 1)
INTEGERS = (INT32, Integer("unsigned int", 4, 0), Integer("long", 8, 1), Integer("char", 1, 2))
FLOATS = (Float("float", 4), Float("double", 8))
NAMES = tuple("alpha beta gamma delta epsilon zeta eta theta".split())


class Table:
    """A table of types as it is written: ids are given in the order in which types are met."""

    def __init__(self, structs):
        self.structs, self.ids, self.names = structs, {}, Names()
        self.met = []

    def id_of(self, type):
        if type is None:
            return 0
        if type not in self.ids:
            self.met.append(type)
            self.ids[type] = len(self.met)
        return self.ids[type]

    def size(self, type):
        if isinstance(type, Array):
            return type.count * self.size(type.of)
        if isinstance(type, Struct):
            return sum(self.size(member) for _, member in self.structs[type.place][1])
        if isinstance(type, Modifier):
            return self.size(type.of)
        return {Pointer: 8, Enumeration: 4, Enumeration64: 8}.get(type.__class__) or type.size

    def head(self, name, kind, third, count=0, flag=0):
        return struct.pack("<III", self.names.add(name), flag << 31 | kind << 24 | count, third)

    def members(self, type):
        name, members = self.structs[type.place]
        record = self.head(name, STRUCT, self.size(type), len(members))
        before = 0
        for member, of in members:
            record += struct.pack("<III", self.names.add(member), self.id_of(of), 8 * before)
            before += self.size(of)
        return record

    def variants(self, type, kind, size, form):
        record = self.head(type.name, kind, size, len(type.variants), type.is_signed)
        for name, value in type.variants:
            record += struct.pack("<I", self.names.add(name)) + struct.pack(form, value)
        return record

    def record(self, type):
        if isinstance(type, Integer):
            return self.head(type.name, INT, type.size) + struct.pack("<I", type.encoding << 24 | 8 * type.size)
        if isinstance(type, Float):
            return self.head(type.name, FLOAT, type.size)
        if isinstance(type, Pointer):
            return self.head("", PTR, self.id_of(type.of))
        if isinstance(type, Array):
            return self.head("", ARRAY, 0) + struct.pack("<III", self.id_of(type.of), self.id_of(INT32), type.count)
        if isinstance(type, Struct):
            return self.members(type)
        if isinstance(type, Enumeration):
            return self.variants(type, ENUM, 4, "<i")
        if isinstance(type, Enumeration64):
            return self.variants(type, ENUM64, 8, "<q")
        if isinstance(type, Modifier):
            return self.head(type.name, type.kind, self.id_of(type.of))
        return self.declared(type)

    def declared(self, type):
        if isinstance(type, Prototype):
            parameter = struct.pack("<II", self.names.add("x"), self.id_of(type.parameter))
            return self.head("", FUNC_PROTO, self.id_of(type.result), 1) + parameter
        if isinstance(type, Function):
            return self.head(type.name, FUNC, self.id_of(type.prototype), type.linkage)
        if isinstance(type, Variable):
            return self.head(type.name, VAR, self.id_of(type.of)) + struct.pack("<I", 1)
        if isinstance(type, Section):
            return self.head(type.name, DATASEC, 4, 1) + struct.pack("<III", self.id_of(type.variable), 0, 4)
        assert isinstance(type, Tag)
        return self.head(type.name, DECL_TAG, self.id_of(type.of)) + struct.pack("<i", -1)

    def bytes(self):
        records, at = b"", 0
        while at < len(self.met):
            records += self.record(self.met[at])
            at += 1
        header = struct.pack("<HBBIIIII", 0xEB9F, 1, 0, 24, 0, len(records), len(records), len(self.names.bytes))
        return header + records + self.names.bytes


def variants_of(random):
    names = random.sample(NAMES, random.randint(1, 4))
    return tuple((name.upper(), random.randint(-3, 100)) for name in names)


def enumeration(random):
    made = random.choice((Enumeration, Enumeration, Enumeration64))
    variants = variants_of(random)
    return made(random.choice(NAMES) + "_enum", variants, int(any(value < 0 for _, value in variants)))


def member_type(random, structs, enumerations, before):
    """The type of a member of a struct, which holds only structs before it."""
    choice = random.randrange(12)
    if choice < 5:
        return random.choice(INTEGERS)
    if choice == 5:
        return random.choice(FLOATS)
    if choice == 6:
        return random.choice(enumerations)
    if choice == 7:
        return Array(random.choice(INTEGERS), random.randint(1, 4))
    if choice == 8 and before:
        return Struct(random.randrange(before))
    if choice == 9:
        return modified(random, member_type(random, structs, enumerations, before))
    inner = Struct(random.randrange(structs))
    return Pointer(Modifier(TYPE_TAG, "rcu", inner) if choice == 10 else inner)


def modified(random, of):
    """A type under a CONST, which has no name, or a TYPEDEF."""
    kind, name = random.choice((CONST, TYPEDEF)), random.choice(NAMES) + "_t"
    return Modifier(kind, name if kind == TYPEDEF else "", of)


def structs_of(random, enumerations):
    count = random.randint(1, 5)
    structs = []
    for place in range(count):
        names = random.sample(NAMES, random.randint(1, 6))
        types = [member_type(random, count, enumerations, place) for _ in names]
        structs.append((f"struct_{place}", tuple(zip(names, types))))
    return structs


def changed(random, structs):
    """The structs of a kernel: members in another order, one left out, one of another size."""
    changed_structs = []
    for name, members in structs:
        members = list(members)
        if random.random() < 0.3:
            random.shuffle(members)
        if random.random() < 0.2 and len(members) > 1:
            members.pop()
        if random.random() < 0.2:
            members[0] = (members[0][0], random.choice(INTEGERS))
        changed_structs.append((name, tuple(members)))
    return changed_structs


def access_of(random, structs, type):
    """A path from a struct: its members, the members of those that are structs, the elements of arrays."""
    access = "0"
    while isinstance(type, (Struct, Array)) and (access == "0" or random.random() < 0.7):
        if isinstance(type, Array):
            index, type = random.randrange(type.count), type.of
        else:
            members = structs[type.place][1]
            index = random.randrange(len(members))
            type = members[index][1]
        access += f":{index}"
    return access


def question(random, structs, enumerations):
    """What a relocation asks: a kind, a type and an access string."""
    choice = random.randrange(10)
    if choice < 6:
        type = Struct(random.randrange(len(structs)))
        return random.randrange(EXISTS + 1 if choice < 5 else RIGHT_SHIFT + 1), type, access_of(random, structs, type)
    if choice < 8:
        type = random.choice([Struct(random.randrange(len(structs))), random.choice(FLOATS), random.choice(enumerations)])
        return random.choice((LOCAL_ID, KERNEL_ID, TYPE_EXISTS, TYPE_SIZE)), type, "0"
    type = random.choice(enumerations)
    return random.choice((VALUE_EXISTS, VALUE)), type, str(random.randrange(len(type.variants)))


def declarations(random, structs):
    """What an object's own table has beside its types: functions, a section of variables, tags."""
    prototype = Prototype(random.choice(INTEGERS), Pointer(Struct(random.randrange(len(structs)))))
    found = [Function("run", prototype, 1), Function("inner", prototype, 0), Tag("tag", Struct(0))]
    found.append(Section(".data", Variable("counter", random.choice(INTEGERS[:2]))))
    return random.sample(found, random.randrange(len(found) + 1))
