#!/usr/bin/env python3
"""Loads what a plan holds into the running kernel: load_plan.py [--dry-run] [-v] [--object OBJECT] PLAN [PROGRAM=ID]..

An example of a loader. PLAN is what bpf_prepare printed. Nothing is attached or pinned, and all is gone when the process
ends. Each program is loaded by itself: one that the kernel refuses is named with the last lines of the verifier's log, and
the next one follows. So does one that doesn't use a map that the kernel refuses. -v shows the verifier's whole logs, also
those of programs that are loaded.

Programs of the kinds Lsm, LsmCgroup, BtfTracePoint, FEntry, FExit and Iter need the id of what they are attached to in the
kernel's types. With --object, the file that the plan was made of, it is looked up by the names of their sections in
/sys/kernel/btf/vmlinux; PROGRAM=ID sets it by hand. Programs of the kind Extension aren't served, nor are those that are
attached to a module.

With --dry-run each call of bpf is printed, and none is made. The status is 0 where all is loaded, 1 where something isn't,
and 2 where the command line or a file is wrong. Faults are lines on standard error.
"""
import argparse
import contextlib
import ctypes
import dataclasses
import errno
import os
import re
import resource
import struct
import sys

CALLS = {"x86_64": 321, "aarch64": 280, "riscv64": 280}  # bpf
MAP_CREATE, MAP_UPDATE_ELEM, PROG_LOAD, BTF_LOAD, MAP_FREEZE = 0, 2, 5, 18, 22
NAMES = {0: "BPF_MAP_CREATE", 2: "BPF_MAP_UPDATE_ELEM", 5: "BPF_PROG_LOAD", 18: "BPF_BTF_LOAD", 22: "BPF_MAP_FREEZE"}
KERNEL_TYPES = "/sys/kernel/btf/vmlinux"
POSSIBLE_PROCESSORS = "/sys/devices/system/cpu/possible"
READ_ONLY = 128  # BPF_F_RDONLY_PROG
PERF_EVENT_ARRAY, RING_BUFFERS = 4, (27, 31)
# The types of maps that the kernel makes without types of keys and values (bpf_object__create_map, tools/lib/bpf/libbpf.c).
UNTYPED = (PERF_EVENT_ARRAY, 7, 8, 12, 13, 14, 15, 16, 17, 18, 22, 23, 25, 33)
# The types of maps that it makes only with them: storage of sockets, inodes, tasks and control groups, and STRUCT_OPS.
TYPED = (24, 26, 28, 29, 32)
# The structures and tags of what the kernel looks for in the values of maps (btf_get_field_type, kernel/bpf/btf.c).
FIELDS = (b"bpf_spin_lock bpf_res_spin_lock bpf_timer bpf_wq bpf_task_work bpf_list_head bpf_rb_root bpf_refcount "
          b"kptr kptr_untrusted percpu_kptr uptr").split()
# The largest log that every kernel takes, and the lines of it that are shown without -v.
LOG_SIZE, LOG_LINES = 2**24 - 1, 6
PROGRAM = struct.Struct("<IIQQIIQII16s4IQIIQIII")  # of bpf_attr, up to attach_prog_fd
# `return 0`, and `return bpf_ktime_get_coarse_ns()`, a helper that kernels have from 5.11 on.
RETURN_ZERO = bytes.fromhex("b7000000000000009500000000000000")
RETURN_COARSE_TIME = bytes.fromhex("85000000a00000009500000000000000")

# By KIND: the program type, the flag that A sets, and the expected attach types by B where there is a flag, else by A.
KINDS = (
    (2, 0, [0]), (2, 0, [0]), (2, 16, [0, 48]), (2, 16, [0, 48]), (5, 0, [0]), (1, 0, [0]), (6, 32, [37, 35, 33]),
    (16, 0, [7]), (14, 0, [4, 5]), (13, 0, [3]), (3, 0, [0]), (8, 0, [0, 0, 1]),
    (18, 0, [8, 9, 10, 11, 29, 30, 31, 32, 14, 15, 19, 20]), (23, 0, [18]), (25, 0, [21, 22]), (20, 0, [16]),
    (7, 0, [0]), (17, 0, [0]), (29, 16, [27]), (29, 0, [43]), (26, 0, [23]), (26, 16, [24]), (26, 16, [25]),
    (22, 0, [17]), (28, 0, [0]), (30, 0, [36]), (21, 0, [39, 40]), (9, 0, [12, 13, 2, 34]), (15, 0, [6]), (26, 16, [28]),
)
EXTENSION = 24
# By KIND: how the name of an attach target begins, and the kind of its record (BTF_KIND_TYPEDEF, BTF_KIND_FUNC).
TYPEDEF, FUNC = 8, 12
TARGETS = {18: ("bpf_lsm_", FUNC), 19: ("bpf_lsm_", FUNC), 20: ("btf_trace_", TYPEDEF), 21: ("", FUNC), 22: ("", FUNC),
           29: ("bpf_iter_", FUNC)}
# By the kind of a record of types: the bytes after its first twelve, in all and for each of its items
# (Documentation/bpf/btf.rst).
RECORD_SIZES = {1: (4, 0), 3: (12, 0), 4: (0, 12), 5: (0, 12), 6: (0, 8), 13: (0, 8), 14: (4, 0), 15: (0, 12), 17: (4, 0),
                19: (0, 12)}
EM_NONE, EM_BPF = 0, 247  # older versions of LLVM wrote no machine


def note(text):
    print(f"{os.path.basename(sys.argv[0])}: {text}", file=sys.stderr)


def number(word, bits=32):
    if not (word.isascii() and word.isdigit()) or int(word) >> bits:
        raise ValueError(f"{word!r} is no number of {bits} bits")
    return int(word)


def data(word):
    try:
        return b"" if word == "-" else bytes.fromhex(word)
    except ValueError:
        raise ValueError(f"{word[:20]!r} isn't hexadecimal") from None


def label(name):
    """A name as the kernel takes it: at most 15 bytes of letters, digits, '_' and '.'."""
    return bytes(b for b in name if chr(b).isalnum() and b < 128 or b in b"_.")[:15]


def shown(name):
    return name.decode(errors="backslashreplace")


# The parts of a plan. `words` are the ten numbers of a map, and of the maps that it holds.
@dataclasses.dataclass
class Map:
    name: bytes
    number: int
    words: list
    content: bytes
    inner: list = None


@dataclasses.dataclass
class Program:
    name: bytes
    kind: int
    attributes: tuple
    slots: bytes = b""
    tables: list = dataclasses.field(default_factory=list)
    functions: list = dataclasses.field(default_factory=list)
    lines: list = dataclasses.field(default_factory=list)


# By the name of a line, how its other words are read: bytes, texts, numbers, numbers of 64 bits (docs/FORMATS.md).
READERS = {"b": data, "t": str, "n": number, "l": lambda word: number(word, 64)}
WORDS = {"license": "b", "version": "t", "feature": "tt", "types": "t", "map": "bntnnnnnlnnnnb", "inner": "nnnnnlnnnn",
         "program": "bnnn", "slots": "b", "func": "nn", "line": "nnnn", "end": ""}


class Plan:
    def __init__(self):
        self.license, self.version, self.types = b"", 0, b""
        self.features, self.maps, self.programs = [], [], []
        self.is_whole = False

    def take(self, name, words):
        """Takes a line. Lines about a map or a program are about the last one."""
        if self.is_whole:
            raise ValueError("there is a line after the end")
        if name == "tables":
            self.programs[-1].tables = words if words in (["-"], ["?"]) else [number(word) for word in words]
            return
        if name not in WORDS or len(words) != len(WORDS[name]):
            raise ValueError("no line of a plan has such words")
        words = [READERS[reader](word) for reader, word in zip(WORDS[name], words)]
        if name in ("license", "slots") or name == "types" and words[0] != "none":
            self.take_bytes(name, words[0])
        elif name == "version":
            self.version = running_version() if words[0] == "any" else number(words[0])
        elif name == "feature":
            self.features.append(" ".join(words))
        elif name == "map":
            self.maps.append(Map(words[0], words[1], words[3:13], words[13]))
        elif name == "inner":
            self.maps[-1].inner = words
        elif name == "program":
            self.programs.append(Program(words[0], words[1], load_attributes(*words[1:])))
        elif name in ("func", "line"):
            records = self.programs[-1].functions if name == "func" else self.programs[-1].lines
            # A line's LINE and COLUMN are `line_off` and `line_col`.
            records.append(struct.pack(f"<{len(words)}I", *words))
        self.is_whole = name == "end"

    def take_bytes(self, name, word):
        if name == "license":
            self.license = word
        elif name == "types":
            self.types = data(word)
        elif len(word) % 8:
            raise ValueError("slots have eight bytes")
        else:
            self.programs[-1].slots = word

    def what_needs_types(self):
        """What no kernel takes without the object's types; nothing where there is no such thing."""
        for one in self.maps:
            if one.words[0] in TYPED:
                return f"map {shown(one.name)}"
        for field in FIELDS:
            if b"\0" + field + b"\0" in self.types and any(one.words[9] for one in self.maps):
                return f"a value with {field.decode()}"
        for program in self.programs:
            if program.kind == EXTENSION or any(source == 4 for _at, source in loads_of_64_bits(program.slots)):
                return f"program {shown(program.name)}"
        return None


def read_plan(path):
    """Reads a plan. A wrong line is told by its number."""
    with open(path, encoding="ascii", errors="surrogateescape") as file:
        first, *lines = file.read().split("\n")
    if first not in ("bpf-plan 1", "bpf-plan 2"):
        raise ValueError(f"{path} is no plan of version 1 or 2")
    plan = Plan()
    for at, line in enumerate(lines[:-1] if lines[-1:] == [""] else lines, 2):
        name, *words = line.split(" ")
        try:
            plan.take(name, words)
        except (ValueError, IndexError) as error:
            why = "no map or program is before it" if isinstance(error, IndexError) else error
            raise ValueError(f"{path}: line {at}: {why}") from None
    if not plan.is_whole:
        raise ValueError(f"{path} is cut off: it has no line 'end'")
    if plan.types[:2] == b"\xeb\x9f":
        raise ValueError(f"{path} is the plan of a big-endian object, which can't be loaded")
    return plan


def load_attributes(kind, first, second):
    """The program type, the expected attach type and the flags that a kind and its fields, A and B, stand for."""
    program_type, flag, attach_types = KINDS[kind] if kind < len(KINDS) else (0, 0, [])
    is_set, place, rest = (first, second, 0) if flag else (0, first, second)
    if is_set > 1 or place >= len(attach_types) or rest:
        raise ValueError(f"no program is of kind {kind} with the fields {first} and {second}")
    return program_type, attach_types[place], flag * is_set


def loads_of_64_bits(slots):
    """The slots with the first halves of 16-byte loads: where they begin, and their source registers."""
    return [(at, slots[at + 1] >> 4) for at in range(0, len(slots), 8) if slots[at] == 0x18]


def text_at(strings, offset):
    return strings[offset : strings.index(b"\0", offset)]


def running_version():
    """The running kernel's number, as kernels before 5.0 compare it with that of a program (libbpf's get_kernel_version)."""
    release = os.uname().release
    try:
        with open("/proc/version_signature", encoding="ascii") as file:  # Ubuntu's
            release = file.read().split()[2]
    except OSError:
        debian = re.search(r"Debian (\S+)", os.uname().version)
        release = debian[1] if debian else release
    major, minor, patch = (int(part) for part in (re.findall(r"\d+", release) + ["0", "0"])[:3])
    return (major << 16) + (minor << 8) + min(patch, 255)


def possible_processors():
    """How many processors there may ever be. The kernel lists their numbers, such as 0-3,8."""
    with open(POSSIBLE_PROCESSORS, encoding="ascii") as file:
        ranges = [part.split("-") for part in file.read().strip().split(",")]
    return sum(int(numbers[-1]) - int(numbers[0]) + 1 for numbers in ranges)


def ring_size(wanted):
    """The least power of two of pages that holds a ring buffer, where 32 bits have it (libbpf's adjust_ringbuf_sz)."""
    size = os.sysconf("SC_PAGE_SIZE")
    while size < wanted:
        size *= 2
    return size if wanted and size < 2**32 else wanted


def sections_of_programs(path):
    """The names of the sections in which a little-endian object's functions stand, by the functions' names."""
    with open(path, "rb") as file:
        elf = file.read()
    if elf[:4] != b"\x7fELF" or len(elf) < 64:
        raise ValueError(f"{path} is no ELF file")
    if elf[4] != 2 or elf[5] != 1:
        raise ValueError(f"{path} isn't a little-endian ELF file of 64 bits, and others can't be loaded")
    machine, = struct.unpack_from("<H", elf, 18)
    if machine not in (EM_NONE, EM_BPF):
        raise ValueError(f"{path} is for machine {machine}, eBPF is {EM_BPF}")
    try:
        return sections_of_functions(elf)
    except (struct.error, IndexError, ValueError):
        raise ValueError(f"{path} is a broken ELF file") from None


def sections_of_functions(elf):
    table, = struct.unpack_from("<Q", elf, 40)
    size, count, names = struct.unpack_from("<HHH", elf, 58)
    sections = [struct.unpack_from("<IIQQQQIIQQ", elf, table + size * index) for index in range(count)]
    found = {}
    for section in (section for section in sections if section[1] == 2):  # SHT_SYMTAB
        for at in range(section[4], section[4] + section[5], 24):
            name, info, _other, index = struct.unpack_from("<IBBH", elf, at)
            if info & 15 == 2 and index < count:  # STT_FUNC
                place = sections[names][4] + sections[index][0]
                found[text_at(elf, sections[section[6]][4] + name)] = text_at(elf, place).decode()
    return found


def ids_of(wanted):
    """The ids of the kernel's types of these kinds and names."""
    with open(KERNEL_TYPES, "rb") as file:
        table = file.read()
    try:
        header, types, length, names, _ = struct.unpack_from("<IIIII", table, 4)
        at, end, strings = header + types, header + types + length, header + names
        found, record = {}, 1
        while at < end:
            name, info, _ = struct.unpack_from("<III", table, at)
            kind = info >> 24 & 31
            found.setdefault((kind, text_at(table, strings + name).decode()), record)
            fixed, each = RECORD_SIZES.get(kind, (0, 0))
            at, record = at + 12 + fixed + each * (info & 0xFFFF), record + 1
    except (struct.error, ValueError):
        raise ValueError(f"{KERNEL_TYPES} can't be read as types") from None
    return {one: found[one] for one in wanted if one in found}


def targets_of(programs, path):
    """The ids of what programs are attached to, as their sections in an object name it."""
    sections, wanted = sections_of_programs(path), {}
    for program in (program for program in programs if program.kind in TARGETS):
        prefix, record = TARGETS[program.kind]
        target = sections.get(program.name, "").partition("/")[2]
        module, colon, name = target.partition(":")
        if not target:
            note(f"program {shown(program.name)} has no attach target in {path}")
        elif colon and module != "vmlinux":
            note(f"program {shown(program.name)} is for {name} of the module {module}, and types of modules aren't read")
        else:
            wanted[program.name] = (record, prefix + (name if colon else target))
    ids = ids_of(set(wanted.values())) if wanted else {}
    for name, (_, target) in wanted.items():
        if wanted[name] not in ids:
            note(f"program {shown(name)} is for {target}, which the kernel's types haven't got")
    return {name: ids[one] for name, one in wanted.items() if one in ids}


class Refused(OSError):
    """The kernel refuses a call. `log` is what it says of it."""

    def __init__(self, error, said, log=b""):
        super().__init__(error, f"{os.strerror(error)}: {said}")
        self.log = log_lines(log)


class Missing(Exception):
    """A program can't be loaded, and the kernel isn't asked."""


def log_lines(log):
    return [line for line in log.decode(errors="replace").splitlines() if line]


class Loader:
    def __init__(self, plan, targets, is_dry, is_verbose):
        self.plan, self.targets, self.is_dry, self.is_verbose = plan, targets, is_dry, is_verbose
        self.types, self.takes_types, self.takes_names = 0, True, True
        self.maps, self.refused_maps = {}, {}  # file descriptors by NUMBER, and names of those that aren't there
        self.kept = []  # the bytes that calls point to
        self.is_whole = True

    def call(self, command, attributes, said, log=None):
        """Makes a call, and gives the file descriptor that it answers."""
        if self.is_dry:
            print(NAMES[command], said)
            return 0
        size, call = len(attributes), CALLS[os.uname().machine]
        libc = ctypes.CDLL(None, use_errno=True)
        answer = libc.syscall(call, command, ctypes.create_string_buffer(attributes, size), size)
        if answer < 0:
            raise Refused(ctypes.get_errno(), f"{NAMES[command]} {said}", log.value if log else b"")
        return answer

    def call_with_log(self, command, attributes_with, said, wants_log):
        """Makes a call, and gives the log too where it is wanted. Of a refused call the error has it. The log's level, size and
        place make the attributes."""
        if self.is_dry or not wants_log:
            try:
                return self.call(command, attributes_with(0, 0, 0), said), []
            except Refused:
                pass
        log = ctypes.create_string_buffer(LOG_SIZE)
        try:
            answer = self.call(command, attributes_with(1, LOG_SIZE, ctypes.addressof(log)), said, log)
        except Refused as error:
            if error.errno != errno.ENOSPC:  # the log is longer, as kernels before 6.4 say
                raise
            answer = self.call(command, attributes_with(0, 0, 0), said)
        return answer, log_lines(log.value)

    def show_log(self, log):
        for line in log if self.is_verbose else log[-LOG_LINES:]:
            print(f"  {line}", file=sys.stderr)

    def at(self, content):
        """The address of some bytes, which stay there. Nothing has the address 0."""
        if not content:
            return 0
        self.kept.append(ctypes.create_string_buffer(content, len(content) + 1))
        return ctypes.addressof(self.kept[-1])

    def loads(self, slots, name=b""):
        """Whether the kernel loads a small program."""
        attributes = PROGRAM.pack(1, len(slots) // 8, self.at(slots), self.at(b"GPL"), 0, 0, 0, 0, 0, name, *[0] * 11)
        try:
            self.call(PROG_LOAD, attributes, "for a probe")
        except Refused:
            return False
        return True

    def ask(self):
        """Asks what libbpf asks first. Before 5.11 maps and programs count as locked memory; before 4.15 they have no names."""
        if not self.loads(RETURN_COARSE_TIME):
            with contextlib.suppress(OSError, ValueError):  # where it can't be raised, it may be high enough
                resource.setrlimit(resource.RLIMIT_MEMLOCK, (resource.RLIM_INFINITY, resource.RLIM_INFINITY))
        self.takes_names = self.loads(RETURN_ZERO, b"load_plan")

    def kernel_name(self, name):
        return label(name) if self.takes_names else b""

    def tell_features(self):
        if self.plan.features:
            note(f"the types are for a kernel with {', '.join(self.plan.features)}")

    def load_types(self):
        """Loads the types. Where the kernel refuses them, and nothing needs them, all goes on without types and records."""
        content, place = self.plan.types, self.at(self.plan.types)
        try:
            self.types, _log = self.call_with_log(
                BTF_LOAD, lambda level, size, log: struct.pack("<QQIII", place, log, len(content), size, level),
                f"{len(content)} bytes", False)
            if self.is_verbose:
                self.tell_features()
        except Refused as error:
            if error.errno == errno.EPERM:
                note(f"types aren't loaded: {error.strerror}")
                return False
            needed = self.plan.what_needs_types()
            note(f"types aren't loaded: {error.strerror}: {needed} needs them" if needed
                 else f"goes on without types and records: {error.strerror}")
            self.tell_features()
            self.show_log(error.log)
            self.takes_types = False
            return not needed
        return True

    def make_map(self, name, words, inner):
        kind, key, value, most, flags, extra, _pin, _id, key_type, value_type = words
        if kind in UNTYPED or not self.takes_types:
            key_type = value_type = 0
        if kind == PERF_EVENT_ARRAY and most == 0:
            most = possible_processors()
        if kind in RING_BUFFERS:
            most = ring_size(most)
        types = self.types if key_type or value_type else 0
        attributes = struct.pack("<7I16s5IQ", kind, key, value, most, flags, inner, 0, self.kernel_name(name), 0, types,
                                 key_type, value_type, 0, extra)
        said = f"{label(name).decode()} type {kind} key {key} value {value} entries {most} flags {flags} inner {inner}"
        return self.call(MAP_CREATE, attributes, said)

    def fill_map(self, one):
        """Makes a map with its first value. One that programs only read is frozen then, so that the verifier knows its bytes."""
        held = self.make_map(b"", one.inner, 0) if one.inner else 0
        made, said = self.make_map(one.name, one.words, held), label(one.name).decode()
        if one.content:
            attributes = struct.pack("<IIQQQ", made, 0, self.at(bytes(4)), self.at(one.content), 0)
            self.call(MAP_UPDATE_ELEM, attributes, f"{said} {len(one.content)} bytes")
            if one.words[4] & READ_ONLY:
                self.call(MAP_FREEZE, struct.pack("<I", made), said)
        return made

    def add_map(self, one):
        """Makes a map, or says why it isn't made."""
        try:
            self.maps[one.number] = self.fill_map(one)
        except Refused as error:
            self.is_whole = False
            self.refused_maps[one.number] = shown(one.name)
            return note(f"map {shown(one.name)} isn't made: {error.strerror}")
        if one.words[6] == 1:  # LIBBPF_PIN_BY_NAME
            note(f"map {shown(one.name)} is to be pinned under its name, and isn't")

    def with_maps(self, slots):
        """The slots with file descriptors where they name maps, and the places of these."""
        slots, places = bytearray(slots), [at for at, source in loads_of_64_bits(slots) if source in (1, 2)]
        for at in places:
            named, = struct.unpack_from("<i", slots, at + 4)
            if named in self.refused_maps:
                raise Missing(f"its map {self.refused_maps[named]} isn't made")
            if named not in self.maps:
                raise Missing(f"slot {at // 8} names the map {named}, which the plan hasn't got")
            struct.pack_into("<i", slots, at + 4, self.maps[named])
        return bytes(slots), [at // 8 for at in places]

    def load_program(self, program):
        """Loads a program, and gives the verifier's log of it where it is wanted."""
        program_type, attach_type, flags = program.attributes
        slots, places = self.with_maps(program.slots)
        target = self.targets.get(program.name, 0)
        functions, lines = (program.functions, program.lines) if self.takes_types else ([], [])
        # Kernels before 5.0 know nothing of records: what is about them is 0 where there are none.
        types = self.types if functions or lines else 0
        code, text = self.at(slots), self.at(self.plan.license + b"\0")
        records = [(8 * bool(functions), self.at(b"".join(functions)), len(functions)),
                   (16 * bool(lines), self.at(b"".join(lines)), len(lines))]
        said = (f"{label(program.name).decode()} type {program_type} attach-type {attach_type} flags {flags} target {target} "
                f"slots {len(slots) // 8} maps {places} functions {len(functions)} lines {len(lines)}")
        return self.call_with_log(
            PROG_LOAD,
            lambda level, size, log: PROGRAM.pack(
                program_type, len(slots) // 8, code, text, level, size, log, self.plan.version, flags,
                self.kernel_name(program.name), 0, attach_type, types, *records[0], *records[1], target, 0),
            said, self.is_verbose)[1]

    def tell_tables(self, program):
        """Names the tables that a program was made for, but for the kernel's own, which is the first one."""
        name, others = shown(program.name), [str(place) for place in program.tables if place not in (0, "-")]
        if others == ["?"]:
            note(f"program {name} is for tables of the kernel that aren't known")
        elif others:
            note(f"program {name} is for a kernel with the types in place {', '.join(others)} of the plan's tables: where they are "
                 "a module's, it must be loaded")

    def add_program(self, program):
        """Loads a program, or says why it isn't loaded."""
        name = shown(program.name)
        self.tell_tables(program)
        try:
            if program.kind in TARGETS and not self.is_dry and program.name not in self.targets:
                raise Missing("its attach target isn't known")
            log = self.load_program(program)
        except Missing as error:
            self.is_whole = False
            return note(f"program {name} isn't loaded: {error}")
        except Refused as error:
            self.is_whole = False
            note(f"program {name} isn't loaded: {os.strerror(error.errno)}")
            return self.show_log(error.log)
        if not self.is_dry:
            print(f"loaded {label(program.name).decode()}")
        self.show_log(log)

    def load(self):
        """Loads all that the kernel takes, and says whether this is all."""
        if not self.is_dry:
            self.ask()
        if self.plan.types and not self.load_types():
            return False
        for one in self.plan.maps:
            self.add_map(one)
        for program in self.plan.programs:
            self.add_program(program)
        return self.is_whole


class CommandLine(argparse.ArgumentParser):
    """What is wrong with a command line is one line, as other faults are."""

    def error(self, message):
        note(f"{message} (--help shows the usage)")
        self.exit(2)


def program_and_id(word):
    found = re.fullmatch(r"(.+)=([0-9]{1,10})", word, re.DOTALL)
    if not found or int(found[2]) >= 2**32:
        raise argparse.ArgumentTypeError(f"{word!r} isn't PROGRAM=ID")
    return os.fsencode(found[1]), int(found[2])


def command_line():
    parser = CommandLine(allow_abbrev=False, description="Loads what a plan holds into the running kernel.")
    parser.add_argument("--dry-run", action="store_true", help="print the calls of bpf, and make none")
    parser.add_argument("-v", action="store_true", dest="is_verbose", help="show the verifier's whole logs")
    parser.add_argument("--object", metavar="OBJECT", help="the file that the plan was made of, for attach targets")
    parser.add_argument("plan", metavar="PLAN", help="what bpf_prepare printed")
    parser.add_argument("ids", metavar="PROGRAM=ID", nargs="*", type=program_and_id, default=[],
                        help="what a program is attached to, by id")
    return parser.parse_intermixed_args()


def main():
    words = command_line()
    try:
        plan = read_plan(words.plan)
        for name, _ in words.ids:
            if not any(program.name == name and program.kind in TARGETS for program in plan.programs):
                raise ValueError(f"the plan has no program {shown(name)} that takes an id")
        if os.uname().machine not in CALLS and not words.dry_run:
            raise ValueError(f"the number of the call bpf isn't known for {os.uname().machine}")
        targets = targets_of(plan.programs, words.object) if words.object else {}
        targets |= dict(words.ids)
        is_whole = Loader(plan, targets, words.dry_run, words.is_verbose).load()
    except (OSError, ValueError) as error:
        note(error)
        sys.exit(2)
    sys.exit(0 if is_whole else 1)


if __name__ == "__main__":
    main()
