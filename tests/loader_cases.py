"""Plans for the example of a loader, examples/load_plan.py, and a stub of the kernel's call bpf that it is run over.

CASES are for the stub, RUNNING for the kernel that the tests run on.
"""

import collections
import contextlib
import ctypes
import errno
import importlib.util
import io
import os
import resource
import struct
import sys
import traceback
from unittest import mock

RETURN_ZERO = "b7000000000000009500000000000000"
# A callback's address, and a call of it by the helper 181 (bpf_loop); only that there is an address counts.
LOADS_FUNCTION = "184000000000000000000000000000009500000000000000"
USES_MAP_1 = "18110000010000000000000000000000" + RETURN_ZERO
# Returns where the first word of map 1 is 0, and else calls a helper that no kernel has.
TRUSTS_MAP_1 = "182100000100000000000000000000006110000000000000" "1500010000000000" "850000001023ad0b" "9500000000000000"


def hexed(text):
    return text.encode().hex() or "-"


def a_map(name, number, kind=2, key=4, value=4, most=1, flags=0, types="0 0", content="-"):
    return f"map {hexed(name)} {number} btf {kind} {key} {value} {most} {flags} 0 0 0 {types} {content}"


def program(name, slots=RETURN_ZERO, kind="1 0 0", tables="-"):
    return f"program {hexed(name)} {kind}\nslots {slots}\ntables {tables}"


def types_of(*names):
    """Types with an INT for each name, in hexadecimal."""
    strings, records = b"\0", b""
    for name in names:
        records += struct.pack("<IIII", len(strings), 1 << 24, 4, 32)
        strings += name.encode() + b"\0"
    header = struct.pack("<HBBIIIII", 0xEB9F, 1, 0, 24, 0, len(records), len(records), len(strings))
    return "types " + (header + records + strings).hex()


def function_types(name):
    """A kernel's types: a prototype, and the function 2 of it."""
    records = struct.pack("<III", 0, 13 << 24, 0) + struct.pack("<III", 1, 12 << 24 | 1, 1)
    strings = b"\0" + name.encode() + b"\0"
    return struct.pack("<HBBIIIII", 0xEB9F, 1, 0, 24, 0, len(records), len(records), len(strings)) + records + strings


def object_with(section):
    """A little-endian object whose only function, trace_unlink, stands in a section."""
    strings = b"\0trace_unlink\0" + section.encode() + b"\0"
    symbols = bytes(24) + struct.pack("<IBBHQQ", 1, 0x12, 0, 3, 0, 16)
    sections = [
        (0,) * 10,
        (0, 3, 0, 0, 64, len(strings), 0, 0, 1, 0),  # SHT_STRTAB
        (0, 2, 0, 0, 64 + len(strings), len(symbols), 1, 1, 8, 24),  # SHT_SYMTAB
        (strings.index(section.encode()), 1, 6, 0, 64, 0, 0, 0, 8, 0),  # SHT_PROGBITS
    ]
    table = 64 + len(strings) + len(symbols)
    header = struct.pack("<16sHHIQQQIHHHHHH", b"\x7fELF\2\1\1", 1, 247, 1, 0, 0, table, 0, 64, 0, 0, 64, len(sections), 1)
    return header + strings + symbols + b"".join(struct.pack("<IIQQQQIIQQ", *words) for words in sections)


def plan_of(lines, first=("bpf-plan 2", "license 47504c", "version any"), last=("end",)):
    return "\n".join([*first, *lines, *last, ""])


class Kernel:
    """Answers bpf as a kernel of a version would, and keeps what it is asked as lines."""

    def __init__(self, version=(6, 18), refuses=None, machine="x86_64", log=b"processed 2 insns\n", has_limit=True):
        self.version, self.refuses, self.machine, self.log, self.has_limit = version, refuses or {}, machine, log, has_limit
        self.lines, self.names = [], {}

    def uname(self):
        release = ".".join(map(str, self.version)) + ".0"
        return os.uname_result(("Linux", "stub", release, "#1", self.machine))

    def setrlimit(self, limit, wanted):
        self.lines.append(f"setrlimit {limit == resource.RLIMIT_MEMLOCK} {wanted}")
        if not self.has_limit:
            raise ValueError("not allowed to raise maximum limit")

    def syscall(self, _call, command, attributes, size):
        """Answers a call: a file descriptor, or -1 and the cause."""
        known = {
            0: ("MAP_CREATE", [((4, 15), 28), ((4, 18), 48)], self.map_create),
            2: ("MAP_UPDATE_ELEM", [], self.about_map),
            5: ("PROG_LOAD", [((4, 15), 48), ((5, 0), 72)], self.prog_load),
            18: ("BTF_LOAD", [], self.btf_load),
            22: ("MAP_FREEZE", [], self.about_map),
        }
        name, sizes, answer = known[command]
        words = attributes.raw[:size].ljust(120, b"\0")
        text, error = answer(words)
        self.lines.append(f"{name} {text}".rstrip())
        if any(self.version < since and any(words[size:]) for since, size in sizes):
            error = errno.E2BIG
        for start, number in self.refuses.items():
            error = number if self.lines[-1].startswith(start) else error
        if error:
            ctypes.set_errno(error)
            return -1
        if command == 0:
            self.names[len(self.lines)] = words[28:44].rstrip(b"\0").decode()
        return len(self.lines)

    def map_create(self, words):
        kind, most, types, key, value = (struct.unpack_from("<I", words, at)[0] for at in (0, 12, 48, 52, 56))
        name = words[28:44].rstrip(b"\0").decode() or "-"
        is_ring = kind in (27, 31)
        error = errno.EINVAL if is_ring and (most < 4096 or most & most - 1) else 0
        return f"{name} type {kind} entries {most} types {types > 0} {key} {value}", error

    def about_map(self, words):
        return self.names[struct.unpack_from("<I", words)[0]], 0

    def btf_load(self, words):
        return f"{struct.unpack_from('<I', words, 16)[0]} bytes", errno.EINVAL if self.version < (4, 18) else 0

    def prog_load(self, words):
        code, _license, level, _size, log = struct.unpack_from("<QQIIQ", words, 8)
        types, size, records, count, line_size, lines, line_count, target = struct.unpack_from("<IIQIIQII", words, 72)
        error = errno.EINVAL if ctypes.string_at(code, 1) == b"\x85" and self.version < (5, 11) else 0
        if level:
            ctypes.memmove(log, self.log + b"\0", len(self.log) + 1)
            error = errno.ENOSPC if len(self.log) > 1000 else error
        name = words[48:64].rstrip(b"\0").decode() or "-"
        records = f"{size} {records > 0} {count} {line_size} {lines > 0} {line_count}"
        return f"{name} type {words[0]} target {target} records {types > 0} {records}", error


def loader_module(path):
    spec = importlib.util.spec_from_file_location("load_plan", path)
    module = importlib.util.module_from_spec(spec)
    spec.loader.exec_module(module)
    return module


def run(loader, words, kernel, folder):
    """Runs the loader over a kernel: its status, and what it wrote on both outputs."""
    module = loader_module(loader)
    module.KERNEL_TYPES, module.POSSIBLE_PROCESSORS = (os.path.join(folder, name) for name in ("kernel", "possible"))
    out, err, status = io.StringIO(), io.StringIO(), None
    with contextlib.ExitStack() as stack:
        stack.enter_context(contextlib.redirect_stdout(out))
        stack.enter_context(contextlib.redirect_stderr(err))
        for place, name, stub in (
            (sys, "argv", [loader, *words]),
            (ctypes, "CDLL", lambda *_, **__: kernel),
            (os, "uname", kernel.uname),
            (os, "sysconf", {"SC_PAGE_SIZE": 4096, "SC_NPROCESSORS_CONF": 4}.get),
            (resource, "setrlimit", kernel.setrlimit),
        ):
            stack.enter_context(mock.patch.object(place, name, stub))
        try:
            module.main()
        except SystemExit as end:
            status = end.code
        except Exception:  # what Python would print
            traceback.print_exc()
    return status, out.getvalue(), err.getvalue()


def written(case, folder):
    """Writes a case's files into a folder, and gives its words with their paths."""
    files = {
        "kernel": function_types("f"),
        "possible": b"0-3,8\n",
        "PLAN": (case.plan if isinstance(case.plan, str) else plan_of(case.plan)).encode(),
        "OBJECT": case.object if isinstance(case.object, bytes) else object_with(case.object),
    }
    for name, content in files.items():
        with open(os.path.join(folder, name), "wb") as file:
            file.write(content)
    return [os.path.join(folder, word) if word in files else word for word in case.words]


# What is run: the plan's lines, or its whole text; the words beside it; the kernel; the section of the program in the object,
# or the object's bytes. Then the status, and what must stand in the calls and outputs, and what must not.
Case = collections.namedtuple(
    "Case", "name plan status has lacks words kernel object", defaults=((), (), ("PLAN",), {}, "kprobe/do_unlinkat")
)
RECORDS = "func 0 1\nline 0 1 1 1024"
NO_RECORDS = "target 0 records False 0 False 0 0 False 0\n"
ONE = [program("f")]
TRACED = [program("trace_unlink", kind="21 0 0"), program("z")]
WITH_OBJECT = ("--object", "OBJECT", "PLAN")

MAPS = (
    Case("only a map with bytes and the flag is frozen",
         [a_map("a", 1, flags=128), a_map("b", 2, flags=128, content="01000000"), a_map("c", 3, content="01000000")],
         0, ["MAP_UPDATE_ELEM b\nMAP_FREEZE b\n"], ["MAP_FREEZE a", "MAP_FREEZE c"]),
    Case("a refused freeze", [a_map("m", 1, flags=128, content="01000000"), *ONE],
         1, ["map m isn't made: Operation not permitted", "loaded f"], kernel={"refuses": {"MAP_FREEZE": errno.EPERM}}),
    Case("a refused map", [a_map("bad", 1), program("f", USES_MAP_1), program("g")],
         1, ["map bad isn't made: Invalid argument", "program f isn't loaded: its map bad isn't made\n", "loaded g"],
         ["PROG_LOAD f"], kernel={"refuses": {"MAP_CREATE bad": errno.EINVAL}}),
    Case("a map that the plan hasn't got", [program("f", USES_MAP_1), program("g")], 1, ["names the map 1", "loaded g"]),
    Case("possible processors", [a_map("events", 1, 4, most=0)], 0, ["events type 4 entries 5 "]),
    Case("ring buffers",
         [a_map("a", 1, 27, 0, 0, 1), a_map("b", 2, 27, 0, 0, 8192), a_map("c", 3, 31, 0, 0, 8193),
          a_map("d", 4, 12) + "\ninner 27 0 0 5000 0 0 0 0 0 0"],
         0, ["a type 27 entries 4096 ", "b type 27 entries 8192 ", "c type 31 entries 16384 ", "- type 27 entries 8192 "]),
    Case("ring buffers of sizes that can't be", [a_map("a", 1, 27, 0, 0, 0), a_map("b", 2, 27, 0, 0, 2**32 - 1), *ONE],
         1, ["a type 27 entries 0 ", f"b type 27 entries {2**32 - 1} ", "loaded f"]),
)
KERNELS = (
    Case("no records", [types_of("t"), program("f"), program("g") + "\n" + RECORDS],
         0, ["PROG_LOAD f type 2 " + NO_RECORDS, "PROG_LOAD g type 2 target 0 records True 8 True 1 16 True 1\n"]),
    Case("before 5.0", [a_map("m", 1), *ONE], 0, ["MAP_CREATE m ", "loaded f"], kernel={"version": (4, 19)}),
    Case("before 4.15", [a_map("m", 1), *ONE],
         0, ["MAP_CREATE - ", "PROG_LOAD - type 2 ", "loaded f"], ["MAP_CREATE m"], kernel={"version": (4, 14)}),
    Case("before 5.11", ONE, 0, ["setrlimit True (-1, -1)\n", "loaded f"], kernel={"version": (5, 10)}),
    Case("a limit that stays", ONE, 0, ["setrlimit True", "loaded f"], kernel={"version": (5, 10), "has_limit": False}),
    Case("from 5.11 on", ONE, 0, ["PROG_LOAD load_plan ", "loaded f"], ["setrlimit"], kernel={"version": (5, 11)}),
    Case("another machine", ONE, 2, ["m68k"], ["PROG_LOAD"], kernel={"machine": "m68k"}),
    Case("refused types that nothing needs",
         ["feature Func yes\nfeature Enum64 no", types_of("t"), a_map("m", 1, types="1 1"), program("f") + "\n" + RECORDS],
         0, ["goes on without types and records", "Func yes, Enum64 no", "MAP_CREATE - type 2 entries 1 types False 0 0\n",
             "PROG_LOAD - type 2 " + NO_RECORDS, "loaded f"], kernel={"version": (4, 14)}),
    Case("types that aren't permitted", ["feature Func yes", types_of("t"), *ONE],
         1, ["types aren't loaded: Operation not permitted"], ["PROG_LOAD f", "Func yes"],
         kernel={"refuses": {"BTF_LOAD": errno.EPERM}}),
)
# What needs types, and the lines about it.
NEED_TYPES = (
    ("map store", [a_map("store", 1, 29, most=0, types="1 1"), *ONE]),
    ("a value with bpf_timer", [a_map("m", 1, types="1 2"), *ONE]),
    ("program callback", [program("callback", LOADS_FUNCTION)]),
    ("program extends", [program("extends", kind="24 0 0")]),
)
PROGRAMS = (
    Case("a target of vmlinux", TRACED, 0, ["PROG_LOAD trace_unlink type 26 target 2 ", "loaded trace_unlink"], words=WITH_OBJECT,
         object="fentry/vmlinux:f"),
    Case("a target of a module", TRACED, 1, ["is for f of the module ext4", "loaded z"], ["PROG_LOAD trace"], words=WITH_OBJECT,
         object="fentry/ext4:f"),
    Case("a program that the object hasn't got", [program("f", kind="21 0 0"), program("z")],
         1, ["f has no attach target", "loaded z"], words=WITH_OBJECT),
    Case("later tables", [program("f", tables="0 2"), program("g", tables="?"), program("h", tables="0")],
         0, ["program f is for a kernel with the types in place 2 ", "program g is for tables of the kernel that aren't known"],
         ["program h"]),
    Case("the log of success", TRACED, 0, ["loaded trace_unlink\n", "  processed 2 insns\n"],
         words=("PLAN", "trace_unlink=2", "-v")),
    Case("a log that is too long", ONE, 0, ["loaded f\n", "  first\n"], words=("-v", "PLAN"),
         kernel={"log": b"first\n" + b"long\n" * 1000}),
    Case("answers by -v", ["feature Func yes", types_of("t"), *ONE], 0, ["a kernel with Func yes\n"], words=("-v", "PLAN")),
    Case("help", ONE, 0, ["usage: load_plan.py "], ["PROG_LOAD"], words=("--help",)),
    Case("a short call of help", ONE, 0, ["usage: load_plan.py "], ["PROG_LOAD"], words=("PLAN", "-h")),
)
# Command lines, objects and plans that are wrong, and what the one line says of them.
WRONG_WORDS = (
    (("PLAN", "none=2"), "no program none that takes an id"),
    (("PLAN", "z=2"), "no program z that takes an id"),
    (("PLAN", "trace_unlink=x"), "'trace_unlink=x' isn't PROGRAM=ID"),
    (("PLAN", f"trace_unlink={2**32}"), "isn't PROGRAM=ID"),
    (("PLAN", "trailing"), "'trailing' isn't PROGRAM=ID"),
    (("PLAN", "--object"), "argument --object"),
    (("PLAN", "--dry"), "--dry"),
    ((), "are required: PLAN ("),
)
ELF = b"\x7fELF\2\1\1".ljust(64, b"\0")
WRONG_OBJECTS = (
    ("that is empty", b"", "no ELF"),
    ("that is text", b"text", "no ELF"),
    ("of half a header", ELF[:20], "no ELF"),
    ("that is big-endian", ELF[:5] + b"\2" + ELF[6:], "little-endian"),
    ("of 32 bits", ELF[:4] + b"\1" + ELF[5:], "64 bits"),
    ("for x86", ELF[:18] + b"\x3e" + ELF[19:], "machine 62"),
    ("that is cut off", ELF[:41] + b"\1".ljust(19, b"\0") + b"\1\0\0\0", "broken"),
)
WRONG_PLANS = (
    ("an unknown kind", [program("f", kind="30 0 0")], "kind 30"),
    ("an unknown field", [program("f", kind="6 0 3")], "kind 6"),
    ("a flag of 2", [program("f", kind="21 2 0")], "kind 21"),
    ("a field too many", [program("f", kind="1 0 1")], "kind 1"),
    ("trailing words", [*ONE, "func 0 1 2"], "line 7"),
    ("missing words", [*ONE, "line 0"], "line 7"),
    ("an unknown line", ["maps 1"], "line 4"),
    ("no hexadecimal", ["license xy"], "line 4"),
    ("no number", ["version x"], "line 4"),
    ("a large number", ["version 4294967296"], "line 4"),
    ("trailing tables", [program("f", tables="- 0")], "line 6"),
    ("records before programs", [RECORDS], "line 4"),
    ("half a slot", [program("f", slots="95")], "line 5"),
    ("big-endian types", ["types eb9f0100", *ONE], "big-endian"),
    ("a line after its end", plan_of(ONE) + "end\n", "line 8"),
    ("no end", plan_of(ONE, last=()), "cut off"),
    ("another first line", "text\n", "no plan"),
    ("another version", plan_of(ONE, first=["bpf-plan 3"]), "no plan"),
    ("no lines", "", "no plan"),
)
CASES = (
    *MAPS,
    *KERNELS,
    *(Case(f"refused types that {needed} needs", [types_of("t", "bpf_timer"), *lines],
           1, ["types aren't loaded: Invalid argument: BPF_BTF_LOAD", f": {needed} needs them"], ["MAP_CREATE", "loaded "],
           kernel={"refuses": {"BTF_LOAD": errno.EINVAL}}) for needed, lines in NEED_TYPES),
    *PROGRAMS,
    *(Case(f"words {' '.join(words)}", TRACED, 2, [told], ["PROG_LOAD"], words=words) for words, told in WRONG_WORDS),
    *(Case(f"an object {name}", TRACED, 2, [told], ["PROG_LOAD"], words=WITH_OBJECT, object=elf)
      for name, elf, told in WRONG_OBJECTS),
    *(Case(f"a plan with {name}", plan, 2, [told], ["PROG_LOAD"]) for name, plan, told in WRONG_PLANS),
)

# The same for the running kernel, with its verdicts of programs in the place of what is told.
Running = collections.namedtuple("Running", "name plan verdicts words object", defaults=(WITH_OBJECT, "kprobe/do_unlinkat"))
RUNNING = (
    Running("maps that are only read", [a_map("with", 1, flags=128, content="00000000"), a_map("without", 2, flags=128),
            program("f", TRUSTS_MAP_1), program("g", TRUSTS_MAP_1.replace("01", "02", 1))],
            {"f": "loads", "g": "refused invalid func unknown#195896080"}),
    Running("a ring buffer", [a_map("m", 1, 27, 0, 0, 5000), program("f", USES_MAP_1)], {"f": "loads"}),
    Running("a refused map", [a_map("m", 1, 999), program("f", USES_MAP_1), program("g")],
            {"f": "refused its map m isn't made", "g": "loads"}),
    Running("a target of vmlinux", [program("trace_unlink", kind="21 0 0")], {"trace_unlink": "loads"},
            object="fentry/vmlinux:vfs_read"),
    Running("a point of vmlinux", [program("trace_unlink", kind="20 0 0")], {"trace_unlink": "loads"},
            object="tp_btf/vmlinux:task_newtask"),
    Running("the log of success", ONE, {"f": "loads"}, words=("-v", *WITH_OBJECT)),
)
