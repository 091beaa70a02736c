"""The calls of include/morvezin.h over a shared object, and the inputs that a program's words stand for."""

import collections
import ctypes
import os
import tomllib

# A kernel's table and whether it is big-endian; what a call is given; what it gives.
Types = collections.namedtuple("Types", "table is_big_endian")
Inputs = collections.namedtuple("Inputs", "object types symbols settings rewrite_first number_maps", defaults=((), b"", b"", False, False))
Answer = collections.namedtuple("Answer", "status kind text")

OK, REFUSED, INVALID_SETTINGS, INVALID_TYPES, OUT_OF_MEMORY, FAILS = range(6)

ADDRESS = ctypes.POINTER(ctypes.c_char)


class Bytes(ctypes.Structure):
    _fields_ = [("data", ctypes.c_void_p), ("len", ctypes.c_size_t)]


class TypesGiven(ctypes.Structure):
    _fields_ = [("table", Bytes), ("is_big_endian", ctypes.c_bool)]


class InputsGiven(ctypes.Structure):
    _fields_ = [
        ("object", Bytes),
        ("types", ctypes.POINTER(TypesGiven)),
        ("types_len", ctypes.c_size_t),
        ("symbols", Bytes),
        ("settings", Bytes),
        ("rewrite_first", ctypes.c_bool),
        ("number_maps", ctypes.c_bool),
    ]


class AnswerGiven(ctypes.Structure):
    _fields_ = [("text", Bytes), ("status", ctypes.c_int32), ("kind", ctypes.c_int32)]


class PutGiven(ctypes.Structure):
    _fields_ = [("len", ctypes.c_size_t), ("status", ctypes.c_int32), ("kind", ctypes.c_int32)]


def bytes_given(data):
    """Bytes as a call takes them. They live as long as the structure, which holds them."""
    held = ctypes.create_string_buffer(data, len(data) + 1)
    given = Bytes(ctypes.addressof(held), len(data))
    given.held = held
    return given


def inputs_given(inputs):
    """Inputs as a call takes them, which hold what they point to."""
    tables = [bytes_given(types.table) for types in inputs.types]
    types = (TypesGiven * max(1, len(tables)))()
    for place, table, one in zip(types, tables, inputs.types):
        place.table, place.is_big_endian = table, one.is_big_endian
    parts = [bytes_given(part) for part in (inputs.object, inputs.symbols, inputs.settings)]
    given = InputsGiven(parts[0], types, len(tables), parts[1], parts[2], inputs.rewrite_first, inputs.number_maps)
    given.held = (parts, tables, types)
    return given


class Library:
    """The shared object of a file."""

    def __init__(self, path):
        self.calls = ctypes.CDLL(path)
        self.free = ctypes.CDLL(None).free
        self.free.argtypes = [ctypes.c_void_p]
        for name in ("prepare", "check", "code"):
            call = getattr(self.calls, "morvezin_" + name)
            call.argtypes, call.restype = [ctypes.POINTER(InputsGiven), ctypes.POINTER(AnswerGiven)], None
        put = self.calls.morvezin_prepare_into
        put.argtypes, put.restype = [ctypes.POINTER(InputsGiven), ADDRESS, ctypes.c_size_t], PutGiven
        self.calls.morvezin_version.restype = ctypes.c_uint32

    def answer(self, name, inputs):
        """The answer of the call of a name, whose text is given back."""
        given, nothing = inputs_given(inputs), bytes_given(b"")
        answer = AnswerGiven(nothing, -1, -1)
        getattr(self.calls, "morvezin_" + name)(given, answer)
        text = ctypes.string_at(answer.text.data, answer.text.len)
        if answer.text.len > 0:
            self.free(answer.text.data)
        return Answer(answer.status, answer.kind, text)

    def prepare(self, inputs):
        return self.answer("prepare", inputs)

    def prepare_into(self, inputs, room):
        """What a call puts into a buffer of a length, and what stands in the buffer and beyond it then, which was 0xaa."""
        buffer = ctypes.create_string_buffer(b"\xaa" * (room + 16), room + 16)
        put = self.calls.morvezin_prepare_into(inputs_given(inputs), buffer, room)
        return put, buffer.raw

    @property
    def version(self):
        return self.calls.morvezin_version()


def quoted(name):
    """A name as a key or a text of TOML."""
    plain = (letter if " " <= letter < "\x7f" and letter not in '"\\' else f"\\U{ord(letter):08X}" for letter in name)
    return '"' + "".join(plain) + '"'


def written(settings):
    """Settings as a TOML document."""
    lines = [f"probe = {str(settings['probe']).lower()}"] if "probe" in settings else []
    lines.append("[maps]")
    lines += [f"{quoted(name)} = {number}" for name, number in settings.get("maps", {}).items()]
    lines.append("[features]")
    lines += [f"{quoted(name)} = {str(is_granted).lower()}" for name, is_granted in settings.get("features", {}).items()]
    for name, value in settings.get("globals", {}).items():
        is_required = str(value.get("required", False)).lower()
        lines += [f"[globals.{quoted(name)}]", f"value = {quoted(value['value'])}", f"required = {is_required}"]
    return "\n".join(lines).encode() + b"\n"


class Line:
    """The words of a command line of `bpf_prepare`, one after the other, and what they set."""

    def __init__(self, folder):
        self.folder = os.fsencode(folder)
        self.files = {}
        self.types = []
        self.flags = set()
        self.order = b"little"
        self.settings = []

    def read(self, name):
        with open(os.path.join(self.folder, name), "rb") as file:
            return file.read()

    def take(self, words):
        words = iter(words)
        for word in words:
            if word in (b"--rewrite-first", b"--number-maps", b"--notes", b"--older-helpers"):
                self.flags.add(word)
            elif word == b"--types":
                self.types.append(next(words))
            elif word == b"--types-order":
                self.order = next(words)
            elif word in (b"--symbols", b"--settings") and word not in self.files:
                self.files[word] = next(words)
            elif word in (b"--map", b"--global", b"--deny"):
                self.settings.append((word, next(words).decode()))
            elif not word.startswith(b"-") and b"object" not in self.files:
                self.files[b"object"] = word
            else:
                raise ValueError(word)

    def document(self, text):
        """The settings of a document, changed by those of the words."""
        if not self.settings and b"--older-helpers" not in self.flags:
            return text
        settings = tomllib.loads(text.decode())
        if b"--older-helpers" in self.flags:
            settings["probe"] = False
        for option, word in self.settings:
            name, _equals, value = word.rpartition("=")
            if option == b"--map":
                settings.setdefault("maps", {})[name] = int(value)
            elif option == b"--global":
                settings.setdefault("globals", {})[name] = {"value": value, "required": True}
            else:
                settings.setdefault("features", {})[word] = False
        return written(settings)

    def inputs(self):
        settings = self.read(self.files[b"--settings"]) if b"--settings" in self.files else b""
        symbols = self.read(self.files[b"--symbols"]) if b"--symbols" in self.files else b""
        tables = [Types(self.read(name), self.order == b"big") for name in self.types]
        is_first, is_numbered = (flag in self.flags for flag in (b"--rewrite-first", b"--number-maps"))
        return Inputs(self.read(self.files[b"object"]), tables, symbols, self.document(settings), is_first, is_numbered)


def inputs_of(words, folder):
    """The inputs that the words of `bpf_prepare` stand for; None for a line that can't be read, or whose files can't."""
    line = Line(folder)
    try:
        line.take(words)
        return line.inputs()
    except (OSError, ValueError, KeyError, StopIteration, RuntimeError):
        return None
