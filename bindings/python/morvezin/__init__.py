"""Load plans of eBPF objects, made by the library libmorvezin, which is proved.

>>> import morvezin
>>> try:
...     morvezin.prepare(b"no object")
... except morvezin.Refused as refused:
...     print(refused.kind.name)
OBJECT
"""

import ctypes
import ctypes.util
import enum
import functools
import os
from typing import List, NamedTuple, Sequence, Tuple, Union

__all__ = ["Check", "Kind", "Refused", "check", "code", "prepare", "version"]

_HERE = os.path.dirname(os.path.abspath(__file__))
_NAME = "libmorvezin.so"
# Where the library is beside the package's files, and in the repository.
_PLACES = (_HERE, os.path.join(_HERE, "..", "..", "..", "crates", "morvezin", "out"))


class Kind(enum.IntEnum):
    """What is at fault. Numbers below 1000 are those of `enum morvezin_kind`, the others 1000 and one of `enum morvezin_status`."""

    OBJECT = 1
    """The object can't be parsed, or the value of a global variable can't be put into its maps."""
    FUNCTION_TYPE = 2
    """A record of a function names a type that is no function with a name."""
    MAP_NUMBER = 3
    """A map has no number."""
    TYPES_REQUIRED = 4
    """The object has type relocations, and there are no kernel types."""
    EXTERN = 5
    """An extern can't be resolved by the kernel's types and symbols."""
    TYPE_RELOCATION = 6
    """A type relocation can't be made."""
    OBJECT_TYPES = 7
    """The object's types can't be rewritten to the kernel's features."""
    RELOCATION = 8
    """An instruction can't be relocated, or a program not be linked."""
    INVALID_SETTINGS = 1002
    """The settings are no settings."""
    INVALID_TYPES = 1003
    """A table of the kernel's types is invalid."""


class Refused(Exception):
    """There is no plan. The exception's text says why."""

    kind: Union[Kind, int]
    """What is at fault: a number where a later version of the library has a kind that isn't in `Kind`."""
    message: str

    def __init__(self, kind: Union[Kind, int], message: str) -> None:
        super().__init__(message)
        self.kind = kind
        self.message = message


class Check(NamedTuple):
    """What `check` says."""

    takes: bool
    """Whether the kernel takes the object, as far as the check knows."""
    report: str
    """The report, a JSON document (docs/FORMATS.md, "What `inspect_object --types` prints")."""


# The structures and statuses of include/morvezin.h.
_OK, _REFUSED, _INVALID_SETTINGS, _INVALID_TYPES, _OUT_OF_MEMORY, _FAILS = range(6)


class _Bytes(ctypes.Structure):
    _fields_ = [("data", ctypes.c_void_p), ("len", ctypes.c_size_t)]


class _Types(ctypes.Structure):
    _fields_ = [("table", _Bytes), ("is_big_endian", ctypes.c_bool)]


class _Inputs(ctypes.Structure):
    _fields_ = [
        ("object", _Bytes),
        ("types", ctypes.POINTER(_Types)),
        ("types_len", ctypes.c_size_t),
        ("symbols", _Bytes),
        ("settings", _Bytes),
        ("rewrite_first", ctypes.c_bool),
        ("number_maps", ctypes.c_bool),
    ]


class _Answer(ctypes.Structure):
    _fields_ = [("text", _Bytes), ("status", ctypes.c_int32), ("kind", ctypes.c_int32)]


def _path() -> str:
    named = os.environ.get("MORVEZIN_LIBRARY")
    if named:
        return named
    for place in _PLACES:
        path = os.path.join(place, _NAME)
        if os.path.exists(path):
            return path
    return ctypes.util.find_library("morvezin") or _NAME


@functools.lru_cache(maxsize=None)
def _library() -> ctypes.CDLL:
    library = ctypes.CDLL(_path())
    for name in ("morvezin_prepare", "morvezin_check", "morvezin_code"):
        call = getattr(library, name)
        call.argtypes, call.restype = [ctypes.POINTER(_Inputs), ctypes.POINTER(_Answer)], None
    library.morvezin_version.restype = ctypes.c_uint32
    # An answer's text is of malloc.
    library.free.argtypes, library.free.restype = [ctypes.c_void_p], None
    return library


def _bytes_of(kept: List[ctypes.c_char_p], data: bytes) -> _Bytes:
    """Bytes for a call, which stay as long as they are kept. Their pointer is never null."""
    at = ctypes.c_char_p(data if isinstance(data, bytes) else bytes(memoryview(data)))
    kept.append(at)
    return _Bytes(ctypes.cast(at, ctypes.c_void_p), len(data))


def _call(name: str, object: bytes, types: Sequence[bytes], symbols: bytes, settings: str, rewrite_first: bool,
          number_maps: bool) -> Tuple[int, int, bytes]:
    """Makes a call of the library: the status, the kind, and the text."""
    library, kept, answer = _library(), [], _Answer()
    tables = (_Types * max(1, len(types)))()
    for place, table in enumerate(types):
        tables[place] = _Types(_bytes_of(kept, table), table[:2] == b"\xeb\x9f")
    inputs = _Inputs(_bytes_of(kept, object), tables, len(types), _bytes_of(kept, symbols),
                     _bytes_of(kept, settings.encode()), rewrite_first, number_maps)
    getattr(library, name)(ctypes.byref(inputs), ctypes.byref(answer))
    text = ctypes.string_at(answer.text.data, answer.text.len) if answer.text.len else b""
    if answer.text.len:
        library.free(answer.text.data)
    return answer.status, answer.kind, text


def _text(status: int, kind: int, text: bytes) -> bytes:
    """The text that was asked for, or an exception where there is none."""
    if status == _OK:
        return text
    if status == _OUT_OF_MEMORY:
        raise MemoryError("out of memory")
    number = kind if status == _REFUSED else 1000 + status
    is_known = number in set(Kind)
    raise Refused(Kind(number) if is_known else number, text.decode(errors="replace"))


def prepare(object: bytes, types: Sequence[bytes] = (), symbols: bytes = b"", settings: str = "", rewrite_first: bool = False,
            *, number_maps: bool = False) -> bytes:
    """Makes the plan of an object, and gives its text (docs/FORMATS.md, "The text of a plan").

    `types` are tables of the kernel's types (BTF), in either byte order, that of vmlinux first; `symbols` is the text of
    /proc/kallsyms, `settings` a TOML document. With `rewrite_first` the object's types are rewritten to the kernel's features
    before type relocations are resolved in them. With `number_maps` each map without a number in the settings gets one.

    Raises `Refused` where there is no plan, and `MemoryError` where memory runs out. Other threads run meanwhile.
    """
    return _text(*_call("morvezin_prepare", object, types, symbols, settings, rewrite_first, number_maps))


def check(object: bytes, types: Sequence[bytes] = (), symbols: bytes = b"") -> Check:
    """Checks whether a kernel takes an object. Without symbols, the kernel counts as one that has all that the object needs.

    Raises `Refused` where the object can't be parsed or a table of types is invalid, and `MemoryError`.
    """
    status, kind, text = _call("morvezin_check", object, types, symbols, "", False, False)
    report = text if status == _FAILS else _text(status, kind, text)
    return Check(status != _FAILS, report.decode())


def code(object: bytes, types: Sequence[bytes] = (), symbols: bytes = b"") -> str:
    """Lists the instructions of an object's programs as they would be loaded (docs/FORMATS.md, "What `inspect_object --code`
    prints"). Raises what `prepare` raises."""
    return _text(*_call("morvezin_code", object, types, symbols, "", False, False)).decode()


def version() -> Tuple[int, int, int]:
    """The version of the library: major, minor and patch."""
    number = _library().morvezin_version()
    return number // 1000000, number // 1000 % 1000, number % 1000
