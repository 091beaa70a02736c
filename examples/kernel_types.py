#!/usr/bin/env python3
"""Makes files of types and symbols from kernels: kernel_types.py [--output FOLDER] IMAGE..

IMAGE is a package (.deb or .rpm), a compressed kernel (vmlinuz, Image.gz, vmlinux.xz) or a vmlinux. For each, FOLDER gets
NAME.btf, which holds the same bytes as /sys/kernel/btf/vmlinux on that kernel, and NAME.symbols, a text as /proc/kallsyms
has it. NAME is the kernel's version. So the folder can be given to inspect_object:

    inspect_object OBJECT --check --types FOLDER --symbols FOLDER

Symbols come from the file System.map in the package or beside the image, or else from the image's own symbol table. An image
without either gets no file of symbols, and a line says so.

Each file that is written is a line on standard output. Faults are lines on standard error. The status is 0 where each image
gave its types, 1 where one didn't, and 2 where the command line is wrong. Payloads packed by zstd or lz4 need these tools.
"""
import argparse
import bz2
import contextlib
import gzip
import hashlib
import io
import lzma
import mmap
import os
import re
import shutil
import struct
import subprocess
import sys
import tarfile
import tempfile
import zlib

# How packed bytes begin, as scripts/extract-vmlinux of the kernel has it.
MAGICS = {"gzip": b"\x1f\x8b\x08", "xz": b"\xfd7zXZ\0", "bzip2": b"BZh", "lzma": b"\x5d\0\0\0", "lz4": b"\x02\x21\x4c\x18",
          "zstd": b"\x28\xb5\x2f\xfd"}
A_MAGIC = re.compile(b"|".join(re.escape(magic) for magic in MAGICS.values()))
# How they are unpacked: by Python's modules, or by a tool of the same name.
UNPACKERS = {
    "gzip": lambda: zlib.decompressobj(wbits=31),
    "xz": lambda: lzma.LZMADecompressor(lzma.FORMAT_XZ),
    "bzip2": bz2.BZ2Decompressor,
    "lzma": lambda: lzma.LZMADecompressor(lzma.FORMAT_ALONE),
}
READERS = {"gzip": lambda file: gzip.GzipFile(fileobj=file), "xz": lzma.LZMAFile, "bzip2": bz2.BZ2File, "lzma": lzma.LZMAFile}
# The largest kernel that is unpacked, and as many bytes as show whether they are packed.
LARGEST, FIRST = 2**31, 2**12
DAMAGES = (EOFError, OSError, ValueError, lzma.LZMAError, tarfile.TarError, zlib.error)

# The files of a package: kernels, those with a symbol table first, and lists of symbols.
FOLDERS = r"(?:\./|/)?(?:boot|(?:usr/)?lib/modules/[^/]+|usr/lib/debug(?:/[^/]+)*)"
A_KERNEL = re.compile(FOLDERS + r"/vmlinu([xz])(?:-[^/]+)?(?:\.(?:gz|xz|zst|bz2|lz4))?")
A_MAP = re.compile(FOLDERS + r"/System\.map(?:-[^/]+)?")
# What the packages of Debian have in the place of a list of symbols.
STUB = b"The real System.map is in "

VERSION = re.compile(rb"Linux version ([0-9][0-9A-Za-z.+~_-]*) ")
BTF_MAGIC = re.compile(rb"\x9f\xeb\x01|\xeb\x9f\x01")
BTF_HEADER = "HBBIIIII"
NO_TYPES = ("has no BTF: it was built without CONFIG_DEBUG_INFO_BTF. Take a kernel with this option, or make the types from its "
            "debug information: pahole --btf_encode_detached NAME.btf VMLINUX")

# By the class of an ELF file: the header from e_type on, a section header, a symbol, and the order of a symbol's words.
ELF_FORMS = {1: ("HHIIIIIHHHHHH", "10I", "IIIBBH", (0, 3, 5, 1)), 2: ("HHIQQQIHHHHHH", "IIQQQQIIQQ", "IBBHQQ", (0, 1, 3, 4))}
ELF_ORDERS = {1: "<", 2: ">"}
SYMBOL_TABLE, NO_BITS = 2, 8  # SHT_SYMTAB, SHT_NOBITS
WRITTEN, LOADED, EXECUTED = 1, 2, 4  # SHF_WRITE, SHF_ALLOC, SHF_EXECINSTR
ABSOLUTE, RESERVED = 0xfff1, 0xff00  # SHN_ABS, SHN_LORESERVE
OBJECT, SECTION, FILE = 1, 3, 4  # STT_OBJECT, STT_SECTION, STT_FILE
LOCAL, WEAK = 0, 2  # STB_LOCAL, STB_WEAK
# How names begin that System.map doesn't have either, nor has it local absolute symbols (scripts/mksysmap of the kernel).
LEFT_OUT = (b"$", b".L", b"__crc_", b"__kstrtab")


class ImageError(Exception):
    """Why an image gives no types."""


def note(text):
    print(f"{os.path.basename(sys.argv[0])}: {text}", file=sys.stderr)


def cause_of(error):
    """What an error says, in one line."""
    text = error.strerror if isinstance(error, OSError) and error.strerror else str(error)
    return " ".join(text.split()) or type(error).__name__


# Packed bytes.
def tool_for(packing):
    """The path of the tool that unpacks."""
    path = shutil.which(packing)
    if not path:
        raise ImageError(f"is packed by {packing}, and the tool {packing} isn't installed")
    return path


def packing_of(first):
    """How bytes are packed that begin so; nothing where they aren't."""
    return next((name for name, magic in MAGICS.items() if first.startswith(magic)), None)


def can_begin(packing, first):
    """Whether packed bytes may begin so: a magic number stands in other places too."""
    if packing in UNPACKERS:
        try:
            UNPACKERS[packing]().decompress(first, 64)
        except DAMAGES:
            return False
    return True


def unpacked(packing, data):
    """What packed bytes hold, and whether they are all there. Other bytes may follow, as the unpacked size does in a vmlinuz."""
    if packing in UNPACKERS:
        unpacker = UNPACKERS[packing]()
        try:
            return unpacker.decompress(data, LARGEST), unpacker.eof
        except DAMAGES:
            return b"", False
    # The tools end with an error where something follows; what they wrote until then is whole.
    run = subprocess.run([tool_for(packing), "-d", "-c"], input=data, capture_output=True, check=False)
    return run.stdout, b"premature end" not in run.stderr


def is_kernel(data):
    """Whether bytes are a kernel that isn't packed: a vmlinux, or an image that is loaded as it is."""
    return data[:4] == b"\x7fELF" or VERSION.search(data) is not None


def is_packed(image):
    """Whether an image is packed bytes, or begins with a program that unpacks them, by the headers of x86 and of EFI (zboot)."""
    return packing_of(image[:8]) is not None or image[0x202:0x206] == b"HdrS" or image[4:8] == b"zimg"


def payload_of(image):
    """The kernel in a file: the file itself where it is a vmlinux, what is packed in it, or else an image that isn't packed."""
    if image[:4] == b"\x7fELF":
        return image
    missing = None
    for packing, place in [(packing_of(found[0]), found.start()) for found in A_MAGIC.finditer(image)]:
        if not can_begin(packing, image[place : place + FIRST]):
            continue
        try:
            data, is_whole = unpacked(packing, image[place:])
        except ImageError as error:
            missing = missing or error
            continue
        if is_kernel(data):
            if not is_whole:
                raise ImageError(f"is truncated: the kernel in it, packed by {packing}, isn't whole")
            return data
    if not is_packed(image) and is_kernel(image):
        return image
    raise missing or ImageError("isn't a package or a kernel, or is damaged: no kernel can be unpacked from it")


# Packages.
class Part(io.RawIOBase):
    """The next bytes of a file, as a file of its own."""

    def __init__(self, file, size):
        super().__init__()
        self.file, self.left = file, size

    def readable(self):
        return True

    def readinto(self, buffer):
        data = self.file.read(min(len(buffer), self.left))
        buffer[: len(data)] = data
        self.left -= len(data)
        return len(data)


def exactly(file, size):
    """The next bytes of a file, which must have as many."""
    data = file.read(size)
    if len(data) != size:
        raise EOFError("it ends too early")
    return data


@contextlib.contextmanager
def reading_by_tool(packing, file):
    """A file of what a tool unpacks. The tool must come to a good end."""
    with tempfile.TemporaryFile() as packed:
        shutil.copyfileobj(file, packed)
        packed.seek(0)
        command = [tool_for(packing), "-d", "-c"]
        with subprocess.Popen(command, stdin=packed, stdout=subprocess.PIPE, stderr=subprocess.DEVNULL) as process:
            yield process.stdout
        if process.returncode != 0:
            raise EOFError(f"{packing} can't unpack it")


@contextlib.contextmanager
def reading(file):
    """A file of what a file holds, unpacked where it is packed."""
    packing = packing_of(file.peek(8))
    if packing in READERS:
        with READERS[packing](file) as unpacking:
            yield unpacking
    elif packing:
        with reading_by_tool(packing, file) as unpacking:
            yield unpacking
    else:
        yield file


def to_data_of_deb(file):
    """Goes to the files of a Debian package (deb(5)), and gives their size."""
    file.seek(8)
    while True:
        header = exactly(file, 60)
        size = int(header[48:58])
        if size < 0:
            raise ValueError("a file in it has a wrong size")
        if header.startswith(b"data.tar"):
            return size
        file.seek(size + size % 2, os.SEEK_CUR)


def to_data_of_rpm(file):
    """Goes to the files of an RPM package, behind its lead, its signature and its header, and gives their size."""
    file.seek(96)
    for name in ("signature", "header"):
        # A header begins at a multiple of eight bytes.
        file.seek(-file.tell() % 8, os.SEEK_CUR)
        magic, entries, size = struct.unpack(">8sII", exactly(file, 16))
        if not magic.startswith(b"\x8e\xad\xe8\x01"):
            raise ValueError(f"its {name} is wrong")
        file.seek(16 * entries + size, os.SEEK_CUR)
    return max(0, os.fstat(file.fileno()).st_size - file.tell())


def files_of_tar(file):
    """The names and files in a tar."""
    with tarfile.open(fileobj=file, mode="r|") as archive:
        for member in archive:
            if member.isfile():
                yield member.name, archive.extractfile(member)


def files_of_cpio(file):
    """The names and files in an archive of cpio, of the form `newc`."""
    while True:
        header = exactly(file, 110)
        if header[:6] not in (b"070701", b"070702"):
            raise ValueError("it isn't an archive of cpio")
        size, name_size = int(header[54:62], 16), int(header[94:102], 16)
        name = exactly(file, name_size + -(110 + name_size) % 4)[: name_size - 1]
        if name == b"TRAILER!!!":
            return
        part = Part(file, size)
        yield os.fsdecode(name), part
        exactly(file, part.left + -size % 4)


# The packages by how they begin.
PACKAGES = {b"!<arch>\n": (to_data_of_deb, files_of_tar), b"\xed\xab\xee\xdb": (to_data_of_rpm, files_of_cpio)}


class Source:
    """Where a kernel is: the path of the file that holds it, and of lists of its symbols."""

    def __init__(self, kernel, maps):
        self.kernel, self.maps = kernel, maps


def taken_files(file, files_of, folder):
    """Writes the kernels and lists of symbols of a package into a folder: their names there, by their names in the package."""
    taken = {}
    for name, member in files_of(file):
        if A_KERNEL.fullmatch(name) or A_MAP.fullmatch(name):
            taken[name] = os.path.join(folder, str(len(taken)))
            with open(taken[name], "wb") as copy:
                shutil.copyfileobj(member, copy)
    return taken


def source_in_package(file, to_data, files_of, folder):
    """The kernel of a package. Of several, one with a symbol table comes first."""
    try:
        with reading(io.BufferedReader(Part(file, to_data(file)))) as data:
            taken = taken_files(data, files_of, folder)
            # The checksum of what is packed is behind its end.
            while data.read(2**20):
                pass
    except DAMAGES as error:
        if isinstance(error, OSError) and error.errno:
            raise
        raise ImageError(f"is a damaged or truncated package: {cause_of(error)}") from error
    kernels = sorted((A_KERNEL.fullmatch(name)[1], name) for name in taken if A_KERNEL.fullmatch(name))
    if not kernels:
        raise ImageError("is a package without a kernel: it has no vmlinuz and no vmlinux. The package that it depends on may")
    return Source(taken[kernels[0][1]], [path for name, path in taken.items() if A_MAP.fullmatch(name)])


def source_beside(path):
    """The kernel of an image that isn't a package. Its list of symbols has the same name after the word System.map."""
    folder, name = os.path.split(path)
    found = re.fullmatch(r"(?:vmlinu[xz]|Image)(?:\.(?:gz|xz|zst|bz2|lz4))?(|-.+)", name)
    beside = os.path.join(folder, "System.map" + found[1]) if found else ""
    return Source(path, [beside] if beside and os.path.exists(beside) else [])


def source_of(path, folder):
    with open(path, "rb") as file:
        for magic, (to_data, files_of) in PACKAGES.items():
            if file.read(len(magic)) == magic:
                return source_in_package(file, to_data, files_of, folder)
            file.seek(0)
    return source_beside(path)


# What is in a kernel.
class Elf:
    """The sections of an ELF file."""

    def __init__(self, data):
        self.data = data
        if len(data) < 64 or data[4] not in ELF_FORMS or data[5] not in ELF_ORDERS:
            raise ImageError("has a damaged or truncated ELF header")
        header, section, self.symbol, self.symbol_words = ELF_FORMS[data[4]]
        self.order, self.digits = ELF_ORDERS[data[5]], 8 * data[4]
        words = struct.unpack_from(self.order + header, data, 16)
        place, size, number, names = words[5], words[10], words[11], words[12]
        form = struct.Struct(self.order + section)
        if not place or not number:
            raise ImageError("has no section headers, so its BTF can't be found")
        if size != form.size or place + size * number > len(data):
            raise ImageError("is truncated, or its ELF header is damaged: the section headers aren't in it")
        self.sections = [form.unpack_from(data, place + size * at) for at in range(number)]
        self.names = self.content(self.sections[names]) if names < number else b""

    def content(self, section):
        """The bytes of a section."""
        place, size = section[4], section[5]
        if section[1] == NO_BITS:
            return b""
        if place + size > len(self.data):
            raise ImageError("is truncated: it ends inside a section")
        return self.data[place : place + size]

    def named(self, name):
        """The bytes of the section of a name; nothing where there is none."""
        found = [section for section in self.sections if text_at(self.names, section[0]) == name]
        return self.content(found[0]) if found else b""

    def letter(self, kind, binding, index):
        """The letter that `nm` has for a symbol; nothing for one without a place."""
        if binding == WEAK:
            return "V" if kind == OBJECT else "W"
        if index == ABSOLUTE:
            letter = "a"
        elif index >= min(len(self.sections), RESERVED):
            return ""
        else:
            letter = letter_of(self.sections[index])
        return letter if binding == LOCAL else letter.upper()

    def symbols(self):
        """The lines of the symbol table, by address and name, as /proc/kallsyms has them."""
        lines = []
        for table in (section for section in self.sections if section[1] == SYMBOL_TABLE and section[6] < len(self.sections)):
            names, form = self.content(self.sections[table[6]]), struct.Struct(self.order + self.symbol)
            content = self.content(table)
            for words in form.iter_unpack(content[: len(content) // form.size * form.size]):
                at, info, index, address = (words[place] for place in self.symbol_words)
                name, kind = text_at(names, at), info & 15
                if index == 0 or kind in (SECTION, FILE) or not name or name.startswith(LEFT_OUT):
                    continue
                letter = self.letter(kind, info >> 4, index)
                if letter not in ("", "a"):
                    lines.append((address, name, letter))
        return b"".join(b"%0*x %s %s\n" % (self.digits, address, letter.encode(), name) for address, name, letter in sorted(lines))


def letter_of(section):
    """The small letter that `nm` has for symbols of a section."""
    kind, flags = section[1], section[2]
    if not flags & LOADED:
        return "n"
    if flags & EXECUTED:
        return "t"
    if kind == NO_BITS:
        return "b"
    return "d" if flags & WRITTEN else "r"


def text_at(names, place):
    """The bytes from a place up to the next zero."""
    end = names.find(b"\0", place)
    return names[place:end] if end >= 0 else b""


def types_at(data, place):
    """The types that begin at a place, by the words of their header (Documentation/bpf/btf.rst); nothing where these are wrong."""
    first = data[place : place + 24]
    if len(first) < 24 or not BTF_MAGIC.match(first):
        return b""
    order = "<" if first.startswith(b"\x9f") else ">"
    _magic, _version, flags, size, types, types_size, names, names_size = struct.unpack(order + BTF_HEADER, first)
    end = place + size + max(types + types_size, names + names_size)
    text = place + size + names
    if flags or size < 24 or not types_size or not names_size or end > len(data) or data[text] or data[text + names_size - 1]:
        return b""
    return data[place:end]


def types_of(data, elf):
    """The types of a kernel: the section .BTF, or the largest types in an image that isn't an ELF file."""
    if elf:
        types = elf.named(b".BTF")
        if types and not types_at(types, 0):
            raise ImageError("has a section .BTF that is damaged")
    else:
        types = max((types_at(data, found.start()) for found in BTF_MAGIC.finditer(data)), key=len, default=b"")
    if not types:
        raise ImageError(NO_TYPES)
    return types


def map_at(path, image):
    """The text of a list of symbols; nothing where it is a stub, or can't be read."""
    try:
        with open(path, "rb") as file:
            text = file.read()
    except OSError as error:
        note(f"{image}: {os.path.basename(path)} can't be read: {cause_of(error)}")
        return b""
    if STUB in text:
        note(f"{image}: System.map is a stub: the real one is in the package of debug information (linux-image-VERSION-dbg)")
        return b""
    if not re.match(rb"[0-9a-fA-F]{8,16} [A-Za-z] \S+\n", text):
        note(f"{image}: System.map isn't a list of symbols")
        return b""
    return text


def symbols_of(source, elf, image):
    """The symbols of a kernel: of a list, or else of its own symbol table."""
    texts = (map_at(path, image) for path in source.maps)
    found = next((text for text in texts if text), b"")
    return found or (elf.symbols() if elf else b"")


def version_of(data):
    found = VERSION.search(data)
    if not found:
        raise ImageError("isn't a kernel: it has no text 'Linux version'")
    return found[1].decode()


# What is written.
def sum_of(data):
    return hashlib.sha256(data).digest()


class Output:
    """The folder that files are written to."""

    def __init__(self, folder):
        self.folder, self.written = folder, {}

    def refuse_other(self, path, data, image):
        """Refuses a file that another image has given already, with other bytes."""
        if self.written.get(path, (image, sum_of(data)))[1] != sum_of(data):
            raise ImageError(f"is of the same version as {self.written[path][0]}, and has another {os.path.basename(path)}")

    def write(self, path, data, image):
        """Writes a file whole, or leaves what is there."""
        self.refuse_other(path, data, image)
        os.makedirs(os.path.dirname(path), exist_ok=True)
        with open(path + ".new", "wb") as file:
            file.write(data)
        os.replace(path + ".new", path)
        self.written.setdefault(path, (image, sum_of(data)))
        print(path, flush=True)

    def add(self, name, types, symbols, image):
        """Writes the files of a kernel."""
        self.write(os.path.join(self.folder, name + ".btf"), types, image)
        if symbols:
            self.write(os.path.join(self.folder, name + ".symbols"), symbols, image)
        else:
            note(f"{image}: no symbols: there is no System.map with them, and the kernel has no symbol table")


def take(image, output):
    """Takes the types and symbols of an image."""
    with tempfile.TemporaryDirectory() as folder, contextlib.ExitStack() as opened:
        source = source_of(image, folder)
        file = opened.enter_context(open(source.kernel, "rb"))
        if not os.fstat(file.fileno()).st_size:
            raise ImageError("is empty, or isn't a file")
        data = payload_of(opened.enter_context(mmap.mmap(file.fileno(), 0, access=mmap.ACCESS_READ)))
        elf = Elf(data) if data[:4] == b"\x7fELF" else None
        name, types = version_of(data), types_of(data, elf)
        output.add(name, types, symbols_of(source, elf, image), image)


class CommandLine(argparse.ArgumentParser):
    """What is wrong with a command line is one line, as other faults are."""

    def error(self, message):
        note(f"{message} (--help shows the usage)")
        self.exit(2)


def command_line():
    parser = CommandLine(
        allow_abbrev=False,
        description="Makes files of types and symbols from kernels. They are what --types and --symbols of inspect_object read.",
        epilog="NAME.btf goes to the folder, NAME.symbols to the folder symbols in it. NAME is the kernel's version.")
    parser.add_argument("--output", metavar="FOLDER", default=".", help="where the files go; the current folder without it")
    parser.add_argument("images", metavar="IMAGE", nargs="+", help="a kernel's package (.deb, .rpm), vmlinuz or vmlinux")
    return parser.parse_args()


def main():
    words = command_line()
    sys.stdout.reconfigure(errors="surrogateescape")
    output, is_whole = Output(words.output), True
    for image in words.images:
        try:
            take(image, output)
        except (ImageError, OSError) as error:
            is_whole = False
            note(f"{image}: {error if isinstance(error, ImageError) else cause_of(error)}")
    sys.exit(0 if is_whole else 1)


if __name__ == "__main__":
    main()
