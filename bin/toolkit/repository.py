"""The repository's crates, what a program stands on, and whether its proved program is current."""

import hashlib
import os
import shutil
import subprocess

TOP = os.path.dirname(os.path.dirname(os.path.dirname(os.path.realpath(__file__))))

# What a check reads of a crate, besides its line in crates.txt.
SOURCE_FOLDERS = ("src", "specs", "proofs")
SOURCE_ENDS = (".rt", ".antt")
# The shared objects of static libraries, by crate.
SHARED_OBJECTS = {"morvezin": "libmorvezin.so"}
# What the name of the file ends in that says of which sources a program is.
NOTED = ".sources"


def crate_folder(name):
    return os.path.join(TOP, "crates", name)


def program_file(name):
    """Where the proved program is, once it is built, or the library's shared object."""
    return os.path.join(crate_folder(name), "out", SHARED_OBJECTS.get(name, name))


def checksum_file(name):
    """What says of which sources the proved program is."""
    return program_file(name) + NOTED


def crate_lines():
    """The lines of crates.txt by crate, without comments."""
    lines = {}
    with open(os.path.join(TOP, "crates.txt"), encoding="utf-8") as file:
        for line in file:
            line = line.split("#")[0].strip()
            if line:
                lines[line.split(":")[0].split()[0]] = line
    return lines


def dependencies():
    """The crates of this repository that each crate names, by crate."""
    lines = crate_lines()
    return {
        crate: [word for word in line.partition(":")[2].split() if word in lines]
        for crate, line in lines.items()
    }


def needed_crates(name):
    """The crate and all that it stands on, by crate with those that each names."""
    below = dependencies()
    needed = {}
    open_crates = [name]
    while open_crates:
        crate = open_crates.pop()
        if crate not in needed:
            needed[crate] = below[crate]
            open_crates += below[crate]
    return needed


def is_library(name):
    """Whether the repository has a static library of this name."""
    return name in SHARED_OBJECTS and name in crate_lines()


def is_program(name):
    """Whether the repository has a program of this name."""
    is_listed = name in crate_lines()
    return is_listed and os.path.isfile(os.path.join(crate_folder(name), "src", "main.rt"))


def source_files(crate):
    """The files of a crate that a check reads, in one order everywhere."""
    found = []
    for part in SOURCE_FOLDERS:
        for folder, _folders, names in os.walk(os.path.join(crate_folder(crate), part)):
            found += [os.path.join(folder, name) for name in names if name.endswith(SOURCE_ENDS)]
    return sorted(found)


def must_fail_edits(crate):
    """The edits of a crate that a prover must refuse."""
    folder = os.path.join(crate_folder(crate), "must-fail")
    names = os.listdir(folder) if os.path.isdir(folder) else []
    return sorted(name for name in names if name.endswith(".edit"))


def checksum_of(parts):
    """One checksum of byte strings, each with its length before it."""
    whole = hashlib.sha256()
    for part in parts:
        whole.update(b"%d:" % len(part))
        whole.update(part)
    return whole.hexdigest()


def content_of(path):
    with open(path, "rb") as file:
        return file.read()


def sources_checksum(name):
    """A checksum of all sources that a program stands on, of their names and what they hold."""
    lines = crate_lines()
    parts = []
    for crate in sorted(needed_crates(name)):
        parts.append(" ".join(lines[crate].split()).encode())
        for path in source_files(crate):
            parts += [os.path.relpath(path, TOP).encode(), content_of(path)]
    return checksum_of(parts)


def write_whole(path, data):
    """Writes a file whole, or leaves what is there."""
    with open(path + ".new", "wb") as file:
        file.write(data)
    os.replace(path + ".new", path)


def put_program(built, program):
    """Puts a built program in its place, or leaves what is there."""
    os.makedirs(os.path.dirname(program), exist_ok=True)
    shutil.copy2(built, program + ".new")
    os.replace(program + ".new", program)


def checksum_text(program, sources):
    """What stands beside a built program: the checksums of its sources and of the program itself."""
    return f"sources {sources}\nprogram {checksum_of([content_of(program)])}\n"


def toolchain():
    """The identity of the toolchain, as `rt version` says it."""
    return subprocess.run(["rt", "version"], check=True, stdin=subprocess.DEVNULL, stdout=subprocess.PIPE, text=True).stdout.strip()


def note(program, sources, more=""):
    """Notes beside a built program that it is of sources of this checksum."""
    write_whole(program + NOTED, (checksum_text(program, sources) + more).encode())


def noted(program):
    """What was noted beside a built program: the text on its checksums, and the toolchain; nothing where there is no such note."""
    try:
        text = content_of(program + NOTED).decode()
    except (OSError, UnicodeDecodeError):
        return "", ""
    checksums, _word, identity = text.partition("toolchain ")
    return checksums, identity.strip()


def is_current(program, name):
    """Whether a built program is there, and is of the sources of a name as they are now."""
    if not os.access(program, os.X_OK):
        return False
    return noted(program)[0] == checksum_text(program, sources_checksum(name))


def note_proved(name, sources):
    """Notes that the program that is there was proved and built from sources of this checksum, and by which toolchain."""
    note(program_file(name), sources, f"toolchain {toolchain()}\n")


def proved_by(name):
    """The toolchain that a program was proved by."""
    return noted(program_file(name))[1]


def is_proved(name):
    """Whether a proved program of the sources as they are now is there."""
    return is_current(program_file(name), name)
