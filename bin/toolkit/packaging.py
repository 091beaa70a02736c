"""Packages the proved programs and the library for C: an archive to unpack anywhere, and a Debian package.

Each program of a package is the proved one, stripped, with the place in its version text filled that says what it is. The library is
the proved one with its header. Equal sources and equal proved programs and libraries give equal bytes.
"""

import calendar
import email.utils
import hashlib
import os
import re
import subprocess
import time

from toolkit import archives, completions, help_texts, libraries, manuals, processes, repository
from toolkit.archives import PROGRAM, TEXT, File

NAME = "morvezin"
PROGRAMS = ("bpf_prepare", "inspect_object")
# What must be proved.
PROVED = (*PROGRAMS, libraries.NAME)
# The scripts of examples/, by the names that they are installed under.
SCRIPTS = {"load_plan": "load_plan.py", "kernel_types": "kernel_types.py"}
# The text in a program that isn't packaged, and what a package has in its place: as many bytes, in the one place where it stands.
UNFILLED = "unpackaged build: bin/package writes here that it is proved, and of what sources"
FILLED = "proved, sources {sources}"
# What lies in the folder of documents, by its place in the repository.
DOCUMENTS = ("LICENSE", "README.md", "CHANGELOG.md", "SECURITY.md")
EXAMPLES = (
    "examples/trace_unlink.o",
    "examples/trace_unlink.bpf.c",
    "examples/c/plan.h",
    "examples/c/loader.c",
    "examples/count_unlinks.rs",
    "tests/objects/count_unlinks.little.o",
    "tests/objects/task_reads.little.o",
    "tests/objects/task_reads.bpf.c",
    "tests/objects/kernel_structs.little.btf",
    "tests/objects/kernel_later.little.btf",
)
OF_DOCUMENTS = f"share/doc/{NAME}"
RELEASE = re.compile(r"^## (\S+) - (\d{4}-\d{2}-\d{2})$", re.MULTILINE)
MAINTAINER = "Morvezin maintainers <maintainers@users.noreply.morvezin.example>"

CONTROL = """\
Package: {name}
Version: {version}
Architecture: amd64
Maintainer: {maintainer}
Installed-Size: {size}
Depends: libc6 (>= 2.34), python3
Suggests: lz4, zstd
Section: devel
Priority: optional
Description: load plans of eBPF objects for a kernel, by proved programs
 bpf_prepare prepares an eBPF object file for a kernel without asking that
 kernel: it applies CO-RE, map and extern relocations, links programs, and
 prints a load plan or names what a loader would have to refuse.
 inspect_object says on which kernels an object can load, and lists its
 programs as code. load_plan makes the calls of a plan. kernel_types makes
 files of types and symbols from packages and images of kernels. libmorvezin
 makes plans, checks and listings inside a program in C.
"""
# What pkg-config reads. The folder is found by the file's own place, since the archive is unpacked anywhere.
PKG_CONFIG = """\
prefix=${{pcfiledir}}/../..
includedir=${{prefix}}/include
libdir=${{prefix}}/lib

Name: {name}
Description: Load plans of eBPF objects
Version: {version}
Cflags: -I${{includedir}}
Libs: -L${{libdir}} -l{name}
"""
COPYRIGHT = """\
Format: https://www.debian.org/doc/packaging-manuals/copyright-format/1.0/
Upstream-Name: Morvezin

Files: *
Copyright: 2026 The Morvezin authors
License: Expat
{text}
"""
CHANGELOG = """\
{name} ({version}) unstable; urgency=medium

  * Release {version}; /usr/share/doc/{name}/CHANGELOG.md says what is in it.

 -- {maintainer}  {date}
"""
# What Debian's own test would take for faults: the examples are eBPF objects, which are data here.
OVERRIDES = """\
# The examples are eBPF objects, which no processor runs by itself: data of every architecture.
{name}: arch-dependent-file-in-usr-share [usr/{documents}/examples/*.o]
{name}: binary-from-other-architecture [usr/{documents}/examples/*.o]
"""


class Unpackable(Exception):
    """Why there is no package."""


def text_of(path):
    return repository.content_of(os.path.join(repository.TOP, path)).decode()


def sum_of(data):
    return hashlib.sha256(data).hexdigest()


def output_of(command):
    """What a command writes, in an environment that is the same everywhere."""
    environment = {"PATH": os.environ["PATH"], "LC_ALL": "C.UTF-8", "COLUMNS": "100"}
    try:
        return subprocess.run(command, env=environment, check=True, stdin=subprocess.DEVNULL, stdout=subprocess.PIPE).stdout.decode()
    except (OSError, subprocess.CalledProcessError) as error:
        raise Unpackable(f"{os.path.basename(command[0])} can't be run: {error}") from error


class Release:
    """What is packaged: the version, its day, and the checksums of each program's sources."""

    def __init__(self):
        self.version = text_of("VERSION").strip()
        newest = RELEASE.search(text_of("CHANGELOG.md"))
        if not newest or newest[1] != self.version:
            raise Unpackable(f"CHANGELOG.md doesn't begin with {self.version} and its day")
        self.day = newest[2]
        self.time = calendar.timegm(time.strptime(self.day, "%Y-%m-%d"))
        self.sources = {name: repository.sources_checksum(name) for name in PROVED}
        self.toolchains = {name: repository.proved_by(name) for name in PROVED}


def stripped(path, folder):
    """A program without its table of symbols, which no run reads."""
    to = os.path.join(folder, os.path.basename(path))
    output_of(["strip", "--strip-all", "-o", to, path])
    return repository.content_of(to)


def filled(name, data, sources):
    """A program with its version text filled; all else stays byte for byte."""
    here, text = UNFILLED.encode(), FILLED.format(sources=sources).encode()
    if len(here) != len(text) or data.count(here) != 1:
        raise Unpackable(f"{name} has no single place for the checksum of its sources")
    return data.replace(here, text)


def program_of(name, release, folder):
    """A program as it is packaged. It must say of itself what is packaged."""
    sources = release.sources[name]
    data = filled(name, stripped(repository.program_file(name), folder), sources)
    path = os.path.join(folder, name)
    repository.write_whole(path, data)
    os.chmod(path, PROGRAM)
    said, wanted = output_of([path, "--version"]), f"{name} {release.version} ({FILLED.format(sources=sources)})\n"
    if said != wanted:
        raise Unpackable(f"{name} --version says {said.strip()!r}, wanted {wanted.strip()!r}")
    return data


def commands_of(release, folder):
    """The commands of a package by name: what each holds, and its help."""
    found = {name: program_of(name, release, folder) for name in PROGRAMS}
    for name, script in SCRIPTS.items():
        found[name] = repository.content_of(os.path.join(repository.TOP, "examples", script))
        repository.write_whole(os.path.join(folder, name), found[name])
        os.chmod(os.path.join(folder, name), PROGRAM)
    helps = {name: help_texts.parsed(output_of([os.path.join(folder, name), "--help"])) for name in found}
    return {name: (data, helps[name]) for name, data in found.items()}


def library_tree(release):
    """The library's files: the header, both libraries, and what pkg-config reads."""
    of_config = PKG_CONFIG.format(name=NAME, version=release.version)
    return {
        f"include/{NAME}.h": File(TEXT, repository.content_of(libraries.HEADER)),
        f"lib/{libraries.STATIC}": File(TEXT, repository.content_of(libraries.file_of(libraries.STATIC))),
        f"lib/{libraries.SHARED}": File(TEXT, repository.content_of(libraries.file_of(libraries.SHARED))),
        f"lib/pkgconfig/{NAME}.pc": File(TEXT, of_config.encode()),
    }


def receipt(release, commands, of_library):
    """What the package was made of: toolchain, and checksums (SHA-256) of sources, of proved programs and of what is installed."""
    lines = [f"{NAME} {release.version}"]
    for name in PROVED:
        lines.append(f"toolchain {name} {release.toolchains[name]}")
        lines.append(f"sources {name} {release.sources[name]}")
        lines.append(f"proved {name} {sum_of(repository.content_of(repository.program_file(name)))}")
    lines += [f"installed {name} {sum_of(data)}" for name, (data, _help) in commands.items()]
    lines += [f"installed {os.path.basename(path)} {sum_of(file.data)}" for path, file in of_library.items()]
    return "".join(line + "\n" for line in lines)


def tree_of(release, commands):
    """The files of both packages, from the folder that has `bin`, `include`, `lib` and `share`."""
    tree = {}
    for name, (data, described) in commands.items():
        page = manuals.manual(name, release.version, release.day, described)
        tree[f"bin/{name}"] = File(PROGRAM, data)
        tree[f"share/man/man1/{name}.1"] = File(TEXT, page.encode())
        tree[f"share/bash-completion/completions/{name}"] = File(TEXT, completions.bash(name, described).encode())
        tree[f"share/zsh/site-functions/_{name}"] = File(TEXT, completions.zsh(name, described).encode())
        tree[f"share/fish/vendor_completions.d/{name}.fish"] = File(TEXT, completions.fish(name, described).encode())
    of_library = library_tree(release)
    tree.update(of_library)
    tree[f"{OF_DOCUMENTS}/receipt"] = File(TEXT, receipt(release, commands, of_library).encode())
    for path in DOCUMENTS:
        tree[f"{OF_DOCUMENTS}/{path}"] = File(TEXT, text_of(path).encode())
    for path in EXAMPLES:
        data = repository.content_of(os.path.join(repository.TOP, path))
        tree[f"{OF_DOCUMENTS}/examples/{os.path.basename(path)}"] = File(TEXT, data)
    return tree


def copyright_of(text):
    """The licence as Debian has it: its first line and its copyright aside, indented, with a dot for an empty line."""
    terms = text[text.index("Permission is") :].strip().split("\n")
    return COPYRIGHT.format(text="\n".join(" " + (line or ".") for line in terms))


def debian_tree(release, tree):
    """The files of the Debian package: below usr, manuals compressed, with its own names for licence, changes and zsh's folder."""
    found = {}
    for path, file in tree.items():
        if path.startswith("share/man/"):
            path, file = path + ".gz", File(TEXT, archives.compressed(file.data))
        found["usr/" + path.replace("/site-functions/", "/vendor-completions/")] = file
    documents = f"usr/{OF_DOCUMENTS}/"
    del found[documents + "LICENSE"]
    found[documents + "copyright"] = File(TEXT, copyright_of(text_of("LICENSE")).encode())
    date = email.utils.formatdate(release.time)
    changes = CHANGELOG.format(name=NAME, version=release.version, maintainer=MAINTAINER, date=date)
    found[documents + "changelog.gz"] = File(TEXT, archives.compressed(changes.encode()))
    overrides = OVERRIDES.format(name=NAME, documents=OF_DOCUMENTS)
    found[f"usr/share/lintian/overrides/{NAME}"] = File(TEXT, overrides.encode())
    return found


def control_of(release, tree):
    """The files that describe the Debian package."""
    size = sum(-(-len(file.data) // 1024) for file in tree.values())
    control = CONTROL.format(name=NAME, version=release.version, maintainer=MAINTAINER, size=size)
    sums = "".join(f"{hashlib.md5(tree[path].data).hexdigest()}  {path}\n" for path in sorted(tree))
    return {
        "control": File(TEXT, control.encode()),
        "md5sums": File(TEXT, sums.encode()),
        "triggers": File(TEXT, b"activate-noawait ldconfig\n"),
    }


def packages():
    """Both packages, by the names of their files."""
    with processes.folder() as folder:
        release = Release()
        commands = commands_of(release, folder)
    tree = tree_of(release, commands)
    top = f"{NAME}-{release.version}-x86_64"
    of_debian = debian_tree(release, tree)
    return {
        top + ".tar.gz": archives.tar(tree, release.time, top + "/"),
        f"{NAME}_{release.version}_amd64.deb": archives.deb(control_of(release, of_debian), of_debian, release.time),
    }


def refuse_unproved():
    """Refuses programs that aren't the proved ones of the sources as they are now."""
    for name in PROVED:
        if not repository.is_proved(name):
            raise Unpackable(f"{name} isn't proved: bin/build {name} proves it")
        if not repository.proved_by(name):
            beside = os.path.relpath(repository.checksum_file(name), repository.TOP)
            raise Unpackable(f"the toolchain that proved {name} isn't noted: remove {beside}, then bin/build {name}")


def package(folder):
    """Writes both packages into a folder, and gives their paths. Where a program isn't proved, nothing is written."""
    refuse_unproved()
    made = packages()
    # Sources may have changed meanwhile.
    refuse_unproved()
    os.makedirs(folder, exist_ok=True)
    for name, data in made.items():
        repository.write_whole(os.path.join(folder, name), data)
    return [os.path.join(folder, name) for name in made]
