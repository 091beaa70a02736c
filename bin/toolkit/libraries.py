"""The library for C: a static library and a shared object of the crate `morvezin`, over what the toolchain's gate proved.

`rt lib` would prove all crates below the library again. So the toolchain's compiler gets the command that `rt lib` gives it, over
the libraries that the gate left: it checks the crate once more and writes the static library. The three functions of the
toolchain's own that take memory go into it too, so that nothing else is needed to link it.
"""

import os
import re
import shutil
import subprocess

from toolkit import processes, repository

NAME = "morvezin"
HEADER = os.path.join(repository.TOP, "include", NAME + ".h")
STATIC, SHARED = f"lib{NAME}.a", repository.SHARED_OBJECTS[NAME]
# A function of the header, where it is declared.
DECLARED = re.compile(rf"^(?!static)\w[\w ]*?[ *]({NAME}_\w+)\(", re.MULTILINE)


class Unbuilt(Exception):
    """Why there is no library."""


def file_of(name):
    """Where the proved static library or shared object is, once it is built."""
    return os.path.join(repository.crate_folder(NAME), "out", name)


def functions():
    """The functions that the header declares."""
    return sorted(set(DECLARED.findall(repository.content_of(HEADER).decode())))


def kit():
    """The toolchain's folder."""
    return os.path.dirname(os.path.dirname(os.path.realpath(shutil.which("rt"))))


def run(command, folder):
    process = processes.begin(command, cwd=folder, stdout=subprocess.PIPE, stderr=subprocess.STDOUT)
    out, _err = processes.finish(process)
    if process.returncode != 0:
        raise Unbuilt(f"{os.path.basename(command[0])} fails:\n{out.decode('utf-8', 'replace')[-3000:]}")


def compile_words(needed, top):
    """The words for the toolchain's compiler: the crate, the libraries that it names, and where those below them are."""
    here = kit()
    folders = {name: os.path.join(top, "crates", name, "out", "rlib") for name in needed if name != NAME}
    line = repository.crate_lines()[NAME]
    words = ["--crate-name", NAME, "src/lib.rt", "--crate-type", "staticlib", "--links", f"{NAME}="]
    for name in ["std", *line.partition(":")[2].split()]:
        words += ["--extern", f"{name}={os.path.join(folders.get(name, os.path.join(here, 'rlibs')), name)}.rlib"]
    for folder in (os.path.join(here, "rlibs"), *folders.values()):
        words += ["-L", f"dependency={folder}"]
    words += ["--antt-project", os.path.join(here, "rattle", "logic", "antt-project.json")]
    words += ["--logic-built", os.path.join(here, "logic_built"), "--jobs", "2"]
    return [*words, "--toolchain", os.path.join(here, "toolchain"), "--backend", "llvm"]


def add_memory(static, folder):
    """Puts the toolchain's functions that take memory into the static library."""
    memory = os.path.join(kit(), "c", "liblibc_c.a")
    script = f"open {static}\naddlib {memory}\nsave\nend\n"
    run(["sh", "-c", 'printf "%s" "$1" | ar -M', "", script], folder)


def link_shared(static, shared, folder):
    """Makes a shared object of a static library, which has the header's functions alone."""
    names = os.path.join(folder, "names")
    listed = "".join(f"{name}; " for name in functions())
    repository.write_whole(names, f"{{ global: {listed}local: *; }};\n".encode())
    whole = ["-Wl,--whole-archive", static, "-Wl,--no-whole-archive"]
    options = ["-s", "-Wl,-z,defs", "-Wl,--build-id=none", f"-Wl,-soname,{SHARED}", f"-Wl,--version-script,{names}"]
    run(["gcc", "-shared", "-o", shared, *whole, *options], folder)


def take(needed, top):
    """Builds both over the crates that the gate proved in a folder, and puts them in their places."""
    crate = os.path.join(top, "crates", NAME)
    static, shared = os.path.join(top, STATIC), os.path.join(top, SHARED)
    run([os.path.join(kit(), "bin", "rattle"), "build", *compile_words(needed, top), "-o", static], crate)
    add_memory(static, top)
    link_shared(static, shared, top)
    repository.put_program(static, file_of(STATIC))
    repository.put_program(shared, file_of(SHARED))
