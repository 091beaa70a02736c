"""Proves the crates that a program or the library stands on, and builds it.

The toolchain's gate does both, over a copy that has these crates alone and none of the edits which a prover must refuse;
what it makes takes some gigabytes in the folder for temporary files. It proves crates side by side, and keeps what it
proved on this machine, so that builds and gates to come prove only what changed. Its other commands hold all crates below
the one that they prove, so that they would wait for each other.
"""

import fcntl
import os
import re
import shutil
import subprocess
import sys

from toolkit import estimates, libraries, machine, processes, repository

# What isn't copied of a crate: what was made from it, and the edits.
LEFT_OUT = ("out", "must-fail")
# Where the gate's lines on a crate begin, and what it says of one that it refuses.
BEGINS = re.compile(r"== \w+$")
REFUSED = re.compile(r"rt: (\w+) NOT PROVED$")
SHOWN = 40


def say(name, text):
    print(f"{name}: {text}", file=sys.stderr, flush=True)


def copy_crate(crate, to):
    """Copies a crate; what its folders hold is copied whole, and links as links."""
    os.makedirs(to)
    with os.scandir(repository.crate_folder(crate)) as entries:
        for entry in entries:
            path = os.path.join(to, entry.name)
            if entry.is_dir(follow_symlinks=False):
                if entry.name not in LEFT_OUT:
                    shutil.copytree(entry.path, path, symlinks=True)
            else:
                shutil.copy2(entry.path, path, follow_symlinks=False)


def copy_crates(needed, top):
    """Copies some crates into a folder, as a repository of its own."""
    os.makedirs(os.path.join(top, ".git"))
    shutil.copy2(os.path.join(repository.TOP, "HANDLES"), top)
    lines = repository.crate_lines()
    with open(os.path.join(top, "crates.txt"), "w", encoding="utf-8") as file:
        file.writelines(lines[crate] + "\n" for crate in sorted(needed))
    for crate in needed:
        copy_crate(crate, os.path.join(top, "crates", crate))


class Build:
    """What a build has come to, by the lines of the gate."""

    def __init__(self, name, needed):
        self.name = name
        self.progress = estimates.Progress(needed)
        self.lines = []

    def begin(self):
        """Tells at once what there is to do, with what, and about how long it takes."""
        progress = self.progress
        say(self.name, f"{progress.count} crates are to be proved, the program last, on {machine.told_of_gate()}")
        length = progress.whole()
        say(self.name, f"it takes {length} where none of them is kept; a build that was stopped goes on from the crates that it proved")

    def note(self, line):
        """Notes a line, and tells how far it is; says whether no crate was refused."""
        if BEGINS.match(line):
            self.lines = []
        self.lines.append(line)
        refused = REFUSED.match(line)
        if refused:
            self.show_lines()
            say(self.name, f"the crate {refused[1]} could not be proved")
            return False
        text = self.progress.note(line)
        if text:
            say(self.name, text)
        return True

    def show_lines(self):
        for line in self.lines[-SHOWN:]:
            say(self.name, line)


def pass_gate(name, needed, top):
    """Runs the gate over the copied crates, up to the first that it refuses; says whether they pass."""
    build = Build(name, needed)
    build.begin()
    how = {"stdout": subprocess.PIPE, "stderr": subprocess.STDOUT, "encoding": "utf-8", "errors": "replace"}
    process = processes.begin(["rt", "ci"], cwd=top, **how)
    for line in process.stdout:
        if not build.note(line.rstrip("\n")):
            processes.end_all()
            return False
    process.wait()
    processes.forget(process)
    if process.returncode != 0:
        build.show_lines()
        say(name, "the crates don't pass the gate")
    return process.returncode == 0


def take_program(name, top):
    """Puts the built program in its place; says whether there is one."""
    built = os.path.join(top, "crates", name, "out", name)
    if not os.access(built, os.X_OK):
        say(name, "the program could not be built")
        return False
    repository.put_program(built, repository.program_file(name))
    return True


def take_library(name, needed, top):
    """Builds the library over the proved crates, and puts it in its place; says whether it is built."""
    say(name, "the crates are proved; the library is checked once more and built")
    try:
        libraries.take(needed, top)
    except libraries.Unbuilt as error:
        say(name, str(error))
        return False
    return True


def take(name, needed, top):
    """Puts in its place what is built; says whether it is built."""
    return take_library(name, needed, top) if repository.is_library(name) else take_program(name, top)


def has_changed(name, sources):
    """Whether the sources aren't these any more, which is told."""
    if repository.sources_checksum(name) == sources:
        return False
    say(name, "sources changed meanwhile; build it again")
    return True


def prove_and_build(name):
    sources = repository.sources_checksum(name)
    needed = repository.needed_crates(name)
    with processes.folder() as folder:
        top = os.path.join(folder, name)
        copy_crates(needed, top)
        if has_changed(name, sources) or not pass_gate(name, needed, top) or not take(name, needed, top):
            return 1
    if has_changed(name, sources):
        return 1
    repository.note_proved(name, sources)
    what = "library" if repository.is_library(name) else "program"
    say(name, f"the proved {what} is {os.path.relpath(repository.program_file(name), repository.TOP)}")
    return 0


def build(name):
    """Proves and builds a program or the library where the proved one of these sources isn't there; gives the status."""
    with open(os.path.join(repository.TOP, "crates.txt"), "rb") as lock:
        try:
            fcntl.flock(lock, fcntl.LOCK_EX | fcntl.LOCK_NB)
        except BlockingIOError:
            say(name, "another build is running here")
            return 1
        if repository.is_proved(name):
            return 0
        try:
            return prove_and_build(name)
        except OSError as error:
            say(name, f"it can't be built: {error}")
            return 1
