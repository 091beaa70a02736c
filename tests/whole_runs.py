"""What the tests of whole runs share: rows, objects with their texts, and what a run must give."""

import collections
import glob
import json
import os
import subprocess
import sys

TOP = os.path.dirname(os.path.dirname(os.path.realpath(__file__)))
sys.path.insert(0, os.path.join(TOP, "bin"))

from toolkit import processes

# What a run gave: its status, and what it wrote on both outputs.
from toolkit.unproved import Run

# The seconds that a run may take.
SECONDS = 60

# The crates that have objects of tests/objects as their data, and the one that has files of rows, each by its suffix.
WITH_OBJECTS = ("inspect_object", "exercises")
WITH_ROWS = "exercises"
ROWS_FILES = {".bin": "object.bin", ".types": "types.bin", ".symbols": "symbols.txt"}


def bytes_of(path):
    with open(path, "rb") as file:
        return file.read()


def shown(text):
    """Bytes as text for a report."""
    return text.decode("utf-8", "backslashreplace")


def run_command(words, timeout=None, **how):
    """Runs a command to its end, or for as many seconds."""
    process = processes.begin(words, stdout=subprocess.PIPE, stderr=subprocess.PIPE, **how)
    out, err = processes.finish(process, timeout=timeout)
    return Run(process.returncode, out, err)


def skip(what):
    """Tells what can't be tested here."""
    print(f"skipped: {what}", flush=True)


def json_as_read(data):
    """The document that Python's json makes of what it reads in a document."""
    read = json.loads(data)
    return json.dumps(read, ensure_ascii=False, separators=(",", ":")).encode() + b"\n"


class Row:
    """A folder with a program's words and what the run must give; tests/run_rows tells of its files."""

    def __init__(self, folder):
        self.folder = folder
        self.name = os.path.basename(folder)
        self.words = self.text("args").splitlines()
        self.status = int(self.text("status"))
        self.stdout_to = self.text("stdout-to").rstrip(b"\n")
        self.is_on_terminal = os.path.exists(os.path.join(folder, "terminal"))
        self.file_name = self.text("name").rstrip(b"\n")

    @property
    def needs_device(self):
        """Whether one of the outputs goes to a device or a terminal. Programs without proofs aren't run so."""
        return bool(self.stdout_to) or self.is_on_terminal

    def text(self, name):
        """What a file of the row holds; nothing where it isn't there."""
        path = os.path.join(self.folder, name)
        return bytes_of(path) if os.path.exists(path) else b""

    def difference(self, program, run):
        """Why a run isn't as the row wants it; nothing where it is."""
        if run.status != self.status:
            return f"status {run.status}, wanted {self.status}; {shown(run.err[:300])}"
        if run.out != self.text("stdout"):
            return "standard output differs"
        if b"json" in self.words and json_as_read(run.out) != run.out:
            return "Python's json reads another document"
        if self.is_on_terminal:
            return "" if run.err == self.text("terminal") else f"the terminal shows {shown(run.err)}"
        notes = self.text("notes")
        if not run.err.startswith(notes):
            return f"the notes differ: {shown(run.err)}"
        return self.error_difference(program, run.err[len(notes) :])

    def error_difference(self, program, err):
        """Why what stands after the notes on standard error isn't as the row wants it; nothing where it is."""
        if self.status == 0 or self.status == 3 and not self.text("stderr"):
            return "something on standard error" if err else ""
        begin = f"{program}: refused: " if self.status == 1 else f"{program}: "
        if err.count(b"\n") != 1 or not err.startswith(begin.encode()):
            return f"standard error isn't one line that begins with '{begin}'"
        if self.text("stderr").rstrip(b"\n") not in err:
            return f"standard error: {shown(err)}"
        return ""


def rows_of(folder):
    """The rows of a folder, by name."""
    return [Row(path.rstrip("/")) for path in sorted(glob.glob(os.path.join(folder, "*/")))]


# An object of tests/objects, the words after its name, and the text that a program prints of it.
Printed = collections.namedtuple("Printed", "path words text")


def words_beside(path):
    """The words that the program is called with after an object's name: those for both byte orders, and those for its own.

    A file beside the object is named by its path.
    """
    words = []
    for file in (path.rsplit(".", 2)[0] + ".plan.words", path[: -len("o")] + "plan.words"):
        if os.path.exists(file):
            words += bytes_of(file).splitlines()
    here = os.fsencode(os.path.dirname(path))
    paths = [os.path.join(here, word) for word in words]
    return [path if os.path.isfile(path) else word for word, path in zip(words, paths)]


def code_words(path):
    """The words that an object's code is listed with: of those that its plan is made with, the files of a kernel."""
    words, beside = [b"--code"], words_beside(path)
    for option, value in zip(beside, beside[1:]):
        if option in (b"--types", b"--types-order", b"--symbols"):
            words += [option, value]
    return words


# The words after an object's name, by the suffix of the text.
WORDS = {"plan": words_beside, "code": code_words}


def objects_with(suffix):
    """The objects that have a text of a suffix beside them."""
    found = []
    for text in sorted(glob.glob(os.path.join(TOP, "tests", "objects", "*." + suffix))):
        path = text[: -len(suffix)] + "o"
        words = WORDS[suffix](path) if suffix in WORDS else []
        found.append(Printed(path, words, bytes_of(text)))
    return found


def object_difference(printed, run):
    """Why a run on an object isn't as wanted; nothing where it is."""
    if run.status == 0 and run.out + run.err == printed.text:
        return ""
    if run.status != 0:
        return f"status {run.status}; {shown(run.err[:300])}"
    given, wanted = (run.out + run.err).splitlines(), printed.text.splitlines()
    for number, (line, other) in enumerate(zip(given, wanted), 1):
        if line != other:
            return f"line {number}: {shown(line)[:300]}, wanted {shown(other)[:300]}"
    return f"{len(given)} lines, wanted {len(wanted)}"


def listed_functions(listing):
    """The copies of functions in a listing of code: the name of each, and its instructions by their indexes in it."""
    copies, start = [], None
    for line in listing.decode().splitlines():
        number, colon, rest = line.partition(": ")
        if line.startswith("function "):
            copies.append((line.removeprefix("function "), {}))
            start = None
        elif colon and number.strip().isdigit():
            start = int(number) if start is None else start
            copies[-1][1][int(number) - start] = rest.split("  ")[0]
    return copies


def code_difference(printed, run):
    """Why a listing of code lacks an instruction that a text has; nothing where it has all in each copy of a function."""
    if run.status != 0:
        return f"status {run.status}; {shown(run.err[:300])}"
    wanted, name = {}, None
    for line in printed.text.decode().splitlines():
        number, colon, text = line.partition(": ")
        if not colon:
            name = line.removeprefix("function ")
        wanted.setdefault(name, {}).update({int(number): text} if colon else {})
    copies = listed_functions(run.out)
    for name in wanted:
        if name not in dict(copies):
            return f"there is no function {name}"
    for name, instructions in copies:
        for number, text in wanted.get(name, {}).items():
            if instructions.get(number) != text:
                return f"{name}: instruction {number} is {instructions.get(number)}, wanted {text}"
    return ""


def difference_of(suffix):
    """What tells why a run on an object isn't as a text of a suffix says."""
    return code_difference if suffix == "code" else object_difference


def differing_copies():
    """The copies that crates have and that aren't the file itself, each with the file."""
    pairs = []
    for crate in WITH_OBJECTS:
        for copy in sorted(glob.glob(os.path.join(TOP, "crates", crate, "data", "*.o"))):
            pairs.append((copy, os.path.join(TOP, "tests", "objects", os.path.basename(copy))))
    for copy in sorted(glob.glob(os.path.join(TOP, "crates", WITH_ROWS, "data", "*"))):
        row, suffix = os.path.splitext(os.path.basename(copy))
        if suffix in ROWS_FILES:
            pairs.append((copy, os.path.join(TOP, "tests", "rows", row, ROWS_FILES[suffix])))
    return [(copy, file) for copy, file in pairs if not os.path.exists(file) or bytes_of(copy) != bytes_of(file)]


class Count:
    """Counts what agrees, and tells of what differs."""

    def __init__(self, what):
        self.what = what
        self.agree = 0
        self.differ = 0

    def note(self, name, difference):
        if difference:
            self.differ += 1
            print(f"{name}: {difference}", flush=True)
        else:
            self.agree += 1

    def check(self, name, is_as_wanted, told=""):
        """Counts a check; `told` is what was found in the place of what is wanted."""
        self.note(name, "" if is_as_wanted else f"not as wanted {told}")

    def end(self):
        """Prints the last line, and gives the status."""
        what = self.what and self.what + " "
        print(f"{self.agree} {what}agree, {self.differ} differ", flush=True)
        return 0 if self.differ == 0 else 1
