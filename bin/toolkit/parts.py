"""The parts that `bin/test` and `bin/prove` are made of: commands that are run, shown and counted."""

import os
import re
import resource
import subprocess
import sys
import threading
import time

from toolkit import processes, repository

# The programs that rows and objects are run with.
PROGRAMS = ("bpf_prepare", "inspect_object", "exercises")
PREPARE, INSPECT = (os.path.join("bin", name) for name in PROGRAMS[:2])

# What the last line of a part says.
COUNTS = re.compile(rb"^(\d+) (?:[a-z]+ )?(?:passed|agree), (\d+) (?:failed|differ)\b.*$", re.MULTILINE)

# The parts that run no program of the repository.
OF_SCRIPTS = (
    ("objects of the rows", ["tests/make_rows.py", "--check"]),
    ("scripts", ["tests/check_scripts"]),
    ("texts of instructions", ["tests/judge_texts"]),
    ("types of kernels' images", ["tests/run_kernel_types"]),
    ("plans in the running kernel", ["tests/load_into_kernel"]),
)
# The parts that run the library for C: the proved one, or that of a folder.
OF_LIBRARY = (
    ("the library for C", ["tests/run_library"]),
    ("callers of the library", ["tests/run_bindings"]),
)
# The parts that run a proved program, by program.
OF_PROGRAM = {
    "bpf_prepare": (
        ("rows", ["tests/run_rows", "tests/rows", PREPARE]),
        ("plans of objects", ["tests/run_objects", PREPARE, "plan"]),
    ),
    "inspect_object": (
        ("inspections", ["tests/run_rows", "tests/inspections", INSPECT]),
        ("objects of a compiler", ["tests/run_objects", INSPECT, "txt"]),
        ("code of objects", ["tests/run_objects", INSPECT, "code"]),
        ("checks and the running kernel", ["tests/check_running_kernel"]),
        ("objects in programs", ["tests/extract_objects"]),
    ),
    "exercises": (("exercises", ["tests/run_rows", "tests/exercises", repository.program_file("exercises")]),),
}
# The parts that only proved programs can be run in, of several programs each.
OF_PROVED = (
    ("unreadable files", ["tests/read_unreadable_files"]),
    ("requests for memory", ["tests/fail_each_allocation"]),
    ("plan texts with a changed byte", ["tests/mutate_plans"]),
    ("both orders of the passes on types", ["tests/compare_pass_orders"]),
    ("first answers", ["tests/compare_first_answers"]),
    ("Debian's tools", ["tests/debian_tools"]),
    ("the page on porting", ["tests/run_porting"]),
    ("the package", ["tests/run_package"]),
)


def built():
    """What `bin/prove` builds: the programs, and the library for C."""
    return [*PROGRAMS, *filter(repository.is_library, repository.SHARED_OBJECTS)]


def used_seconds():
    """The processor time of all commands that have ended."""
    used = resource.getrusage(resource.RUSAGE_CHILDREN)
    return used.ru_utime + used.ru_stime


def duration(seconds):
    """A time in seconds, or in minutes where it is long."""
    return f"{round(seconds)} seconds" if seconds < 120 else f"{round(seconds / 60)} minutes"


class Total:
    """What passed and what failed in all parts."""

    def __init__(self):
        self.passed = 0
        self.failed = 0

    def add(self, output, status):
        """Counts a part by its last line that counts."""
        counts = COUNTS.findall(output)
        passed, failed = map(int, counts[-1]) if counts else (0, 1)
        if status != 0 and failed == 0:
            failed = 1
        self.passed += passed
        self.failed += failed

    def end(self):
        """Prints the last line, and gives the status."""
        print(f"{self.passed} passed, {self.failed} failed", flush=True)
        return 0 if self.failed == 0 else 1


def begin(command):
    """Begins the command of a part."""
    how = {"stdout": subprocess.PIPE, "stderr": subprocess.STDOUT}
    return processes.begin(command, cwd=repository.TOP, **how)


def show(line):
    sys.stdout.buffer.write(line)
    sys.stdout.buffer.flush()


def run_part(total, name, command, note=lambda line: None):
    """Runs a part, shows what it writes as it comes, and counts it; each line is given to `note` too."""
    began, used = time.monotonic(), used_seconds()
    process = begin(command)
    output = b""
    for line in process.stdout:
        show(line)
        output += line
        note(line.decode("utf-8", "replace").rstrip("\n"))
    process.wait()
    processes.forget(process)
    total.add(output, process.returncode)
    spent = used_seconds() - used
    print(f"{name}: {duration(time.monotonic() - began)}, {duration(spent)} of a processor", flush=True)


class Beside:
    """A part that runs beside others; what it writes is shown as it comes."""

    def __init__(self, name, command):
        self.name = name
        self.began = time.monotonic()
        self.process = begin(command)
        self.output = b""
        self.reader = threading.Thread(target=self.read, daemon=True)
        self.reader.start()

    def read(self):
        for line in self.process.stdout:
            show(line)
            self.output += line

    def end(self, total):
        """Waits for it, and counts it."""
        self.process.wait()
        self.reader.join()
        processes.forget(self.process)
        total.add(self.output, self.process.returncode)
        print(f"{self.name}: ended after {duration(time.monotonic() - self.began)}", flush=True)


def status_of(command):
    """Runs a command that writes to this one's outputs, and gives its status."""
    process = processes.begin(command, cwd=repository.TOP)
    processes.finish(process)
    return process.returncode
