"""What the running kernel says of programs, as the files `verdicts` have it, and how many programs are so."""

import os
import re

from whole_runs import TOP

OF_RUNNING = os.path.join(TOP, "tests", "running_kernel")
KERNEL_TYPES = "/sys/kernel/btf/vmlinux"


def version_of(release):
    return tuple(int(part) for part in re.findall(r"\d+", release)[:2])


def wanted_verdicts(folder):
    """By object the verdicts of its programs, each with the first kernel that it is known of."""
    wanted = {}
    with open(os.path.join(folder, "verdicts"), encoding="ascii") as file:
        for line in file:
            name, program, since, verdict = line.rstrip("\n").split(" ", 3)
            wanted.setdefault(name, {})[program] = (version_of(since), verdict)
    return wanted


class Tally:
    """How many programs are as wanted, differ, or are skipped."""

    def __init__(self):
        self.agree, self.differ, self.skipped = 0, 0, 0

    def skip(self):
        self.skipped += 1

    def note(self, name, program, fault):
        """Counts a program of an object; `fault` says why it isn't as wanted, or nothing."""
        if fault:
            print(f"{name} {program}: {fault}")
            self.differ += 1
        else:
            self.agree += 1

    def end(self):
        """Prints the last line, and gives the status."""
        print(f"{self.agree} programs agree, {self.differ} differ, {self.skipped} skipped")
        return 1 if self.differ else 0
