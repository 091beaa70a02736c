"""Runs of a proved program to which one of its requests for memory is refused.

The program runs with a library before the C library's own functions for memory (refuse_request.c), which counts the requests of
a run, and refuses the one of a number.
"""

import os
import subprocess

from whole_runs import SECONDS, TOP, Run, bytes_of

SOURCE = os.path.join(TOP, "tests", "refuse_request.c")


class Refusing:
    """A program and its words, run in a folder; what helps it is made in another."""

    def __init__(self, command, cwd, folder):
        self.command = command
        self.cwd = cwd
        self.library = os.path.join(folder, "refuse_request.so")
        self.count_file = os.path.join(folder, "requests")
        if not os.path.exists(self.library):
            subprocess.run(["cc", "-O2", "-shared", "-fPIC", "-o", self.library, SOURCE], check=True)

    def run(self, more):
        environment = {**os.environ, "LD_PRELOAD": self.library, **more}
        how = {"cwd": self.cwd, "env": environment, "stdin": subprocess.DEVNULL, "timeout": SECONDS}
        ran = subprocess.run(self.command, capture_output=True, check=False, **how)
        return Run(ran.returncode, ran.stdout, ran.stderr)

    def whole(self):
        """A run to which nothing is refused, and how many requests it makes."""
        ran = self.run({"REQUESTS_FILE": self.count_file})
        return ran, int(bytes_of(self.count_file))

    def refused(self, number):
        """The run to which the request of a number is refused, from 1."""
        return self.run({"REFUSED_REQUEST": str(number)})
