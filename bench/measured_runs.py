"""Whole runs of a program, measured."""

import collections
import os
import subprocess
import sys
import time

TOP = os.path.dirname(os.path.dirname(os.path.realpath(__file__)))
sys.path.insert(0, os.path.join(TOP, "bin"))

from toolkit import repository

# The times of runs and their processor times in milliseconds, both from the least on, the most memory that one had in MB, and the
# status of the last.
Runs = collections.namedtuple("Runs", "times processor peak status")


def built(program):
    """The file of a program, proved and built first where the proved one of these sources isn't there; None where that fails."""
    if subprocess.run([os.path.join(TOP, "bin", "build"), program], check=False).returncode != 0:
        return None
    return repository.program_file(program)


def measured_once(command):
    """The time, the processor time, the most memory and the status of a run of a command."""
    began = time.perf_counter()
    process = subprocess.Popen(command, stdout=subprocess.DEVNULL, stderr=subprocess.DEVNULL)
    _, status, used = os.wait4(process.pid, 0)
    took = 1000 * (time.perf_counter() - began)
    process.returncode = os.waitstatus_to_exitcode(status)
    # Linux counts in units of 1024 bytes.
    return took, 1000 * (used.ru_utime + used.ru_stime), used.ru_maxrss * 1024 / 1e6, process.returncode


def measured_in_turn(commands, runs):
    """What runs of commands took, one of each in turn, so that all meet the same speeds of the machine."""
    found = [[] for _ in commands]
    for _ in range(runs):
        for command, of_command in zip(commands, found):
            of_command.append(measured_once(command))
    return [
        Runs(sorted(run[0] for run in of), sorted(run[1] for run in of), max(run[2] for run in of), of[-1][3]) for of in found
    ]


def measured(command, runs):
    """What runs of a command took."""
    return measured_in_turn([command], runs)[0]
