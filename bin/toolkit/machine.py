"""The processors and the memory that there are for builds."""

import contextlib
import functools
import os
import re
import time

# The limits of a control group, where there are some: a share of processors, and memory with what is taken of it.
SHARE = "/sys/fs/cgroup/cpu.max"
MEMORY = ("/sys/fs/cgroup/memory.max", "/sys/fs/cgroup/memory.current")
# The part of the free memory that the gate takes at most.
OF_GATE = 0.85
# How many numbers are sorted to see how fast the machine is, how often, and the seconds of a processor that this takes once where
# the seconds of estimates were measured. A machine is taken for no faster and no slower than these many times.
SORTED_NUMBERS, SORTED_OFTEN, SORTED_SECONDS = 200_000, 3, 0.055
FASTEST, SLOWEST = 0.5, 4


def numbers_of(path):
    """The numbers that a file begins with: those of its first line, up to a word that is none."""
    with contextlib.suppress(OSError), open(path, encoding="ascii") as file:
        return [int(word) for word in re.match(r"(?:\d+ *)*", file.readline())[0].split()]
    return []


def processors():
    """How many processors there are to use."""
    found = len(os.sched_getaffinity(0))
    share = numbers_of(SHARE)
    if len(share) == 2 and share[1] > 0:
        found = min(found, max(1, share[0] // share[1]))
    return found


def free_memory():
    """How many bytes of memory are free."""
    with open("/proc/meminfo", encoding="ascii") as file:
        found = next(int(line.split()[1]) << 10 for line in file if line.startswith("MemAvailable:"))
    most, taken = map(numbers_of, MEMORY)
    if most and taken:
        found = min(found, most[0] - taken[0])
    return max(found, 0)


@functools.lru_cache(maxsize=None)
def slowness():
    """How many times as long as where the seconds of estimates were measured work takes here, by a short computation."""
    numbers = [number * 2654435761 % 2**32 for number in range(SORTED_NUMBERS)]
    found = []
    for _ in range(SORTED_OFTEN):
        began = time.process_time()
        sorted(numbers)
        found.append(time.process_time() - began)
    return min(max(min(found) / SORTED_SECONDS, FASTEST), SLOWEST)


def counted(number, what):
    """A number with what it counts."""
    return f"{number} {what}" if number == 1 else f"{number} {what}s"


def told(memory):
    """The processors and so many bytes of memory, as a message has them."""
    return f"{counted(processors(), 'processor')} and up to {round(memory / 1e9)} GB of memory"


def told_of_gate():
    """What the gate uses, likewise."""
    return told(OF_GATE * free_memory())
