"""Shares the cases of programs without proofs out to builds that run side by side, and says which cases are left to proved programs."""

import collections
import itertools
import os
import re

from whole_runs import TOP

from toolkit import machine

# The processor seconds of a build, and those of each case of it. `rt try` makes all of a program ready to be interpreted for each case,
# and then finds that it can't interpret one that has words: that is nearly all of a case's time, whatever the case reads.
Cost = collections.namedtuple("Cost", "build case")
COSTS = {
    "bpf_prepare": Cost(130, 1.2),
    "inspect_object": Cost(80, 1.0),
    "exercises": Cost(62, 1.2),
}
# The most memory that a build takes while it is made, and while its cases run, in bytes.
BYTES_TO_BUILD, BYTES_TO_RUN = 5 * 10**9, 2 * 10**9
# A share of the cases of a program: which of so many it is, and about how long it takes with its build.
Share = collections.namedtuple("Share", "program number of seconds")

# The cases that proved programs alone run, a line each: the folder in tests/ and the name.
LEFT_TO_PROVED = os.path.join(TOP, "tests", "left_to_proved")
QUOTED = re.compile(r'"[^"]*"')
NUMBER = re.compile(r"\b(0x[0-9a-f]+|\d+)\b")


def left_to_proved():
    """The cases that proved programs alone run."""
    with open(LEFT_TO_PROVED, encoding="ascii") as file:
        return [line.strip() for line in file if line.strip() and not line.startswith("#")]


def builds_at_once(processors, memory):
    """How many builds run side by side: one a processor, as many as there is memory for where one is made and the others run."""
    return max(1, min(processors, 1 + (memory - BYTES_TO_BUILD) // BYTES_TO_RUN))


def has_room(are_made, memory):
    """Whether there is memory for one more build beside those that run; of each it is told whether it is made."""
    taken = sum(BYTES_TO_RUN if is_made else BYTES_TO_BUILD for is_made in are_made)
    return not are_made or taken + BYTES_TO_BUILD <= memory


def shares_of(program, cases, builds):
    """The shares of a program's cases over so many builds."""
    cost = COSTS[program]
    return [Share(program, number, builds, cost.build + cost.case * cases / builds) for number in range(builds)]


def seconds_of(shares, at_once):
    """How long shares take, the longest first, each in the first place that is free."""
    places = [0] * at_once
    for share in sorted(shares, key=lambda share: -share.seconds):
        places[places.index(min(places))] += share.seconds
    return max(places)


def best_shares(counts, at_once):
    """The shares of programs with so many cases each that end first; a second that all take together counts a tenth as much."""
    choices = [[shares_of(program, cases, builds) for builds in range(1, at_once + 1)] for program, cases in counts.items()]
    every = [sum(chosen, []) for chosen in itertools.product(*choices)]
    best = min(every, key=lambda shares: seconds_of(shares, at_once) + sum(share.seconds for share in shares) / 10)
    return sorted(best, key=lambda share: -share.seconds)


def form_of(text):
    """A line without its names and numbers."""
    return NUMBER.sub("N", QUOTED.sub('""', text))


def shown_by(row):
    """What a row shows: its status, its options, the forms of its refusal and its notes, and the kinds of lines that it prints."""
    shown = {("status", row.status)}
    shown |= {("option", row.status, word.split(b"=")[0]) for word in row.words if word.startswith(b"-")}
    shown |= {("line", line.split(b" ")[0]) for line in row.text("stdout").splitlines()}
    for name in ("stderr", "notes"):
        shown |= {(name, form_of(line)) for line in row.text(name).decode("utf-8", "replace").splitlines()}
    return shown
