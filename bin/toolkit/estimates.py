"""How long proofs take, by the processor seconds that each crate took where they were measured (bench/proof_seconds).

An estimate begins with these seconds, shared out to the processors, and with how slow the machine is. The more is proved, the more the
time that this took counts.
"""

import os
import re
import time

from toolkit import machine, repository

TABLE = os.path.join(repository.TOP, "bench", "proof_seconds")
# What a crate takes that the table hasn't, for each byte of its sources, and at least.
SECONDS_OF_A_BYTE = 0.0012
LEAST_SECONDS = 5
# A must-fail edit, of which those that were measured took 20 to 60 seconds.
SECONDS_OF_AN_EDIT = 40
# How much longer proofs take than their seconds shared out evenly: some wait for those below them.
WAITING = 1.1
# The share of the whole that counts as much, once it is proved, as the table does.
TRUSTED = 0.05

PROOF, TESTS, EDITS = "proof", "tests", "edits"
# What the gate says of a crate: its proof, its tests, and its edits, which count as tried once they begin since it doesn't say when
# they end. Of a crate whose proof is kept its tests and edits count as kept.
DONE = (
    (re.compile(r"rt: (\w+) proved$"), PROOF),
    (re.compile(r"rt: (\w+): its tests are proved$"), TESTS),
    (re.compile(r"rt: (\w+): trying its must-fail edits"), EDITS),
)
KEPT = re.compile(r"rt: (\w+) is kept:")


def measured():
    """The seconds of the table, by crate and part; none where there is no table."""
    if not os.path.exists(TABLE):
        return {}
    found = {}
    with open(TABLE, encoding="ascii") as file:
        for line in file:
            words = line.split("#")[0].split()
            if words:
                found[words[0], words[1]] = int(words[2])
    return found


def seconds_of_proof(crate, table):
    """What the proof of a crate takes."""
    if (crate, PROOF) in table:
        return table[crate, PROOF]
    size = sum(os.path.getsize(path) for path in repository.source_files(crate))
    return max(LEAST_SECONDS, SECONDS_OF_A_BYTE * size)


def parts_of(crates, with_rest=False):
    """The seconds of each part of the work on crates: their proofs, and with the rest their tests and must-fail edits too."""
    table = measured()
    parts = {(crate, PROOF): seconds_of_proof(crate, table) for crate in crates}
    for crate in crates if with_rest else ():
        if (crate, TESTS) in table:
            parts[crate, TESTS] = table[crate, TESTS]
        edits = repository.must_fail_edits(crate)
        if edits:
            parts[crate, EDITS] = SECONDS_OF_AN_EDIT * len(edits)
    return parts


def longest_chain(parts):
    """The seconds of the longest chain of proofs that wait for each other."""
    below, found = repository.dependencies(), {}

    def chain_to(crate):
        if crate not in found:
            found[crate] = parts.get((crate, PROOF), 0) + max(map(chain_to, below[crate]), default=0)
        return found[crate]

    return max((chain_to(crate) for crate, _part in parts), default=0)


class Estimate:
    """How long the work on some parts will take on so many processors of such a slowness; `now` gives the seconds of a clock."""

    def __init__(self, parts, processors, slowness=1, now=time.monotonic):
        self.left = dict(parts)
        self.processors = processors
        self.slowness = slowness
        self.now = now
        self.began = now()
        self.done = 0

    def end(self, *part):
        """A part was done in this run."""
        self.done += self.left.pop(part, 0)

    def leave_out(self, crate):
        """All of a crate was kept of an earlier run, so that it takes no time."""
        for part in (PROOF, TESTS, EDITS):
            self.left.pop((crate, part), None)

    def begun(self):
        """The seconds of work that parts which are being done have had: each is taken as half done."""
        if not self.left:
            return 0
        whole = sum(self.left.values())
        return min(self.processors / len(self.left), 1) * whole / 2

    def table_seconds(self, work, chain):
        """How long work takes by the table."""
        return max(work * WAITING / self.processors, chain)

    def pace(self):
        """How many times as long as by the table the work takes."""
        done = self.done + self.begun()
        if self.done == 0:
            return self.slowness
        seen = (self.now() - self.began) / self.table_seconds(done, 0)
        trust = self.done / (self.done + TRUSTED * (self.done + sum(self.left.values())))
        return (1 - trust) * self.slowness + trust * seen

    def seconds_left(self):
        if not self.left:
            return 0
        begun = self.begun() if self.done else 0
        work = sum(self.left.values()) - begun
        chain = longest_chain(self.left) - begun / min(self.processors, len(self.left))
        return self.pace() * self.table_seconds(work, chain)


def minutes(seconds):
    """About so many minutes, as a message has them."""
    number = max(1, round(seconds / 60))
    return "about a minute" if number == 1 else f"about {number} minutes"


class Progress:
    """How far the proofs of some crates are, by the lines of the gate."""

    def __init__(self, crates, with_rest=False):
        self.open = set(crates)
        self.count = len(self.open)
        self.estimate = Estimate(parts_of(crates, with_rest), machine.processors(), machine.slowness())

    def whole(self):
        """About how long all takes where nothing is kept."""
        return minutes(self.estimate.seconds_left())

    def note(self, line):
        """Notes a line; answers with a text where the line changes how far the proofs are."""
        for form, part in DONE:
            found = form.match(line)
            if found:
                self.estimate.end(found[1], part)
                return self.told(found[1], part)
        kept = KEPT.match(line)
        if kept:
            self.estimate.leave_out(kept[1])
            return self.told(kept[1], PROOF)
        return None

    def told(self, crate, part):
        if part == PROOF:
            if crate not in self.open:
                return None
            self.open.remove(crate)
        left = self.estimate.seconds_left()
        rest = f", {minutes(left)} left" if left else ""
        return f"{self.count - len(self.open)} of {self.count} crates are proved{rest}"


def build_seconds(name, processors):
    """How long the first build of a program with its proofs takes."""
    return Estimate(parts_of(repository.needed_crates(name)), processors, machine.slowness()).seconds_left()
