"""Runs a program of the repository: the proved one where it is there, else one without proofs."""

import os

from toolkit import processes, repository, unproved, words


def run(name, called_with):
    """Runs a program with words, given as bytes. A program that is there already takes the place of this process."""
    if repository.is_proved(name):
        program = repository.program_file(name)
    elif unproved.is_kept(name):
        unproved.say_unproved(name)
        program = unproved.kept_file(name)
    else:
        return processes.run(lambda: unproved.run(name, called_with))
    given = words.for_proved(name, called_with)
    return os.execv(program, [program, *given])
