"""What a program's `--help` says, taken apart: the one text that man pages and completions are made of."""

import collections
import re

# An argument or an option: its names as they are typed, the name of its value, what it does, and the values that it may have.
Option = collections.namedtuple("Option", "names value text choices")
# A help: how it is called, what the program does, its arguments, its options, and the paragraphs after them.
Help = collections.namedtuple("Help", "usage about arguments options notes")

# The headings, as clap and as Python's argparse write them.
ARGUMENTS = ("Arguments:", "positional arguments:")
OPTIONS = ("Options:", "options:", "optional arguments:")
USAGE = re.compile(r"usage: *", re.IGNORECASE)
# A line of an argument or an option: its words, and after two spaces or more its text.
ITEM = re.compile(r" {2,6}(\S(?:\S| (?! ))*)(?: {2,}(\S.*))?")
CONTINUED = re.compile(r" {7,}(\S.*)")
CHOICES = re.compile(r" ?\[possible values: ([^]]+)\]")


def option_of(words, text):
    """The option of a line's words, such as `-h, --help` or `--types <FILE>`."""
    names = [word.rstrip(",") for word in words.split() if word.startswith("-")]
    values = [word.strip("<>,") for word in words.split() if not word.startswith("-")]
    choices = CHOICES.search(text)
    return Option(names, values[0] if values else "", CHOICES.sub("", text), choices[1].split(", ") if choices else [])


def options_of(lines):
    """The options of the lines below a heading; a text may go on in the next line."""
    items = []
    for line in lines:
        continued, item = CONTINUED.fullmatch(line), ITEM.fullmatch(line)
        if continued and items and not continued[1].startswith("-"):
            items[-1][1] += " " + continued[1]
        elif item:
            items.append([item[1], item[2] or ""])
        else:
            raise ValueError(f"a help has an odd line: {line!r}")
    return [option_of(words, text.strip()) for words, text in items]


def paragraphs_of(text):
    """The lines of each paragraph of a text."""
    return [paragraph.split("\n") for paragraph in re.split(r"\n{2,}", text.strip("\n"))]


def parsed(text):
    """Takes a help apart."""
    found = Help("", [], [], [], [])
    for lines in paragraphs_of(text):
        if USAGE.match(lines[0]):
            usage = USAGE.sub("", " ".join(line.strip() for line in lines))
            found = found._replace(usage=usage)
        elif lines[0] in ARGUMENTS:
            found = found._replace(arguments=options_of(lines[1:]))
        elif lines[0] in OPTIONS:
            found = found._replace(options=options_of(lines[1:]))
        else:
            (found.notes if found.options else found.about).append(lines)
    if not (found.usage and found.about and found.options):
        raise ValueError("a help lacks its usage, what the program does, or its options")
    return found
