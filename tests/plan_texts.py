"""Texts of plans, read line by line as docs/FORMATS.md has them: whether a text is a plan's, and at which line it stops being one.

It shares no code with the program, and keeps of the lines before only what a later line hangs on.
"""

import collections
import itertools
import re

# What a later line hangs on: what came last, the version, the features that were named, the names of the last map and program,
# and whether that map is one by types.
State = collections.namedtuple("State", "last version features map_name is_btf program_name")
BEGIN = State("begin", 0, frozenset(), None, False, None)

HEX = rb"(-|(?:[0-9a-f]{2})+)"
NUMBER = rb"(0|[1-9][0-9]*)"
WORDS = rb" ".join([NUMBER] * 10)
FEATURES = "Func FuncGlobal DataSec DataSecZero Float DeclTag TypeTag Enum64".split()
ANY_VERSION = 2**32 - 2
# The greatest A and B of the kinds that have fields, by the kind's number.
FIELDS = {
    2: (1, 1),
    3: (1, 1),
    6: (1, 2),
    8: (1, 0),
    11: (2, 0),
    12: (11, 0),
    14: (1, 0),
    18: (1, 0),
    21: (1, 0),
    22: (1, 0),
    26: (1, 0),
    27: (3, 0),
    29: (1, 0),
}
KINDS = 30
# Rows whose plans have each kind of line between them.
ROWS = ("map-of-maps", "value-of-constant", "tables-of-called-function", "records-of-functions", "records-of-lines")


def bytes_of(word):
    return b"" if word == b"-" else bytes.fromhex(word.decode())


def fit(words, bits):
    return all(int(word) < 2**bits for word in words)


def is_name_after(name, before):
    """Whether a name is UTF-8 and rises over the one before, if there is one."""
    try:
        name.decode("utf-8")
    except UnicodeDecodeError:
        return False
    return before is None or name > before


def is_words(words, is_btf):
    """Whether ten numbers are those of a map that types define, or of one that words define."""
    extra, pin, number, key_type, value_type = (int(words[place]) for place in (5, 6, 7, 8, 9))
    zeros = [number] if is_btf else [extra, key_type, value_type]
    return fit(words[:5] + words[6:], 32) and fit(words[5:6], 64) and pin < 2 and not any(zeros)


def read_version_line(state, found):
    return state._replace(last="header", version=int(found[1]))


def read_license(state, found):
    return None if 0 in bytes_of(found[1]) else state._replace(last="license")


def read_version(state, found):
    is_version = found[1] == b"any" or (fit([found[1]], 32) and int(found[1]) != ANY_VERSION)
    return state._replace(last="version") if is_version else None


def read_feature(state, found):
    name = found[1].decode()
    if name not in FEATURES or name in state.features:
        return None
    return state._replace(features=state.features | {name})


def read_types(state, found):
    return state._replace(last="types")


def read_map(state, found):
    name, number, form, *words = found.groups()[:13]
    name, is_btf = bytes_of(name), form == b"btf"
    if not is_name_after(name, state.map_name) or not fit([number], 31) or not is_words(words, is_btf):
        return None
    return state._replace(last="map", map_name=name, is_btf=is_btf)


def read_inner(state, found):
    return state._replace(last="inner") if is_words(list(found.groups()), state.is_btf) else None


def read_program(state, found):
    name, kind, *fields = found.groups()
    if not is_name_after(bytes_of(name), state.program_name) or int(kind) >= KINDS:
        return None
    if any(int(field) > most for field, most in zip(fields, FIELDS.get(int(kind), (0, 0)))):
        return None
    return state._replace(last="program", program_name=bytes_of(name))


def read_slots(state, found):
    is_whole = len(bytes_of(found[1])) % 8 == 0
    return state._replace(last="slots" if state.version == 2 else "tables") if is_whole else None


def read_tables(state, found):
    places = [int(place) for place in found[1].split()] if found[1] not in (b"-", b"?") else []
    is_rising = all(one < next_one for one, next_one in zip(places, places[1:]))
    return state._replace(last="tables") if is_rising and all(place < 2**32 for place in places) else None


def read_function(state, found):
    return state if fit(found.groups(), 32) else None


def read_line_record(state, found):
    return state._replace(last="line") if fit(found.groups(), 32) else None


def read_end(state, _found):
    return state._replace(last="end")


# A line's form, after which lines it may stand, and what comes of it.
LINES = [
    (rb"bpf-plan ([12])", "begin", read_version_line),
    (rb"license " + HEX, "header", read_license),
    (rb"version (any|0|[1-9][0-9]*)", "license", read_version),
    (rb"feature ([A-Za-z0-9]+) (?:yes|no)", "version", read_feature),
    (rb"types (none|(?:[0-9a-f]{2})+)", "version", read_types),
    (rb"map " + HEX + rb" " + NUMBER + rb" (legacy|btf) " + WORDS + rb" " + HEX, "types map inner", read_map),
    (rb"inner " + WORDS, "map", read_inner),
    (rb"program " + HEX + rb" " + rb" ".join([NUMBER] * 3), "types map inner tables line", read_program),
    (rb"slots " + HEX, "program", read_slots),
    (rb"tables (-|\?|(?:0|[1-9][0-9]*)(?: (?:0|[1-9][0-9]*))*)", "slots", read_tables),
    (rb"func " + rb" ".join([NUMBER] * 2), "tables", read_function),
    (rb"line " + rb" ".join([NUMBER] * 4), "tables line", read_line_record),
    (rb"end", "types map inner tables line", read_end),
]
FORMS = [(re.compile(form, re.DOTALL), frozenset(before.split()), read) for form, before, read in LINES]


def read_line(state, line):
    """What is kept after one more line, None where no plan's text has it there."""
    for form, before, read in FORMS:
        found = form.fullmatch(line)
        if found:
            return read(state, found) if state.last in before else None
    return None


def states_of(text):
    """What is kept before each line of a plan's text, and after the last."""
    states = [BEGIN]
    for line in text.split(b"\n")[:-1]:
        states.append(read_line(states[-1], line))
    return states


def refused_line(text):
    """The first line, from 1, with which no plan's text begins, where a text stops early the one after its last; 0 for a plan's."""
    state = BEGIN
    *lines, rest = text.split(b"\n")
    for number, line in enumerate(lines, 1):
        state = read_line(state, line)
        if state is None:
            return number
    return 0 if state.last == "end" and not rest else len(lines) + 1


def refused_line_changed(text, states, at, value):
    """The same of a plan's text with one byte changed, of which the lines before the change needn't be read again."""
    number = text.count(b"\n", 0, at)
    begin = text.rfind(b"\n", 0, at) + 1
    changed = text[begin:at] + bytes([value]) + text[at + 1 :]
    state = states[number]
    *lines, rest = changed.split(b"\n")
    is_same_number = (value == 10) == (text[at] == 10)
    for place, line in enumerate(lines):
        state = read_line(state, line)
        number += 1
        if state is None:
            return number
        # From here on the text is the plan's, and so is what is kept.
        if is_same_number and place == 0 and state == states[number]:
            return 0
    return 0 if state.last == "end" and not rest else number + 1


def changed_lines(text):
    """For each byte of a plan's text, the line that `exercises changed-lines` must print: where the text is refused with each other
    value of the byte."""
    states = states_of(text)
    lines = []
    for at in range(len(text)):
        numbers = [refused_line_changed(text, states, at, value) for value in range(256) if value != text[at]]
        runs = "".join(f" {number}*{len(list(run))}" for number, run in itertools.groupby(numbers))
        lines.append(f"{at}:{runs}")
    return lines


# Words that are at the edges of what a line may have.
EDGES = tuple(
    b" - ? 0 00 1 2 +1 -1 a 4294967294 4294967295 4294967296 2147483647 2147483648 18446744073709551615 18446744073709551616 "
    b"any none yes no end btf legacy map 0a 0A c280 c080 dfbf e0a080 e09f80 eda080 ed9fbf efbfbf f0908080 f08f8080 f48fbfbf "
    b"f4908080 f5 80 e282 00 61 6100".split(b" ")
)


def changed_text(text, others, random):
    """A text with lines or words that are moved, left out, doubled, or taken from other texts."""
    lines = text.split(b"\n")
    for _ in range(random.randint(1, 3)):
        at, other = random.randrange(len(lines)), random.choice(random.choice(others).split(b"\n"))
        change = random.randrange(6)
        if change < 2:
            words = lines[at].split(b" ")
            words[random.randrange(len(words))] = random.choice(EDGES if change else EDGES + tuple(other.split(b" ")))
            lines[at] = b" ".join(words)
        elif change == 2:
            lines[at : at + 1] = []
        elif change == 3:
            lines.insert(at, random.choice([other, lines[random.randrange(len(lines))]]))
        elif change == 4:
            lines[at] = other
        else:
            lines[at] = lines[at][: random.randrange(len(lines[at]) + 1)]
        lines = lines or [b""]
    return b"\n".join(lines)
