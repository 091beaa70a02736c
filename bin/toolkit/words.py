"""Which words of a program name files, and how each of these is handed to it.

The proved program gets the words as they are. It takes names that are UTF-8 alone, so a file of another name is opened
here, and goes by its descriptor.

The program that `rt try` builds runs in a folder of its own and has no descriptors of the caller's. Each file that can be
opened is opened here and goes by a path to its descriptor in /proc; a pipe and the like is read whole into a file first.
A file that can't be opened goes by a path on which the program fails with the same error. Lines that name such paths are
turned back, so that they name files as the caller did. Where words may say something else too, one that names nothing stays.
"""

import fcntl
import os
import shutil
import stat
import tempfile

# The programs whose words are options too; each word of another program may name a file, or say what it does.
WITH_OPTIONS = ("bpf_prepare", "inspect_object")
# The options before a file, and those before another word.
FILE_OPTIONS = (b"--types", b"--object", b"--symbols", b"--settings")
VALUE_OPTIONS = (b"--types-order", b"--format", b"--deny", b"--map", b"--global", b"--optional", b"--program", b"--extract")

# The characters that have escapes of their own in messages.
ESCAPES = {'"': '\\"', "\\": "\\\\", "\n": "\\n", "\r": "\\r", "\t": "\\t", "\0": "\\0"}

# Files that are opened here get descriptors from this one on: lower ones may be named by the caller.
FIRST_DESCRIPTOR = 200


def is_option(word):
    """Whether a word of a program with options is one; a dash alone names a file."""
    return word.startswith(b"-") and word != b"-"


def file_places(program, words):
    """Where words name files: the position of each such word, and how many of its bytes stand before the name."""
    if program not in WITH_OPTIONS:
        return [(at, 0) for at in range(len(words))]
    places = []
    at = 0
    while at < len(words):
        word, has_value = words[at], at + 1 < len(words) and not is_option(words[at + 1])
        if word == b"--":
            return places + [(after, 0) for after in range(at + 1, len(words))]
        if word in FILE_OPTIONS + VALUE_OPTIONS and has_value:
            at += 1
            if word in FILE_OPTIONS:
                places.append((at, 0))
        elif word.split(b"=")[0] in FILE_OPTIONS and b"=" in word:
            places.append((at, word.index(b"=") + 1))
        elif not is_option(word):
            places.append((at, 0))
        at += 1
    return places


def is_text(word):
    """Whether a word is UTF-8."""
    try:
        word.decode("utf-8")
    except UnicodeDecodeError:
        return False
    return True


def opened(word):
    """A high descriptor of the file that a word names, or None where it can't be opened or is a folder."""
    try:
        low = os.open(word, os.O_RDONLY | os.O_CLOEXEC)
    except (OSError, ValueError):
        return None
    try:
        if stat.S_ISDIR(os.fstat(low).st_mode):
            return None
        return fcntl.fcntl(low, fcntl.F_DUPFD_CLOEXEC, FIRST_DESCRIPTOR)
    finally:
        os.close(low)


def read_whole(descriptor):
    """A descriptor of a file without a name that holds all that comes from another descriptor, which is closed."""
    with os.fdopen(descriptor, "rb") as file, tempfile.TemporaryFile() as copy:
        shutil.copyfileobj(file, copy)
        copy.flush()
        return fcntl.fcntl(copy.fileno(), fcntl.F_DUPFD_CLOEXEC, FIRST_DESCRIPTOR)


def for_proved(program, words):
    """The words for the proved program, which takes the place of this process."""
    words = list(words)
    for at, before in file_places(program, words):
        option, name = words[at][:before], words[at][before:]
        if not is_text(name):
            descriptor = opened(name)
            if descriptor is not None:
                os.set_inheritable(descriptor, True)
                words[at] = option + b"/dev/fd/%d" % descriptor
    return words


def is_printed(byte):
    """Whether a byte stands for itself in double quotes in the lines of a program."""
    return 0x20 <= byte <= 0x7E and byte not in b'"\\'


def quoted(word):
    """A name in double quotes, as it stands in the lines that `inspect_object` prints."""
    return b'"' + b"".join(b"%c" % byte if is_printed(byte) else b"\\x%02x" % byte for byte in word) + b'"'


def escaped(letter):
    """A character in double quotes, as messages have it: with the escapes of Rust."""
    if letter in ESCAPES:
        return ESCAPES[letter]
    return letter if letter.isprintable() else f"\\u{{{ord(letter):x}}}"


def told(word):
    """A name in double quotes, as messages have it."""
    return b'"' + "".join(map(escaped, word.decode("utf-8", "replace"))).encode() + b'"'


class Handed:
    """The words for a program that `rt try` runs while this process waits, and the files that are open for it.

    `folder` is the one that the words' names start from.
    """

    def __init__(self, program, words, folder=b"."):
        self.process = b"/proc/%d" % os.getpid()
        self.descriptors = []
        self.named = {}
        self.words = list(words)
        self.folder = os.path.abspath(folder)
        for at, before in file_places(program, words):
            if program in WITH_OPTIONS or self.may_name(words[at]):
                self.words[at] = words[at][:before] + self.path_of(words[at][before:])
        # `rt try` takes no others.
        self.are_texts = all(map(is_text, self.words))

    def may_name(self, word):
        """Whether a word of a program whose words may say something else names a file: it is there, or in a folder."""
        return b"/" in word or os.path.lexists(os.path.join(self.folder, word))

    def path_of(self, word):
        """The path by which a file goes."""
        try:
            descriptor = opened(os.path.join(self.folder, word) if word else word)
            if descriptor is not None and not stat.S_ISREG(os.fstat(descriptor).st_mode):
                descriptor = read_whole(descriptor)
        except OSError:
            descriptor = None
        if descriptor is None:
            return self.unread(word)
        self.descriptors.append(descriptor)
        path = self.process + b"/fd/%d" % descriptor
        self.named[path] = word
        return path

    def unread(self, word):
        """A path that can't be read either, with the same error."""
        if word == b"" or word.startswith(b"/"):
            return word
        return self.start() + word

    def start(self):
        """What stands before names in paths of files that can't be read."""
        if self.folder == os.path.abspath(b"."):
            return self.process + b"/cwd/"
        return self.folder + b"/"

    def as_called(self, text, quote=quoted):
        """What a program printed, with the files named as the caller did; `quote` says how names stand in double quotes."""
        # One path may begin another, so that the longer ones come first.
        for path, word in sorted(self.named.items(), reverse=True):
            text = text.replace(b'"' + path + b'"', quote(word)).replace(path, word)
        return text.replace(self.start(), b"")

    def as_told(self, text):
        """What a program wrote on standard error, likewise."""
        return self.as_called(text, told)

    def close(self):
        while self.descriptors:
            os.close(self.descriptors.pop())
