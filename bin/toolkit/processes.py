"""Processes that are ended with the script that began them, and folders that go with it."""

import contextlib
import os
import shutil
import signal
import subprocess
import tempfile

# The signals that end a script, and how long what it began may take to end by itself.
ENDING = (signal.SIGINT, signal.SIGTERM, signal.SIGHUP)
PATIENCE = 15

began = []


class Ended(BaseException):
    """The script was told to end."""

    def __init__(self, number):
        super().__init__(number)
        self.number = number


def raise_ended(number, _frame):
    # One signal is enough: a second one mustn't stop the tidying.
    for other in ENDING:
        signal.signal(other, signal.SIG_IGN)
    raise Ended(number)


def begin(words, **how):
    """Begins a command in a process group of its own."""
    how.setdefault("stdin", subprocess.DEVNULL)
    process = subprocess.Popen(words, start_new_session=True, **how)
    began.append(process)
    return process


def finish(process, **how):
    """Waits for a command, and gives what it wrote, if that is read here."""
    output = process.communicate(**how)
    forget(process)
    return output


def forget(process):
    """Ends what is left of a command's group, once the command itself has ended."""
    with contextlib.suppress(ProcessLookupError):
        os.killpg(process.pid, signal.SIGKILL)
    began.remove(process)


def tell(process):
    """Tells a command to end, as by Ctrl-C: `rt ci` then puts back what it set aside, and `rt try` ends the program that it runs."""
    with contextlib.suppress(ProcessLookupError):
        os.killpg(process.pid, signal.SIGINT)


def wait(process):
    """Waits for a command that was told to end, and kills it if it doesn't."""
    with contextlib.suppress(subprocess.TimeoutExpired):
        process.wait(PATIENCE)
    forget(process)


def end(process):
    """Ends a command that is running."""
    tell(process)
    wait(process)


def end_all():
    """Ends all commands that are running: each is told to, and what doesn't end is killed."""
    for process in began:
        tell(process)
    while began:
        wait(began[0])


@contextlib.contextmanager
def folder():
    """A folder that is there as long as it is needed, also for what is begun meanwhile."""
    path = tempfile.mkdtemp(prefix="morvezin-")
    try:
        yield path
    finally:
        end_all()
        shutil.rmtree(path, ignore_errors=True)


def run(main):
    """Runs a script's work: `main` gives the status. Told to end, it ends all that it began, and then itself."""
    for number in ENDING:
        # A script that is to outlive its terminal does so.
        if number != signal.SIGHUP or signal.getsignal(number) is not signal.SIG_IGN:
            signal.signal(number, raise_ended)
    try:
        status = main()
    except Ended as ended:
        end_all()
        signal.signal(ended.number, signal.SIG_DFL)
        os.kill(os.getpid(), ended.number)
        status = 128 + ended.number
    finally:
        end_all()
    raise SystemExit(status)
