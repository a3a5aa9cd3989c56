"""What every tool does at its door: how it reads files, what it says when something is wrong, and its exit status.

  sys.exit(door.main(work))      work(arguments) gives the status. Where something is wrong there is one line on standard error, never a
                                 traceback: 2 for what is Wrong, 1 for an output that cannot be written. A closed pipe ends quietly.
"""
import errno
import os
import signal
import sys


class Wrong(Exception):
    """Something given that cannot be used, such as a text that is no stream: one line that says why."""


def say(line):
    """A line on standard error, if there is one that takes it."""
    try:
        if sys.stderr:
            print(f"meter: {line}", file=sys.stderr, flush=True)
    except OSError:
        discard(sys.stderr)


def discard(output):
    """Lets what is still held back for an output go nowhere, so that the program's end does not try again."""
    nowhere = os.open(os.devnull, os.O_WRONLY)
    os.dup2(nowhere, output.fileno())


def called(name):
    return "standard input" if name == "-" else name


def content(name):
    """The bytes of a file; - is standard input."""
    try:
        if name != "-":
            with open(name, "rb") as file:
                return file.read()
        if sys.stdin:
            return sys.stdin.buffer.read()
        raise OSError(errno.EBADF, os.strerror(errno.EBADF))
    except OSError as error:
        raise Wrong(f"{called(name)}: {error.strerror}") from None


def is_text(data):
    """Whether bytes are UTF-8 without a NUL."""
    try:
        return "\0" not in data.decode()
    except UnicodeDecodeError:
        return False


def decode(data, errors="strict"):
    """Bytes as text, in which a line ends with one character."""
    return data.decode("utf-8-sig", errors).replace("\r\n", "\n").replace("\r", "\n")


def read(name):
    """The text of a file; - is standard input."""
    data = content(name)
    if not is_text(data):
        raise Wrong(f"{called(name)}: not a text")
    return decode(data)


def prepare():
    """Signals end a tool as they end any other program; what it writes is UTF-8, whatever the locale."""
    for number in (signal.SIGPIPE, signal.SIGINT):
        signal.signal(number, signal.SIG_DFL)
    for output in filter(None, (sys.stdout, sys.stderr)):
        output.reconfigure(encoding="utf-8", errors="backslashreplace", newline="\n")


def status_of(work):
    """The status that work gives, all its output written; 2 for what is Wrong."""
    try:
        return work(sys.argv[1:])
    except Wrong as wrong:
        say(wrong)
        return 2
    finally:
        sys.stdout.flush()


def main(work):
    prepare()
    if sys.stdout is None:
        say(f"standard output: {os.strerror(errno.EBADF)}")
        return 1
    try:
        return status_of(work)
    except OSError as error:
        say(f"standard output: {error.strerror}")
        discard(sys.stdout)
        return 1
