"""Files and standard streams for the desk's tools: one line on standard error and status 2 where something fails, never a traceback."""
import errno
import os
import signal
import stat
import sys

NO_ANSWER = 2


class NoAnswer(Exception):
    """There is nothing to print; the message is for the person."""


def shown(name):
    """A file's name as a person sees it, on one line: control bytes and the backslash in octal, as an audit has them."""
    if name == "-":
        return "standard input"
    return "".join(f"\\{ord(sign):03o}" if ord(sign) < 32 or ord(sign) in (92, 127) else sign for sign in name)


def read_all(name, most):
    """The bytes of a file, or of standard input where the name is -."""
    try:
        descriptor = 0 if name == "-" else os.open(name, os.O_RDONLY)
        return read_to_end(descriptor, most)
    except FileNotFoundError:
        raise NoAnswer(f"{shown(name)}: no such file") from None
    except IsADirectoryError:
        raise NoAnswer(f"{shown(name)} is a folder") from None
    except OSError as why:
        raise NoAnswer(f"{shown(name)} could not be read ({why.strerror})") from None


def read_to_end(descriptor, most):
    """Not by a file of Python's, which takes a read that would have to wait for the end."""
    data = bytearray()
    while part := os.read(descriptor, 1 << 16):
        data += part
        if len(data) > most:
            raise OSError(errno.EFBIG, f"it has more than {most:,} bytes")
    return bytes(data)


def read_regular(name, most):
    """The first bytes of a regular file and how many it has in all; None where there is no such file."""
    try:
        with open(os.open(name, os.O_RDONLY | os.O_NONBLOCK), "rb") as file:
            about = os.fstat(file.fileno())
            return (file.read(most), about.st_size) if stat.S_ISREG(about.st_mode) else None
    except (OSError, ValueError):
        return None


def write(descriptor, data):
    while data:
        data = data[os.write(descriptor, data):]


def tell(line):
    """One line on standard error; where that is closed there is nobody to tell."""
    try:
        write(2, os.fsencode(line + "\n"))
    except OSError:
        pass


def run(answer):
    """Ends the program with what answer(words) gives: the bytes for standard output. They are written whole or the status is 2."""
    signal.signal(signal.SIGINT, signal.SIG_DFL)
    try:
        data = answer(sys.argv[1:])
        try:
            write(1, data)
        except OSError:
            raise NoAnswer("standard output could not be written") from None
    except NoAnswer as why:
        tell(f"mustorgyel: {why}")
        sys.exit(NO_ANSWER)
