"""desk_program.py: the program `desk` run by its protocol, without the launcher.

Files are open on descriptors 4, 5 and 6, what `-o` writes goes to 7, and one byte on 3 is the status. In an audit a path that is not
UTF-8 comes from 8, the answer goes to 9, and 10 is the folder of the link.
"""
import contextlib
import fcntl
import os
import pathlib
import platform
import shutil
import subprocess
import tempfile
import threading
from collections import namedtuple

ROOT = pathlib.Path(__file__).resolve().parent.parent
PROGRAM = ROOT / "target/bin/desk"
VERBS = ("solve", "check", "loads", "carry", "finish")
WRITERS = ("solve", "carry", "finish")      # the verbs that have -o
HANG = 120                                  # seconds

# Standard output, what -o wrote, the status (0, 1, or 2 where no byte came), standard error.
Said = namedtuple("Said", "text written status words")


def kit():
    """The folder of the Rattle kit, found as the launcher finds it."""
    home = os.environ.get("RATTLE_HOME")
    return pathlib.Path(home).resolve() if home else pathlib.Path(shutil.which("rt")).resolve().parent.parent


def runner():
    """The words before the program's name: it is an x86-64 program, and elsewhere it takes the kit's emulator."""
    tools = kit() / "on" / platform.machine() / "toolchain"
    emulator = [] if platform.machine() == "x86_64" else [tools / "bin/qemu-x86_64"]
    loader = tools / "lib/ld-linux-x86-64.so.2"
    return emulator + ([loader, "--library-path", tools / "lib"] if loader.exists() else [])


def start(words, folder, opened, stdin=subprocess.DEVNULL, passed=()):
    """The program's standard output and standard error; `opened` is what the shell opens for it, some of it from descriptors passed to it."""
    return subprocess.run(["bash", "-c", f'exec "$@" {opened}', "bash", *runner(), PROGRAM, *words], cwd=folder, stdin=stdin,
                          capture_output=True, timeout=HANG, check=False, pass_fds=passed)


def status_of(byte):
    return {b"0": 0, b"1": 1}.get(byte, 2)


def ask(verb, files):
    """A verb on the bytes of its files, with -o where it has that."""
    with tempfile.TemporaryDirectory() as folder:
        room = pathlib.Path(folder)
        opened = "3>status 7>written"
        for number, data in enumerate(files, 4):
            (room / f"file{number}").write_bytes(data)
            opened += f" {number}<file{number}"
        done = start([verb, "-o"] if verb in WRITERS else [verb], room, opened)
        return Said(done.stdout, (room / "written").read_bytes(), status_of((room / "status").read_bytes()), done.stderr)


def audit(folder, names):
    """An audit of these names, which are bytes, in a folder."""
    with tempfile.TemporaryDirectory() as room, links(folder) as given:
        listed = pathlib.Path(room) / "names"
        listed.write_bytes(b"".join(name + b"\0" for name in names))
        opened = "".join(f" {number}<&{descriptor}" for number, descriptor in zip((8, 9, 10), given))
        with listed.open("rb") as stdin:
            done = start(["audit"], folder, f"3>{room}/status {opened}", stdin, given)
        return Said(done.stdout, b"", status_of((pathlib.Path(room) / "status").read_bytes()), done.stderr)


@contextlib.contextmanager
def links(folder):
    """What an audit gets on 8, 9 and 10, and somebody who lays the links that it asks for."""
    with tempfile.TemporaryDirectory() as place:
        asked, asks = map(high, os.pipe())
        answers, answered = map(high, os.pipe())
        opened = high(os.open(place, os.O_RDONLY))
        thread = threading.Thread(target=lay_links, args=(os.path.abspath(os.fsencode(folder)), os.fsencode(place), asked, answered))
        thread.start()
        try:
            yield asks, answers, opened
        finally:
            for descriptor in (asks, answers, opened):
                os.close(descriptor)
            thread.join()


def high(descriptor):
    """The same where it is none of those that the program gets."""
    try:
        return fcntl.fcntl(descriptor, fcntl.F_DUPFD_CLOEXEC, 20)
    finally:
        os.close(descriptor)


def lay_links(folder, place, asked, answered):
    """One link at a time, for each path that is asked for with a 0 byte after it."""
    link = os.path.join(place, b"link")
    with open(asked, "rb") as asked, open(answered, "wb", buffering=0) as answered:
        path = b""
        while byte := asked.read(1):
            if byte != b"\0":
                path += byte
                continue
            with contextlib.suppress(FileNotFoundError):
                os.remove(link)
            os.symlink(os.path.join(folder, path), link)
            answered.write(b"1")
            path = b""
