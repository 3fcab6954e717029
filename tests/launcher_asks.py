"""launcher_asks.py: the launcher asked by tests where something is wrong, and what is due then.

Status 0 is an answer, 1 a refusal, 2 anything else, with one line on standard error; nothing hangs.
"""
import contextlib
import os
import pathlib
import re
import shutil
import signal
import socket
import struct
import subprocess
import sys
import time

ROOT = pathlib.Path(__file__).resolve().parent.parent
LAUNCHER = ROOT / "mustorgyel"
EXAMPLE = ROOT / "examples/wire-14.net"
PRINTED = b"least 1\nwire 1 offset 6 drives 10\nsource drives 10\n"
KIT = pathlib.Path(os.environ.get("RATTLE_HOME") or pathlib.Path(shutil.which("rt")).resolve().parent.parent)
HANG = 300  # seconds; a build of small crates takes forty
wrong = 0
asked = 0


def expect(holds, name, done):
    global asked, wrong
    asked += 1
    if not holds:
        wrong += 1
        print(f"WRONG: {name}: {done}")


def end(what):
    print(f"{what}: {asked} questions, {wrong} wrong")
    sys.exit(wrong > 0)


def ask(*words, folder=ROOT, closed=(), env=None, stdin=subprocess.DEVNULL, stdout=subprocess.PIPE, **more):
    """The launcher's status, standard output and standard error; a status of None is one that hangs."""
    process = subprocess.Popen([folder / "mustorgyel", *words], stdin=stdin, stdout=stdout, stderr=subprocess.PIPE, start_new_session=True,
                               preexec_fn=lambda: [os.close(number) for number in closed], env={**os.environ, **(env or {})}, **more)
    try:
        out, err = process.communicate(timeout=HANG)
        return process.returncode, out or b"", err.decode()
    except subprocess.TimeoutExpired:
        os.killpg(process.pid, signal.SIGKILL)
        process.communicate()
        return None, b"", "it hangs"


def answers(name, done, printed=PRINTED, status=0):
    expect(done[:2] == (status, printed), name, done)


def says(name, done, *words):
    """Status 2, no answer, and one line that has these words."""
    status, out, err = done
    one = re.fullmatch("mustorgyel: [^\n]+\n", err)
    expect(status == 2 and not out and one and all(word in err for word in words), name, done)


def ends(name, done, *words):
    """The same after a build, whose lines come first."""
    status, out, err = done
    says(name, (status, out, "".join(err.splitlines(keepends=True)[-1:])), *words)


def broken_connection(data):
    """A connection that delivered some bytes and was then reset."""
    with socket.create_server(("127.0.0.1", 0)) as server:
        ours = socket.create_connection(server.getsockname())
        theirs = server.accept()[0]
    theirs.sendall(data)
    theirs.setsockopt(socket.SOL_SOCKET, socket.SO_LINGER, struct.pack("ii", 1, 0))
    while len(ours.recv(len(data), socket.MSG_PEEK)) < len(data):
        time.sleep(0.01)
    theirs.close()
    return ours


def wait_for_program(launcher, *last):
    """The number of the process below this launcher whose last words are these, and which runs what they name."""
    until = time.time() + HANG
    while time.time() < until:
        for folder in pathlib.Path("/proc").glob("[0-9]*"):
            with contextlib.suppress(OSError):
                words = (folder / "cmdline").read_bytes().split(b"\0")
                if words[-1 - len(last):-1] == [os.fsencode(word) for word in last] and launcher in ancestors(folder):
                    return int(folder.name)
        time.sleep(0.05)
    sys.exit("the program does not start")


def ancestors(folder):
    while folder.name != "0":
        parent = int((folder / "stat").read_text().rpartition(")")[2].split()[1])
        yield parent
        folder = pathlib.Path("/proc") / str(parent)
