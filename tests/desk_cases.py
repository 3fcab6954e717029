"""desk_cases.py: the verbs of ./mustorgyel where something is wrong, and the files that they write. Run by tests/program.

Status 2 comes with one line on standard error and without an answer; what `-o` names is there whole or not at all, and what stood there
before stays unless --force is said; nothing is left behind.
"""
import contextlib
import multiprocessing.pool
import os
import pathlib
import pty
import re
import resource
import shutil
import signal
import socket
import stat
import subprocess
import tempfile
import xml.etree.ElementTree

import launcher_asks
import reference as ref
from compare_references import net, sink
from launcher_asks import EXAMPLE, HANG, KIT, LAUNCHER, PRINTED, ROOT, answers, ask, broken_connection, expect, says, wait_for_program
from reference import Placement

EXAMPLES = ROOT / "examples"
PLACE, HIGH, CUT = EXAMPLES / "wire-14.place", EXAMPLES / "too-high.place", EXAMPLES / "cut.net"
THIRTY, GIVEN, FINISHED = EXAMPLES / "wire-30.net", EXAMPLES / "wire-30.place", EXAMPLES / "wire-30-finished.place"
LEGAL = b"legal 1\nsource drives 10\n"
REFUSED = b"refused 11 place 0\n"
VERBS = ("solve", "check", "loads", "carry", "finish", "audit", "explain", "text", "file", "picture")
# A call of each verb that prints something, and one of each that writes a file.
PRINTING = (("solve", EXAMPLE), ("check", EXAMPLE, PLACE), ("check", EXAMPLE, HIGH), ("loads", EXAMPLE, HIGH), ("carry", EXAMPLE, EXAMPLE, PLACE),
            ("finish", THIRTY, GIVEN), ("audit", EXAMPLES), ("explain", CUT), ("text", PLACE), ("file", EXAMPLES / "wire-14.hex"), ("solve", "--help"))
WRITING = (("solve", EXAMPLE, "-o"), ("carry", EXAMPLE, EXAMPLE, PLACE, "-o"), ("finish", EXAMPLE, PLACE, "-o"))


def refuses(name, done, printed, *words):
    """A refusal on standard output, and one line of words on standard error."""
    status, out, err = done
    expect((status, out) == (1, printed) and re.fullmatch("[^\n]+\n", err) and all(word in err for word in words), name, done)


def quiet(name, done, printed=b"", status=0):
    expect(done == (status, printed, ""), name, done)


@contextlib.contextmanager
def room():
    """A folder of its own, where nothing of the launcher may be left."""
    with tempfile.TemporaryDirectory() as folder:
        yield pathlib.Path(folder)
        left = [name for name in os.listdir(folder) if name.startswith(".mustorgyel")]
        expect(not left, "nothing half made is left", left)


# ---------------------------------------------------------------- standard streams

def standard_output():
    read, write = os.pipe()
    os.close(read)
    with open("/dev/full", "wb") as full, open("/dev/null", "rb") as read_only, room() as folder:
        for words in PRINTING:
            for name, stdout in (("a full disk", full), ("a reader that went away", write), ("open for reading", read_only)):
                says(f"{words[0]}, {name}", ask(*words, stdout=stdout), "standard output")
            says(f"{words[0]}, closed standard output", ask(*words, closed=[1]), "standard output")
        for words in WRITING:
            says(f"{words[0]} -o on a full disk", ask(*words, "x", stdout=full, cwd=folder), "standard output")
        says("a picture's refusal on a full disk", ask("picture", EXAMPLE, HIGH, "x.svg", stdout=full, cwd=folder), "standard output")
        expect(not os.listdir(folder), "no answer, no file", os.listdir(folder))
    os.close(write)


def standard_input():
    """It is no file's business where no file is called -."""
    for words, printed in ((("solve", "-"), PRINTED), (("check", "-", PLACE), LEGAL), (("check", EXAMPLE, "-"), LEGAL)):
        name = "-".join(map(str, words))
        says(f"{name}, closed", ask(*words, closed=[0]), "standard input")
        with open(EXAMPLE if words[1] == "-" else PLACE, "rb") as file:
            answers(name, ask(*words, stdin=file), printed)
    answers("closed standard input beside files", ask("check", EXAMPLE, PLACE, closed=[0]), LEGAL)
    says("closed standard input for names", ask("audit", "-", closed=[0]), "standard input")
    says("closed standard input for a text", ask("file", "-", closed=[0]), "standard input")
    says("standard input twice", ask("check", "-", "-"), "standard input")
    says("standard input three times", ask("carry", "-", EXAMPLE, "-"), "standard input")
    folder = os.open("/tmp", os.O_RDONLY)
    says("a folder as standard input", ask("solve", "-", stdin=folder), "standard input", "folder")
    os.close(folder)


def failing_reads():
    with open("/dev/null", "wb") as write_only:
        for words in (("solve", "-"), ("check", EXAMPLE, "-"), ("carry", EXAMPLE, "-", PLACE), ("audit", "-"), ("text", "-"), ("explain", "-")):
            says(f"{words[0]}: standard input that is open for writing", ask(*words, stdin=write_only), "read")
    with broken_connection(EXAMPLE.read_bytes()) as connection:
        says("a whole file and then a connection that breaks", ask("solve", "-", stdin=connection), "read")
    with broken_connection(b"nowhere.net\0") as connection:
        status, _, err = ask("audit", "-", stdin=connection)
        expect(status == 2 and re.fullmatch("mustorgyel: [^\n]*read[^\n]*\n", err), "names and then a connection that breaks", (status, err))


def several_streams():
    """Pipes in the place of files: only one is read as it comes, and still no folder is asked for and no file is called otherwise."""
    def filled(path):
        read, write = os.pipe()
        os.write(write, path.read_bytes())
        os.close(write)
        return read

    for env in ({}, {"TMPDIR": "/nowhere"}):
        pipes = filled(EXAMPLE), filled(PLACE)
        answers(f"two pipes, {env}", ask("check", *(f"/dev/fd/{pipe}" for pipe in pipes), pass_fds=pipes, env=env), LEGAL)
        for pipe in pipes:
            os.close(pipe)
    pipe = filled(PLACE)
    with open("/dev/null", "wb") as write_only:
        asked = ask("check", "-", f"/dev/fd/{pipe}", stdin=write_only, pass_fds=[pipe])
    expect(asked == (2, b"", "mustorgyel: the net file could not be read to its end\n"), "a net that could not be read before a pipe", asked)
    os.close(pipe)


def descriptors():
    """Whatever the caller has open or closed on 3 to 10, and closed standard error."""
    read, write = os.pipe()
    taken = {"pass_fds": range(3, 11), "preexec_fn": lambda: [os.dup2(write, number) for number in range(3, 11)]}
    given = {"pass_fds": range(3, 11), "preexec_fn": lambda: [os.dup2(read, number) for number in range(3, 11)]}
    for name, more in (("taken for writing", taken), ("taken for reading", given)):
        with room() as folder:
            # ask() has a preexec_fn of its own
            done = subprocess.run([LAUNCHER, "solve", EXAMPLE, "-o", "x"], cwd=folder, stdin=subprocess.DEVNULL, capture_output=True, check=False, **more)
            expect((done.returncode, done.stdout, done.stderr) == (0, PRINTED, b""), f"descriptors {name}", done)
            expect((folder / "x").read_bytes() == PLACE.read_bytes(), f"-o with descriptors {name}", folder)
    os.set_blocking(read, False)
    expect_empty(read, write)
    with room() as folder:
        for words in PRINTING[:6]:
            status = 1 if HIGH in words and words[0] == "check" else 0
            done = ask(*words, closed=[2], cwd=folder)
            expect(done[0] == status and done[1], f"{words[0]}, closed standard error", done)
        done = ask("solve", EXAMPLE, "-o", "x", closed=[0, 2], cwd=folder)
        expect(done[0] == 0 and (folder / "x").read_bytes() == PLACE.read_bytes(), "-o, closed standard input and error", done)
        quiet("a picture, closed standard input and error", ask("picture", EXAMPLE, "x.svg", closed=[0, 2], cwd=folder))


def expect_empty(read, write):
    os.close(write)
    with open(read, "rb") as pipe:
        data = pipe.read()
    expect(not data, "nothing goes to the caller's descriptors", data)


# ---------------------------------------------------------------- words and names

def wrong_words():
    for verb in VERBS:
        says(f"{verb} alone", ask(verb), f"./mustorgyel {verb} ")
        says(f"{verb}, too many files", ask(verb, *["x"] * 4), f"./mustorgyel {verb} ")
        says(f"{verb}, an unknown option", ask(verb, "--nothing", EXAMPLE), "--nothing")
        says(f"{verb}, -o twice", ask(verb, EXAMPLE, "-o", "x", "-o", "y"), "-o")
        says(f"{verb}, -o and nothing", ask(verb, EXAMPLE, "-o"), "-o")
    for verb in ("check", "loads", "audit", "explain", "picture"):
        says(f"{verb} -o", ask(verb, EXAMPLE, PLACE, "-o", "x"), "-o")
    for verb in ("solve", "carry", "finish", "text", "file", "check", "audit", "explain"):
        says(f"{verb} --force alone", ask(verb, EXAMPLE, "--force"), "--force")
    for name in ("-", "--force", "-name", ""):
        says(f"-o {name!r}", ask("solve", EXAMPLE, "-o", name), "-o")
    says("two files and no verb", ask(EXAMPLE, PLACE), "verb")


def file_names():
    with room() as folder:
        for name in ("-odd", "--force", "two words", "new\nline", "solve", "-"):
            shutil.copy(EXAMPLE, folder / name)
        for name in ("-odd", "--force", "two words", "new\nline", "solve"):
            answers(f"solve -- {name!r}", ask("solve", "--", name, cwd=folder))
            answers(f"-- {name!r}", ask("--", name, cwd=folder))
            answers(f"./{name!r}", ask(f"./{name}", cwd=folder))
        answers("solve ./-", ask("solve", "./-", cwd=folder))
        answers("options behind --", ask("solve", "-o", "x", "--", "--force", cwd=folder))
        says("a folder", ask("check", folder, PLACE), "folder")
        says("a folder for a placement", ask("check", EXAMPLE, folder), "folder")
        for words in (("solve", "nowhere"), ("solve", ""), ("check", EXAMPLE, "nowhere"), ("carry", EXAMPLE, "nowhere", PLACE), ("text", "nowhere"),
                      ("file", "nowhere"), ("explain", "nowhere"), ("picture", "nowhere", "x.svg"), ("audit", "nowhere"), ("audit", "")):
            says(f"{words[0]}: no such file", ask(*words, cwd=folder), "no such")
        says("a name of two lines that is not there", ask("solve", "no\nsuch\\name", cwd=folder), "no\\012such\\134name: no such file")
        with socket.socket(socket.AF_UNIX) as ours:
            ours.bind(str(folder / "socket"))
            says("a file that cannot be opened", ask("solve", "socket", cwd=folder), "opened")
        os.mkfifo(folder / "pipe")
        pipe_as_file(folder / "pipe")


def pipe_as_file(pipe):
    """A named pipe is read once; after a refusal its bytes are gone, and the words do without."""
    for data, due in ((EXAMPLE.read_bytes(), PRINTED), (CUT.read_bytes(), b"refused 1 place 26\n")):
        with multiprocessing.pool.ThreadPool(1) as pool:
            writing = pool.apply_async(pipe.write_bytes, [data])
            done = ask("solve", pipe)
            writing.get(HANG)
        if due == PRINTED:
            quiet("a pipe", done, due)
        else:
            refuses("a refused pipe", done, due)


# ---------------------------------------------------------------- files that are written

def written_files():
    for words in WRITING:
        with room() as folder:
            for more in (["x"], ["x", "--force"], ["--force"]):
                before = ["--force", "-o", "x"] if more == ["--force"] else []
                done = ask(words[0], *before, *(words[1:] + tuple(more) if not before else words[1:-1]), cwd=folder)
                expect(done[0] == 0 and done[1] and not done[2], f"{words[0]}: -o {more}", done)
                expect((folder / "x").read_bytes() == PLACE.read_bytes(), f"{words[0]}: what -o wrote", folder)
            (folder / "x").write_bytes(b"kept")
            says(f"{words[0]}: a file that is there", ask(*words, "x", cwd=folder), "x", "--force")
            expect((folder / "x").read_bytes() == b"kept", f"{words[0]}: it stays", folder)
            says(f"{words[0]}: no such folder", ask(*words, "nowhere/x", cwd=folder), "nowhere/x", "folder")
            expect(os.listdir(folder) == ["x"], f"{words[0]}: and nothing else", os.listdir(folder))


def refused_files():
    """After a refusal nothing stands there, and with --force what stood there before."""
    refused = (("solve", CUT), ("solve", EXAMPLES / "pin-11.net"), ("carry", EXAMPLE, THIRTY, PLACE), ("finish", EXAMPLE, EXAMPLES / "no-such-wire.place"))
    for words in refused:
        with room() as folder:
            done = ask(*words, "-o", "x", cwd=folder)
            expect(done[0] == 1 and not os.listdir(folder), f"{words[0]} refused: no file", done)
            (folder / "x").write_bytes(b"kept")
            done = ask(*words, "-o", "x", "--force", cwd=folder)
            expect(done[0] == 1 and (folder / "x").read_bytes() == b"kept", f"{words[0]} refused: the old file", done)
    with room() as folder:
        (folder / "long.net").write_bytes(ref.net_bytes(net([sink(0, 4098, 0)], 1, 0)))
        (folder / "given").write_bytes(ref.placement_bytes(Placement([1, 1], [1, 1])))
        status, out, err = ask("finish", "long.net", "given", "-o", "x", cwd=folder)
        expect(status == 2 and out.startswith(b"added 4096\n") and len(out.splitlines()) == 4097, "finish: more than a file holds", (status, err))
        expect(re.fullmatch("mustorgyel: [^\n]*4,096[^\n]*\n", err) and not (folder / "x").exists(), "finish: no such file", err)


def odd_targets():
    with room() as folder:
        os.mkdir(folder / "folder")
        for target, name in (("good", "link"), ("nowhere", "dangling"), ("folder", "to a folder"), ("/dev/null", "to a device")):
            os.symlink(target, folder / name)
        (folder / "good").write_bytes(b"kept")
        os.mkfifo(folder / "pipe")
        odd = (("link", "link"), ("dangling", "link"), ("to a folder", "link"), ("to a device", "link"), ("folder", "folder"), ("folder/", "file"),
               ("nowhere/", "file"), ("pipe", "regular"), ("good/x", "folder"))
        for name, word in odd:
            for force in ([], ["--force"]):
                says(f"-o {name} {force}", ask("solve", EXAMPLE, "-o", name, *force, cwd=folder), name, word)
        expect((folder / "good").read_bytes() == b"kept", "what a link leads to stays", folder)
        expect(len(os.listdir(folder)) == 7 and not os.listdir(folder / "folder"), "nothing came there", os.listdir(folder))
        for name in ("two words", "new\nline", "./-dash", "back\\slash", "ü", "x" * 255, "folder/x", "./good"):
            done = ask("solve", EXAMPLE, "-o", name, "--force", cwd=folder)
            expect(done == (0, PRINTED, "") and (folder / name).read_bytes() == PLACE.read_bytes(), f"-o {name!r}", done)
        says("a name of two lines that is there", ask("solve", EXAMPLE, "-o", "new\nline", cwd=folder), "new\\012line", "--force")
        status, _, err = ask("solve", EXAMPLE, "-o", "x" * 256, cwd=folder)
        expect(status == 2 and re.fullmatch("mustorgyel: x[^\n]+\n", err), "a name that is too long", (status, err))


def own_input():
    """The placement file becomes what finish makes of it; the net file, against all sense, a placement file."""
    with room() as folder:
        shutil.copy(GIVEN, folder / "p")
        shutil.copy(EXAMPLE, folder / "n")
        says("onto an input", ask("finish", THIRTY, "p", "-o", "p", cwd=folder), "--force")
        done = ask("finish", THIRTY, "p", "-o", "p", "--force", cwd=folder)
        expect(done[0] == 0 and (folder / "p").read_bytes() == FINISHED.read_bytes(), "onto an input by --force", done)
        answers("the net's own name", ask("solve", "n", "-o", "n", "--force", cwd=folder))
        expect((folder / "n").read_bytes() == PLACE.read_bytes(), "the net's own file", folder)


def modes():
    for mask, mode in ((0o022, 0o644), (0o077, 0o600), (0o002, 0o664), (0, 0o666)):
        for words in (("solve", EXAMPLE, "-o", "x"), ("text", PLACE, "-o", "x"), ("picture", EXAMPLE, "x.svg")):
            with room() as folder:
                done = ask(*words, cwd=folder, umask=mask)
                seen = stat.S_IMODE((folder / words[-1]).stat().st_mode)
                expect(done[0] == 0 and seen == mode, f"{words[0]}: mode {mode:o}", (done, oct(seen)))


def full_disks():
    """A limit on the size of files, in the first byte and in the middle of one."""
    for words, most in ((("solve", EXAMPLE, "-o", "x"), 0), (("solve", "wide.net", "-o", "x"), 1000), (("finish", EXAMPLE, PLACE, "-o", "x"), 10),
                        (("text", EXAMPLE, "-o", "x"), 10), (("file", EXAMPLES / "wire-14.hex", "-o", "x"), 10)):
        with room() as folder:
            (folder / "wide.net").write_bytes(ref.net_bytes(net([sink(0, 10 + 8 * 4096 - 4, 4)])))
            for force in ([], ["--force"]):
                says(f"{words[0]}: a full disk {force}", limited(most, *words, *force, cwd=folder), "could not be written")
                (folder / "x").write_bytes(b"kept")
            expect((folder / "x").read_bytes() == b"kept", f"{words[0]}: a full disk, what was there", folder)
    with room() as folder:
        says("a picture on a full disk", limited(300, "picture", EXAMPLE, "x.svg", cwd=folder), "x.svg")
        expect(not os.listdir(folder), "no picture on a full disk", os.listdir(folder))


def limited(most, *words, cwd):
    """The launcher where no file may be larger."""
    done = subprocess.run([LAUNCHER, *words], cwd=cwd, stdin=subprocess.DEVNULL, capture_output=True, timeout=HANG, check=False,
                          preexec_fn=lambda: resource.setrlimit(resource.RLIMIT_FSIZE, (most, most)))
    return done.returncode, done.stdout, done.stderr.decode()


def read_only_folders():
    """Where files have owners: root may write everywhere, so root asks as somebody else, if that one may read this repository."""
    with tempfile.TemporaryDirectory() as name:
        folder = pathlib.Path(name)
        folder.chmod(0o555)
        more = {"cwd": folder} if os.getuid() else {"cwd": folder, "user": 65534, "group": 65534, "extra_groups": []}
        with contextlib.suppress(PermissionError):
            if ask("--version", **more)[0] != 0:
                return
            says("a folder that may not be written", ask("solve", EXAMPLE, "-o", "x", **more), "x", "folder")
            (folder / "x").write_bytes(b"")
            (folder / "x").chmod(0o200)
            says("a file that may not be read", ask("solve", "x", **more), "x", "opened")
            locked_subfolder(folder, more)
        folder.chmod(0o755)


def locked_subfolder(folder, more):
    """The rest is audited, and the status tells that it was not all."""
    folder.chmod(0o755)
    for name in ("a", "locked", "z"):
        (folder / name).mkdir()
        shutil.copy(EXAMPLE, folder / name)
        shutil.copy(PLACE, folder / name)
    (folder / "locked").chmod(0)
    status, out, err = ask("audit", ".", **more)
    lines = b"a/wire-14.net: legal 1 least 1\nz/wire-14.net: legal 1 least 1\nrecords 2 least 2 legal 0 refused 0 unread 0\n"
    expect((status, out) == (2, lines) and re.fullmatch("mustorgyel: [^\n]*locked[^\n]*\n", err), "a locked folder below", (status, out, err))
    says("a locked folder", ask("audit", "locked", **more), "locked")
    (folder / "locked").chmod(0o755)


# ---------------------------------------------------------------- signals

def heed():
    """Signals as a person's shell leaves them: a script that runs this beside something else has them ignored."""
    for number in (signal.SIGINT, signal.SIGQUIT, signal.SIGHUP):
        signal.signal(number, signal.SIG_DFL)


def start(folder, *words):
    """The launcher, waiting for its standard input: the process, and the pipe's end to write to."""
    read, write = os.pipe()
    process = subprocess.Popen([LAUNCHER, *words], cwd=folder, stdin=read, stdout=subprocess.PIPE, stderr=subprocess.PIPE, start_new_session=True,
                               preexec_fn=heed)
    os.close(read)
    return process, write


WAITING = ((("solve", "-", "-o", "x"), (ROOT / "target/bin/desk", "solve", "-o", "1")), (("audit", "-"), (ROOT / "target/bin/desk", "audit")),
           (("text", "-", "-o", "x"), (ROOT / "desk/twin", "text", "-")))


def signals():
    """The launcher is ended, and takes with it what it started; or that is ended, and the launcher says so."""
    for words, last in WAITING:
        for name in ("TERM", "INT", "HUP", "KILL"):
            number = getattr(signal, f"SIG{name}")
            with room() as folder:
                process, write = start(folder, *words)
                program = wait_for_program(process.pid, *last)
                if name == "KILL":
                    os.kill(program, number)
                    out, err = process.communicate(timeout=HANG)
                    says(f"{words[0]}: the program is ended", (process.returncode, out, err.decode()), "status 137")
                else:
                    os.kill(process.pid, number)
                    out, err = process.communicate(timeout=HANG)
                    expect((process.returncode, out, err) == (-number, b"", b""), f"{words[0]}: {name} to the launcher", (process.returncode, out, err))
                    expect(not runs(program), f"{words[0]}: {name} to the launcher ends the program", program)
                left = left_in(process.pid)
                expect(not left, f"{words[0]}: {name}, and nothing runs on", left)
                os.close(write)
                expect(not (folder / "x").exists(), f"{words[0]}: {name}, and no file", folder)


def runs(program):
    """It may take a moment to end, and nobody may have asked for its status yet."""
    for _ in range(100):
        try:
            if pathlib.Path(f"/proc/{program}/stat").read_text().rpartition(")")[2].split()[0] == "Z":
                return False
        except OSError:
            return False
        signal.sigtimedwait([], 0.05)
    return True


def left_in(session):
    """What still runs of all that was started in a session. It may take a moment to end."""
    for _ in range(100):
        found = []
        for folder in pathlib.Path("/proc").glob("[0-9]*"):
            with contextlib.suppress(OSError):
                state, _, _, its = (folder / "stat").read_text().rpartition(")")[2].split()[:4]
                if state != "Z" and int(its) == session:
                    found.append((folder / "cmdline").read_bytes())
        if not found:
            break
        signal.sigtimedwait([], 0.05)
    return found


def killed():
    """Nothing is tidied then: but the name is not there."""
    with tempfile.TemporaryDirectory() as folder:
        process, write = start(folder, "solve", "-", "-o", "x")
        program = wait_for_program(process.pid, *WAITING[0][1])
        process.kill()
        os.close(write)
        process.communicate(timeout=HANG)
        expect(not runs(program) and not (pathlib.Path(folder) / "x").exists(), "the launcher is killed: no file", folder)


def late_comers():
    """A file that came there after the start is not replaced without --force."""
    for force, due in (([], b"kept"), (["--force"], PLACE.read_bytes())):
        with room() as folder:
            process, write = start(folder, "solve", "-", "-o", "x", *force)
            wait_for_program(process.pid, *WAITING[0][1])
            (folder / "x").write_bytes(b"kept")
            os.write(write, EXAMPLE.read_bytes())
            os.close(write)
            out, err = process.communicate(timeout=HANG)
            done = process.returncode, b"" if force else out[len(PRINTED):], err.decode()
            expect(out == PRINTED and (folder / "x").read_bytes() == due, f"a file that came there {force}", done)
            if force:
                expect(done == (0, b"", ""), "it is replaced by --force", done)
            else:
                says("it is left", done, "x")


# ---------------------------------------------------------------- words for a person

def case_of_each_number():
    """Number: the words of a call that is refused by it, the line that it prints, and what the words must name."""
    def stored(name, part):
        file = made / name
        file.write_bytes(part if isinstance(part, bytes) else ref.net_bytes(part))
        return file

    with room() as made:
        wide = stored("wide.net", net([sink(0, 10 + 8 * 4096 - 3, 4)]))
        sound = EXAMPLE.read_bytes()
        yield 1, ("solve", CUT), "refused 1 place 26", "cut.net"
        yield 2, ("check", EXAMPLE, stored("tag.place", b"\x10" + PLACE.read_bytes()[1:])), "placement refused 2 place 0", "tag.place"
        yield 3, ("loads", stored("range.net", sound[:11] + b"\x02" + sound[12:]), PLACE), "net refused 3 place 0", "range.net"
        yield 4, ("carry", EXAMPLE, stored("parent.net", sound[:16] + b"\x01" + sound[17:]), PLACE), "second net refused 4 place 12", "parent.net"
        yield 5, ("finish", stored("childless.net", sound[:12] + sound[-3:]), PLACE), "net refused 5 place 0", "childless.net"
        yield 6, ("carry", EXAMPLES / "one-byte-more.net", EXAMPLE, PLACE), "first net refused 6 place 29", "one-byte-more.net"
        yield 8, ("solve", EXAMPLES / "pin-11.net"), "refused 8 place 0", "pin-11.net"
        yield 9, ("solve", wide), "refused 9 place 4097", "4,097|4097"
        yield 10, ("loads", EXAMPLE, EXAMPLES / "no-such-wire.place"), "refused 10 place 0", "no-such-wire.place"
        yield 11, ("check", EXAMPLE, HIGH), "refused 11 place 0", r"drives 11, 1 over C_U 10"
        yield 12, ("check", EXAMPLES / "two-inverters.net", EXAMPLES / "wrong-parity.place"), "refused 12 place 3", "sink 3"
        yield 13, ("carry", EXAMPLE, THIRTY, PLACE), "refused 13 place 1", "30"


def words():
    """With python3; and where there is none the meaning of the number alone."""
    meanings = {int(number): words for number, words in re.findall(r"^ {2,3}(\d+) {3}(\S+ \S+ \S+)", (ROOT / "desk/help/mustorgyel.txt").read_text(), re.M)}
    with room() as bare:
        path = {"PATH": without_python(bare), "RATTLE_HOME": str(KIT)}
        for number, call, line, named in case_of_each_number():
            done = ask(*call)
            refuses(f"the words of {number}", done, line.encode() + b"\n")
            expect(re.search(named, done[2]), f"the words of {number} name what is wrong", done)
            refuses(f"the words of {number} without python3", ask(*call, env=path), line.encode() + b"\n", meanings[number])
        refuses("11 from standard input", ask_file(HIGH, "check", EXAMPLE, "-"), REFUSED)
        for verb in ("explain", "text", "file", "picture"):
            says(f"{verb} without python3", ask(verb, EXAMPLE, *["x.svg"] * (verb == "picture"), env=path, cwd=bare), "python3")
        answers("an answer without python3", ask("check", EXAMPLE, PLACE, env=path), LEGAL)


def ask_file(file, *words):
    with file.open("rb") as stdin:
        return ask(*words, stdin=stdin)


def without_python(folder):
    """A folder with all commands but that one."""
    (folder / "bin").mkdir()
    for place in ("/usr/bin", "/bin"):
        for name in os.listdir(place):
            if not name.startswith("python") and not (folder / "bin" / name).is_symlink():
                (folder / "bin" / name).symlink_to(f"{place}/{name}")
    return str(folder / "bin")


# ---------------------------------------------------------------- pages

def pages():
    """Each page begins with the verb's form, and its examples, typed as they stand there, print what stands there."""
    help_page = ask("--help")[1].decode()
    for verb in VERBS:
        done = ask(verb, "--help")
        page = done[1].decode()
        expect(done[0] == 0 and page.startswith(f"./mustorgyel {verb} ") and not done[2], f"{verb} --help", done)
        expect(re.search(rf"^  {verb} ", help_page, re.M), f"--help names {verb}", help_page)
        examples(verb, page)
    quiet("--help anywhere", ask("solve", EXAMPLE, "--help"), ask("solve", "-h")[1])


def examples(verb, page):
    typed = re.findall(r"^    \$ (.*)\n((?:    (?!\$ ).*\n|\n(?=    (?!\$ )))*)", page, re.M)
    expect(typed and f"./mustorgyel {verb} " in page.partition("    $ ")[2], f"{verb} --help has an example", page)
    with room() as folder:
        for name in ("mustorgyel", "examples"):
            (folder / name).symlink_to(ROOT / name)
        for command, printed in typed:
            done = subprocess.run(["bash", "-c", command], cwd=folder, stdin=subprocess.DEVNULL, stdout=subprocess.PIPE, stderr=subprocess.STDOUT,
                                  timeout=HANG, check=False)
            due = re.sub("^    ", "", printed, flags=re.M)
            expect(done.stdout.decode().rstrip("\n") == due.rstrip("\n"), f"{verb} --help: {command}", (done.stdout.decode(), due))


# ---------------------------------------------------------------- audits, explain, text, file, picture

def audits():
    says("a file for a folder", ask("audit", EXAMPLE), "wire-14.net", "folder")
    with room() as folder:
        for name in ("-dash", "new\nline", "two words"):
            (folder / name).mkdir()
            (folder / "other" / name).mkdir(parents=True)
            shutil.copy(EXAMPLE, folder / name / "x.net")
            line = b"x.net: no placement file\nrecords 1 least 0 legal 0 refused 0 unread 1\n"
            quiet(f"audit of the folder {name!r}", ask("audit", "--", name, cwd=folder, env={"CDPATH": str(folder / "other")}), line, 1)
        os.mkfifo(folder / "two words/x.place")
        says("a pipe for a placement file", ask("audit", folder), "two words/x.place", "pipe")
        os.mkdir(folder / "empty")
        quiet("an empty folder", ask("audit", folder / "empty"), b"records 0 least 0 legal 0 refused 0 unread 0\n")
        quiet("RATTLE_HOME beside this folder", ask("audit", "empty", cwd=folder, env={"RATTLE_HOME": os.path.relpath(KIT, folder)}),
              b"records 0 least 0 legal 0 refused 0 unread 0\n")
    says("names without a 0 byte", ask_bytes(b"x" * 5000, "audit", "-"), "name")
    with open("/dev/full", "wb") as full:
        says("an audit on a full disk", ask("audit", EXAMPLES, stdout=full), "standard output")
    names_of_any_bytes()
    progress()


def names_of_any_bytes():
    """Records whose names are not UTF-8, and one that is; below a folder whose name is not UTF-8 either."""
    with room() as above:
        folder = os.fsencode(above) + b"/-\xfe\n"
        os.makedirs(folder + b"/a\xc3")
        found = ((b"a\xc3/\xc3.net", b"legal 1 least 1"), (b"plain.net", b"legal 1 least 1"), (b"\xff\n\\.net", b"no placement file"),
                 (b"\xff\xfe.net", b"legal 1 least 1"))
        for name, said in found:
            shutil.copy(os.fsencode(EXAMPLE), os.path.join(folder, name))
            if said.startswith(b"legal"):
                shutil.copy(os.fsencode(PLACE), os.path.join(folder, name[:-4] + b".place"))
        lines = [name.replace(b"\\", b"\\134").replace(b"\n", b"\\012") + b": " + said + b"\n" for name, said in found]
        whole = b"".join(lines) + b"records 4 least 3 legal 0 refused 0 unread 1\n"
        quiet("names of any bytes", ask("audit", folder), whole, 1)
        quiet("names of any bytes from beside", ask("audit", "--", b"-\xfe\n", cwd=above), whole, 1)
        listed = b"".join(os.path.join(folder, name) + b"\0" for name, _ in found)
        shown = os.fsencode(above) + b"/-\xfe\\012/"
        whole = whole.replace(b"\n", b"\n" + shown, 3)
        quiet("whole paths of any bytes", ask_bytes(listed, "audit", "-"), shown + whole, 1)
        quiet("they are not there", ask_bytes(b"\xff.net\0", "audit", "-"), b"\xff.net: no net file\nrecords 1 least 0 legal 0 refused 0 unread 1\n", 1)
        os.mkdir(above / "own")
        quiet("a TMPDIR from here", ask_bytes(listed, "audit", "-", cwd=above, env={"TMPDIR": "own"}), shown + whole, 1)
        expect(not os.listdir(above / "own"), "nothing is left in it", os.listdir(above / "own"))
        no_room_for_links(above)
    one_link_and_a_signal()


def no_room_for_links(folder):
    """Then such names cannot be read, which is said; other names do without."""
    nowhere = {"TMPDIR": str(folder / "nowhere")}
    quiet("no TMPDIR and plain names", ask_bytes(os.fsencode(EXAMPLE) + b"\0", "audit", "-", env=nowhere),
          os.fsencode(EXAMPLE) + b": legal 1 least 1\nrecords 1 least 1 legal 0 refused 0 unread 0\n")
    status, out, err = ask_bytes(b"\xff.net\0", "audit", "-", env=nowhere)
    due = b"\xff.net: net file unreadable\nrecords 1 least 0 legal 0 refused 0 unread 1\n"
    expect((status, out) == (2, due) and re.fullmatch("mustorgyel: [^\n]*UTF-8[^\n]*\n", err), "no TMPDIR and another name", (status, out, err))


def one_link_and_a_signal():
    """A signal after a link was laid: neither it nor who laid it is left."""
    for name in ("TERM", "INT", "HUP"):
        with room() as folder:
            process, write = start(folder, "audit", "-")
            os.write(write, b"\xff.net\0")
            line = process.stdout.readline()
            os.kill(process.pid, getattr(signal, f"SIG{name}"))
            _, err = process.communicate(timeout=HANG)
            expect((line, process.returncode, err) == (b"\xff.net: no net file\n", -getattr(signal, f"SIG{name}"), b""), f"a link and {name}", (line, err))
            os.close(write)
            left = left_in(process.pid), os.listdir(os.environ["TMPDIR"])
            expect(not any(left), f"nothing is left after a link and {name}", left)


def ask_bytes(data, *words, **more):
    with tempfile.TemporaryFile() as file:
        file.write(data)
        file.seek(0)
        return ask(*words, stdin=file, **more)


def progress():
    """How far it is, for who sees standard error on a terminal and has standard output elsewhere."""
    right = ask("audit", EXAMPLES)[:2]
    for name, shows in (("a file and a terminal", True), ("a terminal", False)):
        ours, theirs = pty.openpty()
        with tempfile.TemporaryFile() as file:
            process = subprocess.Popen([LAUNCHER, "audit", EXAMPLES], stdin=subprocess.DEVNULL, stdout=file if shows else theirs, stderr=theirs)
            os.close(theirs)
            seen = b""
            with contextlib.suppress(OSError):
                while part := os.read(ours, 65536):
                    seen += part
            process.wait(HANG)
            file.seek(0)
            out = file.read() if shows else seen.replace(b"\r\n", b"\n")
        os.close(ours)
        expect((process.returncode, out) == right, f"an audit on {name}", (out, seen))
        expect(not shows or (re.search(rb"\r16 of \d+", seen) and seen.endswith(b"\r\x1b[K")), f"progress on {name}", seen)


def explained():
    for words, status in (((EXAMPLE,), 0), ((CUT,), 1), ((EXAMPLE, PLACE), 0), ((EXAMPLE, HIGH), 1), ((EXAMPLES / "pin-11.net",), 1)):
        asked = ask("check" if len(words) > 1 else "solve", *words)
        done = ask("explain", *words)
        first = asked[1].split(b"\n")[0]
        expect(done[0] == status == asked[0] and done[1].split(b"\n")[0] == first and not done[2], f"explain {words[-1].name}", done)
    done = ask_file(HIGH, "explain", EXAMPLE, "-")
    expect(done[0] == 1 and b"drives 11, 1 over C_U 10" in done[1] and b"00 00 00 07" in done[1], "explain standard input: its bytes are kept", done)


def twins():
    """Each example to text and back, by files and by pipes."""
    with room() as folder:
        for file in (EXAMPLE, PLACE, CUT, EXAMPLES / "routed-300.net"):
            quiet(f"text {file.name}", ask("text", file, "-o", "text", "--force", cwd=folder))
            quiet(f"file {file.name}", ask("file", "text", "-o", "file", "--force", cwd=folder))
            expect((folder / "file").read_bytes() == file.read_bytes(), f"{file.name} to text and back", folder)
            quiet(f"file - of {file.name}", ask_file(folder / "text", "file", "-"), file.read_bytes())
        (folder / "text").write_text("01 0G\n")
        says("a text that is none", ask("file", "text", "-o", "other", cwd=folder), "text")
        says("a text that is none, onto a file", ask("file", "text", "-o", "file", "--force", cwd=folder), "text")
        expect(sorted(os.listdir(folder)) == ["file", "text"] and (folder / "file").read_bytes(), "what stood there", folder)


def pictures():
    """What is drawn: a net that reads, with its loads where a placement stands on it. A refusal is printed."""
    with room() as folder:
        wide = folder / "wide.net"
        wide.write_bytes(ref.net_bytes(net([sink(0, 10 + 8 * 4096 - 3, 4)])))
        drawn = (((EXAMPLE,), b""), ((EXAMPLE, PLACE), b""), ((EXAMPLES / "pin-11.net",), b"refused 8 place 0\n"), ((wide,), b"refused 9 place 4097\n"),
                 ((EXAMPLE, HIGH), REFUSED), ((EXAMPLES / "two-inverters.net", EXAMPLES / "wrong-parity.place"), b"refused 12 place 3\n"))
        for number, (files, printed) in enumerate(drawn):
            quiet(f"a picture of {files[-1].name}", ask("picture", *files, f"{number}.svg", cwd=folder), printed, 1 if printed else 0)
            text = (folder / f"{number}.svg").read_text()
            expect(xml.etree.ElementTree.fromstring(text).tag.endswith("svg"), f"the picture of {files[-1].name}", text[:80])
        undrawn = (((CUT,), b"refused 1 place 26\n"), ((CUT, PLACE), b"net refused 1 place 26\n"), ((EXAMPLE, CUT), b"placement refused 2 place 0\n"),
                   ((EXAMPLE, EXAMPLES / "no-such-wire.place"), b"refused 10 place 0\n"))
        for files, printed in undrawn:
            quiet(f"no picture of {files[-1].name}", ask("picture", *files, "x.svg", cwd=folder), printed, 1)
        picture_names(folder)


def picture_names(folder):
    says("a picture that is there", ask("picture", EXAMPLE, "0.svg", cwd=folder), "0.svg", "--force")
    quiet("a picture that is there, by --force", ask("picture", "--force", EXAMPLE, "0.svg", cwd=folder))
    says("a placement in the picture's place", ask("picture", EXAMPLE, PLACE, "--force", cwd=folder), ".svg")
    with EXAMPLE.open("rb") as stdin:
        quiet("a picture of standard input", ask("picture", "-", PLACE, "y.svg", cwd=folder, stdin=stdin))
    expect(not (folder / "x.svg").exists() and (folder / "y.svg").exists(), "the pictures that are there", os.listdir(folder))


def main():
    # what the launcher makes for itself is there, and gone at the end
    with tempfile.TemporaryDirectory() as own:
        tempfile.tempdir = tempfile.gettempdir()
        os.chmod(own, 0o1777)
        os.environ["TMPDIR"] = own
        ask_all()
        expect(not os.listdir(own), "nothing is left in TMPDIR", os.listdir(own))
    launcher_asks.end("the verbs")


def ask_all():
    for cases in (standard_output, standard_input, failing_reads, several_streams, descriptors, wrong_words, file_names, written_files, refused_files,
                  odd_targets, own_input, modes, full_disks, read_only_folders, signals, killed, late_comers, words, pages, audits, explained, twins, pictures):
        cases()


main()
