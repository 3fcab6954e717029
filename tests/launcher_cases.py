"""launcher_cases.py: ./mustorgyel where something is wrong. Run by tests/program.

Status 0 is an answer, 1 a refusal, 2 anything else, with one line on standard error; nothing hangs. The cases that build run in a
folder of their own, with this launcher and a few small crates for the Rattle kit to prove. desk_cases.py is of the verbs.
"""
import os
import pathlib
import re
import shutil
import signal
import socket
import subprocess
import tempfile
import time

import launcher_asks
from launcher_asks import EXAMPLE, HANG, KIT, LAUNCHER, ROOT, answers, ask, broken_connection, ends, expect, says, wait_for_program


def standard_output():
    with open("/dev/full", "wb") as full:
        says("a full disk", ask(EXAMPLE, stdout=full), "standard output")
        says("the help on a full disk", ask("--help", stdout=full), "standard output")
        says("a refusal on a full disk", ask(stdout=full), "standard output")
    says("closed standard output", ask(EXAMPLE, closed=[1]), "standard output")
    with open("/dev/null", "rb") as read_only:
        says("standard output that is open for reading", ask(EXAMPLE, stdout=read_only), "standard output")
    read, write = os.pipe()
    os.close(read)
    says("a reader that went away", ask(EXAMPLE, stdout=write), "standard output")
    os.close(write)


def standard_input():
    says("closed standard input", ask(closed=[0]), "standard input")
    answers("closed standard input beside a file", ask(EXAMPLE, closed=[0]))
    answers("closed standard error", ask(EXAMPLE, closed=[2]))
    folder = os.open("/tmp", os.O_RDONLY)
    says("a folder as standard input", ask(stdin=folder), "standard input", "folder")
    os.close(folder)


def failing_reads():
    """Not the end of the input: at the first read, at a later one, and where the next read would find an end."""
    with open("/dev/null", "wb") as write_only:
        says("standard input that is open for writing", ask(stdin=write_only), "standard input", "read")
    with open("/proc/self/mem", "rb") as memory:
        says("standard input that cannot be read", ask(stdin=memory), "standard input", "read")
    read, write = os.pipe()
    os.set_blocking(read, False)
    says("standard input that does not wait", ask(stdin=read), "standard input", "read")
    os.write(write, EXAMPLE.read_bytes()[:20])
    says("the same after 20 bytes", ask(stdin=read), "standard input", "read")
    os.close(read)
    os.close(write)
    with broken_connection(EXAMPLE.read_bytes()) as connection:
        says("a whole file and then a connection that breaks", ask(stdin=connection), "standard input", "read")
    with broken_connection((EXAMPLE.read_bytes() + bytes(16384))[:16384]) as connection:
        answers("a connection that breaks after the bytes that decide", ask(stdin=connection), b"refused 6 place 29\n", 1)


def file_names():
    with tempfile.TemporaryDirectory() as room:
        room = pathlib.Path(room)
        for name in ("-odd-name", "--version", "two words"):
            shutil.copy(EXAMPLE, room / name)
            answers(f"-- {name}", ask("--", name, cwd=room))
            answers(f"./{name}", ask(f"./{name}", cwd=room))
        says("a dash and a name", ask("-odd-name", cwd=room), "-odd-name")
        says("two files", ask("--", "-odd-name", "--version", cwd=room))
        says("a folder", ask(room), "folder")
        says("no such file", ask("no such file"), "no such file")
        says("an empty name", ask(""), "no such file")
        with socket.socket(socket.AF_UNIX) as ours:
            ours.bind(str(room / "socket"))
            says("a file that cannot be opened", ask(room / "socket"), "opened")
    says("an unknown option", ask("--nothing"), "--nothing")


def signals():
    """While it waits for its input: ended itself, and its program ended."""
    for name, whom in (("the launcher is ended", "mustorgyel"), ("the program is ended", "target/bin/mustorgyel")):
        read, write = os.pipe()
        process = subprocess.Popen([LAUNCHER], stdin=read, stdout=subprocess.PIPE, stderr=subprocess.PIPE)
        program = wait_for_program(process.pid, ROOT / "target/bin/mustorgyel")
        os.kill(process.pid if whom == "mustorgyel" else program, signal.SIGTERM)
        os.close(read)
        os.close(write)
        out, err = process.communicate(timeout=HANG)
        done = process.returncode, out, err.decode()
        if whom == "mustorgyel":
            expect(done == (-signal.SIGTERM, b"", ""), name, done)
        else:
            says(name, done, "status 143")


def kit_and_version():
    says("a wrong RATTLE_HOME", ask(EXAMPLE, env={"RATTLE_HOME": "/nowhere"}), "RATTLE_HOME", "/nowhere")
    says("a RATTLE_HOME that is no kit", ask("--version", env={"RATTLE_HOME": "/tmp"}), "RATTLE_HOME", "/tmp")
    answers("a right RATTLE_HOME", ask(EXAMPLE, env={"RATTLE_HOME": str(KIT), "PATH": "/usr/bin:/bin"}))
    kit = subprocess.run(["rt", "version"], capture_output=True, check=True).stdout
    status, out, _ = ask("--version", env={"GIT_DIR": "/nowhere"})
    first = out.decode().split("\n")[0]
    kit_line, proofs = out.splitlines(keepends=True)[1:]
    expect(status == 0 and kit_line == kit and proofs.startswith(b"proofs: checked here"), "--version, the kit and the proofs", out)
    git = subprocess.run(["git", "-C", ROOT, "rev-parse", "HEAD"], capture_output=True, text=True, check=False)
    if git.returncode == 0:
        changed = subprocess.run(["git", "-C", ROOT, "diff", "--quiet", "HEAD"], check=False).returncode
        expect(first == "mustorgyel " + git.stdout[:12] + "+changes" * changed, "--version and the commit", out)


def help_page():
    status, out, _ = ask("--help")
    numbers = [line.split()[0] for line in out.decode().splitlines() if line[:4].strip().isdigit()]
    expect(status == 0 and numbers == [str(n) for n in range(1, 14)], "--help explains the refusals 1 to 13", out)


HEAD = "#![tactic(auto)]\n\n"


class Small:
    """A folder with this launcher, and two programs that print one text each, over one crate; another crate is no part of them."""
    REFUSED = "refused 1 place 0\n"
    LEGAL = "legal 0\nsource drives 7\n"

    def __init__(self, folder):
        self.folder = folder
        self.target = folder / "target"
        shutil.copy(LAUNCHER, folder)
        shutil.copytree(ROOT / "desk", folder / "desk")
        (folder / "crates.txt").write_text("# small\nother: base # not the programs'\nmustorgyel: base\nbase:\ndesk: base\n")
        for crate in ("base", "other"):
            # of a text that no other folder has: `rt` takes a library that it built of the same text anywhere on the machine
            self.write(crate, "lib.rt", f"// {folder}\n{HEAD}pub fn seven() -> usize {{\n    7\n}}\n")
        self.prints(self.REFUSED)
        self.desk_prints(self.LEGAL, "0")

    def write(self, crate, name, text):
        source = self.folder / "crates" / crate / "src" / name
        source.parent.mkdir(parents=True, exist_ok=True)
        source.write_text(text)
        os.utime(source, (0, 0))  # an old time does not hide a change

    def prints(self, text):
        quoted = text.replace("\n", "\\n")
        self.write("mustorgyel", "main.rt", f'{HEAD}use std::io;\nuse std::io::Write;\n\nfn main(rt: HostRuntime) -> io::Result<()> {{\n'
                                            f'    rt.stdout().write_all(b"{quoted}")\n}}\n')

    def desk_prints(self, text, status):
        quoted = text.replace("\n", "\\n")
        self.write("desk", "main.rt", f'{HEAD}use std::fs::OpenOptions;\nuse std::io;\nuse std::io::Write;\n\n'
                                      f'fn main(rt: HostRuntime) -> io::Result<()> {{\n    rt.stdout().write_all(b"{quoted}")?;\n'
                                      f'    let mut out = OpenOptions::new().write(true).open(&rt, "/dev/fd/3")?;\n'
                                      f'    out.write_all(b"{status}")\n}}\n')

    def ask(self, *words, **more):
        return ask(*words, folder=self.folder, cwd="/", **more)

    def check(self):
        """A verb on two files that are there."""
        return self.ask("check", EXAMPLE, EXAMPLE)

    def proved(self, done):
        """The crates that standard error showed, in order, each with its number."""
        return re.findall(r"^proving (\d of \d: \w+) \(\d+ s\)$", done[2], re.M)


ALL = ["1 of 3: base", "2 of 3: mustorgyel", "3 of 3: desk"]


def builds(small):
    """From nothing, by two at once: one proves, and the other waits for it."""
    first = subprocess.Popen([small.folder / "mustorgyel"], stdin=subprocess.DEVNULL, stdout=subprocess.PIPE, stderr=subprocess.PIPE)
    time.sleep(1)
    second = small.ask()
    out, err = first.communicate(timeout=HANG)
    first = first.returncode, out, err.decode()
    for done in (first, second):
        answers("two builds at once", done, small.REFUSED.encode(), 1)
    expect(sorted([small.proved(first), small.proved(second)]) == [[], ALL], "each crate is shown once", (first, second))
    done = small.ask()
    expect(done == (1, small.REFUSED.encode(), ""), "built, and nothing to say", done)
    answers("the other program is built too", small.check(), small.LEGAL.encode())
    version = small.ask("--version")
    expect(version[0] == 0 and b"no known commit" in version[1], "--version without git", version)
    expect(b"proofs: checked here" in version[1], "--version of what was proved", version)


def rebuilds(small):
    for number, name in ((1, "mustorgyel"), (2, "desk")):
        (small.target / "bin" / name).unlink()
        version = small.ask("--version")
        expect(b"proofs: not checked here" in version[1], "--version of what was not built", version)
        done = small.ask()
        expect(done == (1, small.REFUSED.encode(), ""), "a deleted program: nothing is proved again", done)
        (small.target / "bin" / name).unlink()
        (small.folder / "crates" / name / "out" / name).unlink()
        done = small.ask()
        expect(done[0] == 1 and small.proved(done) == ALL[number:number + 1], "the program that `rt` built deleted too: nothing else is proved again", done)
    small.write("other", "lib.rt", "pub fn eight() -> usize {\n    8\n}\n")
    done = small.ask()
    expect(done == (1, small.REFUSED.encode(), ""), "a change in another crate", done)
    small.prints("least 0\nsource drives 7\n")
    version = small.ask("--version")
    expect(b"proofs: not checked here" in version[1], "--version of changed sources", version)
    done = small.ask()
    answers("a changed program", done, b"least 0\nsource drives 7\n")
    expect(small.proved(done) == ALL[1:2], "a changed program is proved", done)
    # Somebody builds other sources by `rt` and takes them back: the program that `rt` built is not that of the sources.
    small.prints(small.REFUSED)
    subprocess.run(["rt", "run"], cwd=small.folder / "crates/mustorgyel", stdin=subprocess.DEVNULL, capture_output=True, check=True)
    small.prints("least 0\nsource drives 7\n")
    answers("sources that came back", small.ask(), b"least 0\nsource drives 7\n")
    (small.target / "bin/mustorgyel").unlink()
    answers("sources that came back, and no program of theirs", small.ask(), b"least 0\nsource drives 7\n")


def no_building(small):
    """Changed sources, and no way to build: the old program's answer is no answer."""
    small.prints("least 0\nsource drives 8\n")
    says("no kit", small.ask(env={"PATH": "/usr/bin:/bin", "RATTLE_HOME": ""}), "kit")
    if os.getuid() == 0:
        says("target/ of somebody else", small.ask(user=65534, group=65534, extra_groups=[]), "target", "may not be written")
    else:
        subprocess.run(["chmod", "-R", "a-w", small.target], check=True)
        says("target/ that may not be written", small.ask(), "target", "may not be written")
        subprocess.run(["chmod", "-R", "u+w", small.target], check=True)
    small.target.rename(small.folder / "kept")
    small.target.write_text("")
    says("a file in place of target/", small.ask(), "target", "may not be written")
    small.target.unlink()
    (small.folder / "kept").rename(small.target)
    answers("the same with target/ back", small.ask(), b"least 0\nsource drives 8\n")


def no_answers(small):
    for text in ("least 0\n", "refused 1 place 0"):
        small.prints(text)
        ends(f"a program that prints {text!r}", small.ask(), "no whole answer")
    for text, status in ((small.LEGAL, "2"), ("legal 1", "")):
        small.desk_prints(text, status)
        ends(f"a desk that prints {text!r} and {status!r}", small.check(), "no whole answer")
    small.write("base", "lib.rt", "pub fn seven(b: &[u8]) -> u8 {\n    b[7]\n}\n")
    for done in (small.ask(), small.check()):
        ends("a crate that is not proved", done, "base NOT PROVED")
    (small.folder / "desk/verbs.sh").unlink()
    says("a folder that is not whole", small.check(), "desk/verbs.sh")


def main():
    for cases in (standard_output, standard_input, failing_reads, file_names, signals, kit_and_version, help_page):
        cases()
    with tempfile.TemporaryDirectory() as folder:
        os.chmod(folder, 0o755)
        small = Small(pathlib.Path(folder))
        for cases in (builds, rebuilds, no_building, no_answers):
            cases(small)
    launcher_asks.end("the launcher")


main()
