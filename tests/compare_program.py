"""compare_program.py JUDGE: what ./mustorgyel prints, judged by printed_answer.c. Run by tests/program."""
import os
import pathlib
import random
import subprocess
import sys
import tempfile
import time

ROOT = pathlib.Path(__file__).resolve().parent.parent
LAUNCHER = ROOT / "mustorgyel"
EXAMPLE = (ROOT / "examples/wire-14.net").read_bytes()
PRINTED = b"least 1\nwire 1 offset 6 drives 10\nsource drives 10\n"


def ask(data=None, file=None):
    """What the launcher prints for bytes on standard input or for a file, and its status."""
    words = [LAUNCHER] + ([file] if file else [])
    done = subprocess.run(words, input=data, stdout=subprocess.PIPE, check=False)
    return done.stdout, done.returncode


def ask_slowly(data):
    """The same through a pipe that delivers one byte at a time."""
    process = subprocess.Popen([LAUNCHER], stdin=subprocess.PIPE, stdout=subprocess.PIPE, bufsize=0)
    for byte in data:
        process.stdin.write(bytes([byte]))
        time.sleep(0.001)
    process.stdin.close()
    return process.stdout.read(), process.wait()


class Tally:
    def __init__(self, judge):
        self.judge, self.asked, self.wrong = judge, 0, 0

    def expect(self, holds, said):
        self.asked += 1
        if not holds:
            self.wrong += 1
            print("WRONG:", said)

    def judged(self, name, data, answer):
        """The answer is right for the bytes, of which the program sees 16,384, and the status goes with it."""
        text, status = answer
        with tempfile.NamedTemporaryFile() as file:
            file.write(data[:16384])
            file.flush()
            done = subprocess.run([self.judge, file.name], input=text, capture_output=True, check=False)
        self.expect(done.returncode == 0, f"{name}: {done.stdout.decode().strip()}: {text[:60]!r}")
        self.expect(status == text.startswith(b"refused"), f"{name}: status {status} with {text[:60]!r}")


def field(tag, *parts):
    body = b"".join(value.to_bytes(size, "big") for value, size in parts)
    return bytes([tag]) + len(body).to_bytes(2, "big") + body


def limits(limit, pin=2, repeater=0):
    return field(1, (limit, 4), (pin, 4), (repeater, 1))


def branch(parent, wire):
    return field(2, (parent, 2), (wire, 4))


def sink(parent, wire, pin, polarity=0):
    return field(3, (parent, 2), (wire, 4), (pin, 4), (polarity, 1))


END = field(0x7F)


def largest(repeater):
    """1,024 nodes, the most bytes that a net has: 127 branch points with eight children each, 897 of those sinks."""
    nodes = [branch(node // 8, 300 + node) for node in range(127)]
    nodes += [sink(node // 8, node, node, node % 2 * repeater) for node in range(127, 1024)]
    return limits(20000, 50, repeater) + b"".join(nodes) + END


def made_files():
    """Inputs of the lengths that matter, and answers of the lengths that matter."""
    for length in (0, 1, 2, 28, 29, 30, 16383, 16384, 16385, 1000000):
        yield f"the example, filled to {length} bytes", (EXAMPLE + bytes(length))[:length]
        yield f"{length} bytes of 255", b"\xff" * length
        nodes = limits(10) + branch(0, 1) * (length // 9 + 1)
        yield f"{length} bytes of branch points", nodes[:length]
    for repeater in (0, 1):
        yield f"the largest net, type {repeater}", largest(repeater)
    yield "a chain of 1,024", limits(1000) + b"".join(branch(n, 50) for n in range(1023)) + sink(1023, 50, 7) + END
    # 8 units a buffer beyond the first 10: 4,096 entries, and one more
    yield "4,096 entries", limits(10) + sink(0, 10 + 8 * 4096 - 4, 4) + END
    yield "4,097 entries", limits(10) + sink(0, 10 + 8 * 4096 - 3, 4) + END
    yield "the widest numbers", limits(1000000, 0) + sink(0, 10000000, 1000000) + END


def stored_files():
    """The files of tests/damaged: a length of four bytes, then that many."""
    for name in ("net_cases", "net_large"):
        data = (ROOT / f"tests/damaged/{name}.bin").read_bytes()
        number = 0
        while data:
            size = int.from_bytes(data[:4], "big")
            yield f"{name} {number}", data[4:4 + size]
            data, number = data[4 + size:], number + 1


def changed_files(count):
    """Examples with some bytes changed, taken out or put in."""
    chance = random.Random(1)
    files = [file.read_bytes() for file in sorted((ROOT / "examples").glob("*.net"))]
    for number in range(count):
        data = bytearray(chance.choice(files))
        for _ in range(chance.randint(1, 3)):
            at = chance.randrange(len(data) + 1)
            data[at:at + chance.randint(0, 2)] = bytes(chance.randrange(256) for _ in range(chance.randint(0, 2)))
        yield f"changed file {number}", bytes(data)


def examples(tally):
    for file in sorted((ROOT / "examples").glob("*.net")):
        twin = file.with_suffix(".hex")
        answer = ask(file=file)
        tally.judged(file.name, file.read_bytes(), answer)
        tally.expect(ask(data=file.read_bytes()) == answer, f"{file.name}: another answer on standard input")
        said = [line.removeprefix("# answer: ") for line in twin.read_text().splitlines() if line.startswith("# answer: ")]
        tally.expect(answer[0].decode().split("\n")[0:len(said)] == said, f"{file.name}: {said} is due, and not {answer[0][:40]!r}")


def main():
    tally = Tally(sys.argv[1])
    tally.expect(ask(data=EXAMPLE) == (PRINTED, 0), "the README's example, byte for byte")
    tally.expect(ask_slowly(EXAMPLE) == (PRINTED, 0), "the same, one byte at a time")
    data = largest(1)[:3000]
    tally.expect(ask_slowly(data) == ask(data=data), "3,000 bytes, one at a time")
    examples(tally)
    for name, data in [*made_files(), *stored_files(), *changed_files(int(os.environ.get("CHANGED", "100")))]:
        answer = ask(data=data)
        tally.judged(name, data, answer)
    print(f"the program: {tally.asked} questions, {tally.wrong} wrong")
    sys.exit(tally.wrong > 0)


main()
