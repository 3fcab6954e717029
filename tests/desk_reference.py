"""desk_reference.py: what the program `desk` must say for the bytes of files, by reference.py and from docs/RULES.md alone.

Which of several least placements `solve` prints, and which least completion `finish`, is free: what they print is judged. All else is
compared byte for byte. How many entries are least is searched here for small nets, and by reference.c for all.
"""
import os
import pathlib
import re
import subprocess

import reference as ref
from reference import Placement, Refused

MOST_UNITS = 400        # of a net's wires together: what the searches in Python do in less than a second


# ---------------------------------------------------------------- how many are least

class Counts:
    """The searches: those of reference.c, which compare_references.c asks line by line, and for small nets those of reference.py."""

    def __init__(self, program):
        self.program = program

    def ask(self, question):
        done = subprocess.run([self.program], input=question + "\n", capture_output=True, text=True, check=True)
        return done.stdout.split()

    def least(self, net):
        """The least count of a net, or None."""
        found = int(self.ask(f"frontier {ref.net_bytes(net).hex()}")[0])
        found = None if found == -1 else found
        if is_small(net):
            assert found == ref.least_frontier(net), (net, found)
        return found

    def added(self, net, given):
        """The fewest entries to add, or None; how many there are may be more than a file holds."""
        columns = [",".join(map(str, column)) or "-" for column in given]
        answer = self.ask(f"finish {ref.net_bytes(net).hex()} {' '.join(columns)} {ref.MOST_ENTRIES}")
        number, place = (0, int(answer[1])) if answer[0] == "read" else (int(answer[1]), int(answer[3]))
        found = {0: place, 8: None, 9: place}[number]
        if is_small(net):
            assert found == ref.least_added(net, given), (net, given, found)
        return found


def is_small(net):
    return sum(net.wire) <= MOST_UNITS and len(net.parent) <= 40


# ---------------------------------------------------------------- what is printed

def lines(*texts):
    return "".join(text + "\n" for text in texts).encode()


def refusal(refused, before=""):
    return lines(f"{before}refused {refused.number} place {refused.place}")


def entries(placement):
    return [f"wire {wire} offset {offset}" for wire, offset in zip(*placement)]


def loads(net, placement):
    drives, source = ref.loads(net, placement)
    return [f"{entry} drives {load}" for entry, load in zip(entries(placement), drives)] + [f"source drives {source}"]


def printed_entries(text):
    """The placement that the lines behind the first one name, or None where a line is no entry; the source's line is none."""
    found = re.findall(rb"^wire (\d+) offset (\d+)", text, re.M)
    return Placement([int(wire) for wire, _ in found], [int(offset) for _, offset in found])


def placement_file(placement):
    """The file of a placement; no bytes where no file holds it."""
    return ref.placement_bytes(placement) if len(placement.wire) <= ref.MOST_ENTRIES else b""


# ---------------------------------------------------------------- each verb, on files that read
#
# A verb gives the text and the file that are due, or raises Refused. It is handed what was printed, for who is free to choose.

def solve(counts, printed, net):
    least = counts.least(net)
    if least is None:
        raise Refused(8, 0)
    if least > ref.MOST_ENTRIES:
        raise Refused(9, least)
    placement = printed_entries(printed)
    if len(placement.wire) != least or not ref.legal(net, placement):
        return f"no legal placement of {least} entries", b""
    return lines(f"least {least}", *loads(net, placement)), placement_file(placement)


def check(_counts, _printed, net, placement):
    count, source = ref.check(net, placement)
    return lines(f"legal {count}", f"source drives {source}"), b""


def list_loads(_counts, _printed, net, placement):
    ref.list_drives(net, placement)
    return lines(*loads(net, placement)), b""


def carry(_counts, _printed, first, second, placement):
    carried = ref.carry(first, second, placement)
    return lines(f"carried {len(carried.wire)}", *entries(carried)), placement_file(carried)


def finish(counts, printed, net, given):
    if net.limits.type == 1:
        raise Refused(3, 0)
    ref.judge_entries(net, given)
    least = counts.added(net, given)
    if least is None:
        raise Refused(8, 0)
    if least > ref.MOST_ENTRIES:
        raise Refused(9, least)
    added = printed_entries(printed)
    if len(added.wire) != least or not ref.completes(net, given, added):
        return f"no completion by {least} entries", b""
    return lines(f"added {least}", *entries(added)), placement_file(ref.whole(given, added))


NET, PLACEMENT = ("net ", ref.read_net), ("placement ", ref.read_placement)
FORMS = {
    "solve": (solve, [("", ref.read_net)]),
    "check": (check, [NET, PLACEMENT]),
    "loads": (list_loads, [NET, PLACEMENT]),
    "carry": (carry, [("first net ", ref.read_net), ("second net ", ref.read_net), PLACEMENT]),
    "finish": (finish, [NET, PLACEMENT]),
}


def due(counts, verb, files, printed):
    """The text, the file that -o writes and the status that are due to the bytes of a verb's files."""
    act, readers = FORMS[verb]
    read = []
    for (before, reader), data in zip(readers, files, strict=True):
        try:
            read.append(reader(data))
        except Refused as refused:
            return refusal(refused, before), b"", 1
    try:
        return *act(counts, printed, *read), 0
    except Refused as refused:
        return refusal(refused), b"", 1


def fault(counts, verb, files, said):
    """What is wrong with what the program said, or None."""
    text, written, status = due(counts, verb, files, said.text)
    if said.text != text:
        return f"printed {said.text[:80]!r} where {text[:80]!r} is due"
    if said.status != status:
        return f"status {said.status} with {said.text[:40]!r}"
    if said.written != written:
        return f"-o wrote {said.written[:40].hex()} where {written[:40].hex()} is due"
    return f"said {said.words!r}" if said.words else None


# ---------------------------------------------------------------- an audit

def shown(name):
    """A name as it is printed."""
    return b"".join(b"\\%03o" % byte if byte < 32 or byte in (92, 127) else bytes([byte]) for byte in name)


def placement_name(name):
    return (name[:-4] if name.endswith(b".net") else name) + b".place"


def read_file(folder, name, what):
    """The bytes of a file, or what is said where there are none."""
    try:
        return pathlib.Path(os.fsdecode(os.path.join(os.fsencode(folder), name))).read_bytes(), None
    except FileNotFoundError:
        return None, f"no {what} file"
    except OSError:
        return None, f"{what} file unreadable"


def judged_record(counts, net_file, given_file):
    """What is said of a record whose files are read, and which number of the tally it counts for."""
    text, _, status = due(counts, "check", (net_file, given_file), b"")
    if status == 1:
        return text.decode().rstrip("\n"), "refused"
    least, count = counts.least(ref.read_net(net_file)), int(text.split()[1])
    return f"legal {count} least {least}", "least" if count == least else "legal"


def record(counts, folder, name):
    """The line of a record, and which number of the tally it counts for."""
    net_file, why = read_file(folder, name, "net")
    if why is None:
        given_file, why = read_file(folder, placement_name(name), "placement")
    what, counted = (why, "unread") if why else judged_record(counts, net_file, given_file)
    return shown(name) + b": " + what.encode() + b"\n", counted


def tally(counted):
    """The last line of an audit: how often each of these words was counted."""
    return lines(f"records {len(counted)} " + " ".join(f"{word} {counted.count(word)}" for word in ("least", "legal", "refused", "unread")))
