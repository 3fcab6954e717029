"""compare_desk.py COUNTS: the program `desk` and the launcher's verbs, held to desk_reference.py. Run by tests/program.

COUNTS is compare_references.c compiled with reference.c. Each verb is asked CASES times (300) by the program's protocol, and every
fifteenth time by the launcher too, which must say the same. Then a folder of records is audited.
"""
import itertools
import multiprocessing
import os
import pathlib
import random
import shutil
import subprocess
import sys
import tempfile
from collections import Counter, namedtuple

import compare_references
import desk_files as made
import desk_program as desk
import desk_reference as due
import reference as ref
from compare_references import net, sink
from reference import Limits, Placement

LAUNCHER = desk.ROOT / "mustorgyel"
CASES = int(os.environ.get("CASES", "300"))
SEED = 1103
Case = namedtuple("Case", "name verb files")
Seen = namedtuple("Seen", "kind faults")         # what begins the answer, and what is wrong

# All that a verb can say. A net file is refused by 1 to 6, a placement file by 1, 2, 3 and 6.
NET_FAULTS = [f"net refused {number}" for number in range(1, 7)]
PLACEMENT_FAULTS = [f"placement refused {number}" for number in (1, 2, 3, 6)]
CHECKED = ["refused 10", "refused 11", "refused 12"]
KINDS = {
    "solve": ["least", *(f"refused {number}" for number in (1, 2, 3, 4, 5, 6, 8, 9))],
    "check": ["legal", *NET_FAULTS, *PLACEMENT_FAULTS, *CHECKED],
    "loads": ["wire", "source", *NET_FAULTS, *PLACEMENT_FAULTS, "refused 10"],
    "carry": ["carried", *(f"{which} {fault}" for which in ("first", "second") for fault in NET_FAULTS), *PLACEMENT_FAULTS, *CHECKED, "refused 13"],
    "finish": ["added", *NET_FAULTS, *PLACEMENT_FAULTS, "refused 3", "refused 8", "refused 9", "refused 10"],
}


# ---------------------------------------------------------------- the cases of each verb

def wire(size, pin=4, limit=10, c_b=2, kind=0):
    return net([sink(0, size, pin)], limit, c_b, kind)


def on_one_wire(*offsets):
    return Placement([1] * len(offsets), list(offsets))


def files_of(*parts):
    return [ref.net_bytes(part) if isinstance(part, ref.Net) else ref.placement_bytes(part) for part in parts]


def faulty_files(parts):
    """The files, and each of them in turn exchanged for a faulty one; a second fault behind it never shows."""
    nets, placements = made.faulty_nets(), made.faulty_placements()
    sound = files_of(*parts)
    for place, part in enumerate(parts):
        for bad in nets if isinstance(part, ref.Net) else placements:
            yield sound[:place] + [bad] + sound[place + 1:]
            yield sound[:place] + [bad] + [b"" for _ in sound[place + 1:]]
        yield from (sound[:place] + [long] + sound[place + 1:] for long in made.long_files(sound[place]))


def solve_cases(chance):
    yield from ([data] for data in made.faulty_nets())
    yield from ([data] for data in made.long_files(ref.net_bytes(wire(14))))
    for kind in (0, 1):
        yield files_of(made.full_record(chance, kind)[0])
    yield files_of(made.unlimited(chance, 1024, made.SMALL, 0))
    # 8 units a buffer beyond the first 10
    yield from (files_of(wire(10 + 8 * 4096 - 4 + more)) for more in (0, 1, 100_000))
    yield files_of(wire(0, 11))
    while True:
        one = compare_references.random_net(chance, 12, 25, 30, 20)
        yield files_of(one)
        yield files_of(made.record(chance)[0])
        yield files_of(made.overload(chance, *made.record(chance))[0])
        yield [made.damaged(chance, ref.net_bytes(one))]


def checked_cases(chance):
    """Of check and of loads."""
    yield from faulty_files(made.record(chance, made.SMALL))
    for kind in (0, 1):
        full = made.full_record(chance, kind)
        for parts in (full, made.overload(chance, *full), made.turn_a_sink(chance, *full), made.misplace(chance, *full)):
            yield files_of(*parts)
    yield files_of(made.unlimited(chance, 1024, made.SMALL, 1), Placement([], []))
    yield files_of(net([sink(0, 10_000_000, 1_000_000)], 1_000_000, 0), on_one_wire(0, 0, 10_000_000))
    while True:
        one = made.record(chance)
        yield files_of(*one)
        yield files_of(*chance.choice(made.SPOILS)(chance, *one))
        yield files_of(*chance.choice(made.SPOILS)(chance, *chance.choice(made.SPOILS)(chance, *one)))
        yield files_of(*made.record(chance, kind=1, slack=0))
        yield [ref.net_bytes(one[0]), made.damaged(chance, ref.placement_bytes(one[1]))]
        yield [made.damaged(chance, data) for data in files_of(*one)]


def carry_cases(chance):
    first, placement = made.record(chance, made.SMALL)
    yield from faulty_files((first, made.lighter(chance, first), placement))
    for kind in (0, 1):
        full, entries = made.full_record(chance, kind)
        yield files_of(full, made.lighter(chance, full), entries)
    yield files_of(wire(15), wire(10), on_one_wire(6, 14))
    while True:
        one, entries = made.record(chance)
        spoiled, others = chance.choice(made.SPOILS)(chance, one, entries)
        for second in (made.lighter(chance, one), made.heavier(chance, one), one):
            yield files_of(one, second, entries)
        yield files_of(spoiled, made.lighter(chance, spoiled), others)
        yield files_of(spoiled, made.heavier(chance, spoiled), others)
        yield [made.damaged(chance, data) for data in files_of(one, one, entries)]


def finish_cases(chance):
    yield from faulty_files(made.record(chance, made.SMALL, 0))
    full, entries = made.full_record(chance, 0)
    yield files_of(full, made.placed(list(zip(*entries))[::2]))
    yield files_of(full, entries)
    # with C_U 1 and C_b 0 an entry stands at every unit
    unit = {"pin": 0, "limit": 1, "c_b": 0}
    yield from (files_of(wire(size, **unit), on_one_wire(1)) for size in (4097, 4098, 4099, 50_000))
    yield files_of(wire(14), on_one_wire(*[5] * 4096))
    yield files_of(wire(0, 11), on_one_wire(0))
    while True:
        one, entries = made.record(chance, kind=0, slack=0)
        left = [entry for entry in zip(*entries) if chance.randrange(3)]
        yield files_of(one, made.placed(left))
        yield files_of(*made.overload(chance, one, made.placed(left)))
        yield files_of(*made.any_placement(chance, one, entries))
        half = compare_references.as_buffers(compare_references.random_net(chance, 12, 25, 30, 8))
        yield files_of(half, compare_references.random_given(chance, half))
        yield files_of(*chance.choice(made.SPOILS)(chance, *made.record(chance)))
        yield [made.damaged(chance, data) for data in files_of(one, entries)]


GENERATORS = {"solve": solve_cases, "check": checked_cases, "loads": checked_cases, "carry": carry_cases, "finish": finish_cases}


def cases():
    for number, (verb, generate) in enumerate(GENERATORS.items()):
        for case, files in enumerate(itertools.islice(generate(random.Random(SEED + number)), CASES)):
            yield Case(f"{verb} {case}", verb, files)


# ---------------------------------------------------------------- one case

def kind_of(text):
    """`net refused 1`, `legal`: what an answer begins with."""
    words = text.decode().split("\n")[0].split()
    return " ".join(words[:words.index("refused") + 2]) if "refused" in words else " ".join(words[:1])


def law_fault(case, said):
    """What solve, carry and finish wrote is a legal placement of the net that they wrote it for, with as many entries as they said."""
    if case.verb not in desk.WRITERS or said.status != 0 or not said.written:
        return None
    net_file = case.files[1 if case.verb == "carry" else 0]
    count = int(said.text.split()[1])
    if case.verb == "finish":
        count += len(ref.read_placement(case.files[1]).wire)
    checked = desk.ask("check", [net_file, said.written])
    return None if checked.text.startswith(b"legal %d\n" % count) else f"written, and check says {checked.text[:40]!r}"


def launcher_fault(case, said):
    """The launcher says the same, and one line of words where that is a refusal."""
    with tempfile.TemporaryDirectory() as room:
        names = [f"file{number}" for number in range(len(case.files))]
        for name, data in zip(names, case.files):
            (pathlib.Path(room) / name).write_bytes(data)
        written = pathlib.Path(room) / "written"
        words = [LAUNCHER, case.verb, *names] + (["-o", "written"] if case.verb in desk.WRITERS else [])
        done = subprocess.run(words, cwd=room, stdin=subprocess.DEVNULL, capture_output=True, timeout=desk.HANG, check=False)
        data = written.read_bytes() if written.exists() else b""
    # where the whole of finish is in no file, the launcher has no file to give
    status = 2 if case.verb == "finish" and said.status == 0 and not said.written else said.status
    if (done.stdout, data, done.returncode, len(done.stderr.splitlines())) == (said.text, said.written, status, min(status, 1)):
        return None
    return f"the launcher says {done.stdout[:60]!r} {done.stderr!r}, status {done.returncode}"


def examine(numbered):
    number, case = numbered
    said = desk.ask(case.verb, case.files)
    faults = [due.fault(COUNTS, case.verb, case.files, said)]
    if number % 5 == 0:
        faults.append(law_fault(case, said))
    if number % 15 == 0:
        faults.append(launcher_fault(case, said))
    return Seen((case.verb, kind_of(said.text)), [f"{case.name}: {fault}: {[data[:60].hex() for data in case.files]}" for fault in faults if fault])


# ---------------------------------------------------------------- an audit

ODD_NAMES = [b"two words", b"new\nline", b"back\\slash", b"-dash", b"--", b"tab\there", b"\xff\xfe", "grüß".encode(), b"*", b"'\"$`", b".hidden",
             b"\x7f\x01", b"x.net", b"a: legal 1 least 1", b""]


class Shelf:
    """A folder of records."""

    def __init__(self, folder):
        self.folder = os.fsencode(folder)
        self.chance = random.Random(SEED)

    def path(self, name):
        return os.path.join(self.folder, name)

    def put(self, name, data):
        os.makedirs(os.path.dirname(self.path(name)), exist_ok=True)
        with open(self.path(name), "wb") as file:
            file.write(data)

    def put_record(self, name, net_file, placement_file):
        """A placement file of None is not there."""
        self.put(name + b".net", net_file)
        if placement_file is not None:
            self.put(name + b".place", placement_file)

    def fill(self):
        """Records of every kind, and what is no record."""
        for number in range(300):
            parts = made.record(self.chance)
            if number % 3:
                parts = self.chance.choice(made.SPOILS)(self.chance, *parts)
            files = files_of(*parts)
            if number % 7 == 0:
                files[self.chance.randrange(2)] = self.chance.choice((b"", made.damaged(self.chance, files[0]), made.damaged(self.chance, files[1])))
            if number % 11 == 0:
                files[1] = None
            folder = self.chance.choice((b"", b"a/", b"a/b/", b"a b/", b"Z/", b"deep/" * 20))
            odd = ODD_NAMES[number // 3 % len(ODD_NAMES)] if number % 3 == 0 else b"record"
            self.put_record(folder + odd + (b"%d" % number if odd else b""), *files)
        self.fill_least()
        self.fill_large()
        self.fill_oddities()

    def fill_least(self):
        """Nothing is needed, and nothing is there; and the examples."""
        for number in range(30):
            light = made.unlimited(self.chance, self.chance.randint(1, 9), made.SMALL, 0)
            self.put_record(b"light/%d" % number, *files_of(light, Placement([], [])))
        for file in (desk.ROOT / "examples").glob("*.place"):
            shutil.copy(file, os.fsdecode(self.folder))
        for file in (desk.ROOT / "examples").glob("*.net"):
            shutil.copy(file, os.fsdecode(self.folder))

    def fill_large(self):
        for kind in (0, 1):
            self.put_record(b"full %d" % kind, *files_of(*made.full_record(self.chance, kind)))
        for length in (20_000, 70_000):
            self.put_record(b"long net %d" % length, b"\xff" * length, b"")
            self.put_record(b"long placement %d" % length, ref.net_bytes(wire(14)), (ref.placement_bytes(on_one_wire(6)) + bytes(length))[:length])

    def fill_oddities(self):
        """Links, folders, and files without the other."""
        good = files_of(wire(14), on_one_wire(6))
        self.put_record(b"good", *good)
        self.put(b"placement alone.place", good[1])
        os.makedirs(self.path(b"folder.net/inner"))
        self.put_record(b"folder.net/inner/record", *good)
        self.put(b"to a folder.net", good[0])
        os.makedirs(self.path(b"to a folder.place"))
        for name, to in ((b"link.net", b"good.net"), (b"link.place", b"good.place"), (b"dangling.net", b"nowhere"), (b"loop.net", b"loop.net"),
                         (b"folder link.net", b"a"), (b"half.net", b"good.net"), (b"half.place", b"nowhere"), (b"looped.net", b"good.net"),
                         (b"looped.place", b"looped.place"), (b"linked folder", b"a")):
            os.symlink(to, self.path(name))

    def names(self):
        """The records' names in the order of their bytes: all whose name ends in .net and that are no folders."""
        found = []
        for folder, inner, files in os.walk(self.folder):
            links = [name for name in inner if os.path.islink(os.path.join(folder, name))]
            found += [os.path.relpath(os.path.join(folder, name), self.folder) for name in files + links if name.endswith(b".net")]
        return sorted(found)


def launcher_audit(words, **more):
    done = subprocess.run([LAUNCHER, "audit", *words], capture_output=True, timeout=desk.HANG, check=False, **more)
    return desk.Said(done.stdout, b"", done.returncode, done.stderr)


def due_record(folder_and_name):
    return due.record(COUNTS, *folder_and_name)


def audits(pool):
    """What is wrong with the audits of a folder, and how often each thing was said."""
    with tempfile.TemporaryDirectory() as folder:
        shelf = Shelf(folder)
        shelf.fill()
        names = shelf.names()
        records = pool.map(due_record, [(shelf.folder, name) for name in names], 10)
        lines, counted = [line for line, _ in records], [word for _, word in records]
        whole = desk.Said(b"".join(lines) + due.tally(counted), b"", 1, b"")
        listed = b"".join(name + b"\0" for name in names)
        tried = {"the folder": launcher_audit([folder]), "the folder once more": launcher_audit(["--", folder]),
                 "names on standard input": launcher_audit(["-"], input=listed, cwd=folder),
                 "the last 0 byte missing": launcher_audit(["-"], input=listed[:-1], cwd=folder),
                 "the folder from inside": launcher_audit(["."], cwd=folder),
                 "the program itself": desk.audit(folder, names)}
        faults = [f"audit, {name}: {difference(said, whole)}" for name, said in tried.items() if said != whole]
        faults += halves(pool, folder, names, lines, counted)
    faults += [f"no record of which is said: {word}" for word in ("least", "legal", "refused", "unread") if counted.count(word) < 10]
    return faults, Counter(("audit", kind_of(line.rpartition(b": ")[2])) for line in lines)


def halves(pool, folder, names, lines, counted):
    """Two halves at the same time: the same lines, and each its own tally."""
    middle = len(names) // 2
    parts = slice(None, middle), slice(middle, None)
    said = pool.starmap(desk.audit, [(folder, names[part]) for part in parts])
    return [f"audit, a half: {difference(half, None)}" for half, part in zip(said, parts)
            if half.text != b"".join(lines[part]) + due.tally(counted[part])]


def difference(said, right):
    """The first line that differs, or all but the text."""
    if right is None or said.text == right.text:
        return said._replace(text=said.text[-100:])
    return next((one, other) for one, other in itertools.zip_longest(said.text.split(b"\n"), right.text.split(b"\n")) if one != other)


def status_cases():
    """Shelves of one kind of record, and an empty one: the status is 0 where every record is legal."""
    net_file = ref.net_bytes(wire(14))
    shelves = ((None, None, None, 0), (b"least", on_one_wire(6), b"legal 1 least 1", 0), (b"legal", on_one_wire(6, 6), b"legal 2 least 1", 0),
               (b"refused", on_one_wire(7), b"refused 11 place 0", 1), (b"unread", None, b"no placement file", 1))
    faults = []
    for name, placement, said, status in shelves:
        with tempfile.TemporaryDirectory() as folder:
            if name:
                Shelf(folder).put_record(name, net_file, placement and ref.placement_bytes(placement))
            text = (name + b".net: " + said + b"\n" + due.tally([name.decode()])) if name else due.tally([])
            found = launcher_audit([folder])
            if found != desk.Said(text, b"", status, b""):
                faults.append(f"audit of one record: {found}")
    return faults


# ---------------------------------------------------------------- all of it

def main():
    asked = list(cases())
    with multiprocessing.Pool(max(2, os.cpu_count())) as pool:
        seen = pool.map(examine, list(enumerate(asked)), 1)
        faults = [fault for one in seen for fault in one.faults]
        audit_faults, audit_kinds = audits(pool)
    kinds = Counter(one.kind for one in seen)
    faults += [f"never said: {verb} {kind}" for verb, due_kinds in KINDS.items() for kind in due_kinds if (verb, kind) not in kinds]
    faults += [f"never due: {verb} {kind}" for verb, kind in kinds if kind not in KINDS[verb]]
    faults += audit_faults + status_cases()
    for fault in faults:
        print("WRONG:", fault)
    for (verb, kind), number in sorted((kinds + audit_kinds).items()):
        print(f"  {verb}: {kind}: {number}")
    print(f"the desk: {len(asked)} questions, {sum(audit_kinds.values())} records audited, {len(faults)} wrong")
    sys.exit(len(faults) > 0)


if __name__ == "__main__":
    COUNTS = due.Counts(sys.argv[1])
    main()
