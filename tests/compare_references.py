"""reference.py against reference.c: every net of RULES, section 9, half-buffered nets whose
answer is known, the stored damaged files, and random cases from a fixed seed.

    python3 compare_references.py PROGRAM [HOW_MANY]

PROGRAM is compare_references.c compiled with reference.c. See README.md.
"""
import random
import subprocess
import sys
from collections import Counter

import make_damaged
import reference as ref
from reference import Limits, Net, Placement

SEED = 416


# ---------------------------------------------------------------- RULES, section 9

def net(nodes, limit=10, pin=2, kind=0):
    columns = [list(column) for column in zip((0, 0, 0, 0, 0), *nodes)]
    return Net(Limits(limit, pin, kind), *columns)


def branch(parent, wire=0):
    return parent, wire, 0, 0, 0


def sink(parent, wire, pin, polarity=0):
    return parent, wire, 1, pin, polarity


NONE = -1
FIFTEEN = net([sink(0, 15, 4)])
TABLE = [
    (net([sink(0, 6, 4)]), 0),
    (net([sink(0, 7, 4)]), 1),
    (net([sink(0, 14, 4)]), 1),
    (FIFTEEN, 2),
    (net([sink(0, 15, 4)], limit=11), 1),
    (net([sink(0, 0, 10)]), 0),
    (net([sink(0, 0, 11)]), NONE),
    (net([sink(0, 0, 3)] * 5), 5),
    (net([sink(0, 0, 3)] * 6), NONE),
    (net([sink(0, 0, 7), sink(0, 0, 5)]), 1),
    (net([sink(0, 0, 1), sink(0, 0, 1, 1)], kind=1), 1),
    (net([sink(0, 0, 10, 1), sink(0, 0, 9)], kind=1), 3),
    (net([branch(0), sink(0, 0, 6), sink(1, 0, 1, 1), sink(1, 0, 7)], kind=1), 2),
    (net([sink(0, 1, 1, 1)], kind=1), 0),
    # One label a polarity says 3 here; the answer is 2.
    (net([branch(0), sink(0, 0, 4), branch(1), sink(1, 0, 1), sink(3, 0, 1, 1), sink(3, 0, 7)],
         kind=1), 2),
]


FOURTEEN = net([sink(0, 14, 4)])
ONES = net([sink(0, 0, 1)] * 6)
FORK = net([branch(0, 3), sink(1, 0, 7), sink(1, 0, 5)])
# Half-buffered nets: the given entries, and what is added or the refusal and its place.
HALVES = [
    (FOURTEEN, [(1, 6)], 0),
    (FOURTEEN, [(1, 5)], 1),
    (FOURTEEN, [(1, 7)], 1),
    (FOURTEEN, [(1, 14)], 1),
    (FOURTEEN, [(1, 5)] * 4096, 1),
    (FIFTEEN, [(1, 0), (1, 0)], 1),
    (net([sink(0, 30, 4)]), [(1, 6), (1, 23)], 2),
    (net([sink(0, 0, 11)]), [(1, 0)], (8, 0)),
    (net([sink(0, 0, 3)] * 5), [(1, 0)], 4),
    (ONES, [], 0),
    (ONES, [(wire, 0) for wire in range(1, 7)], (8, 0)),
    (ONES._replace(limits=Limits(10, 0, 0)), [(wire, 0) for wire in range(1, 7)], 0),
    (FORK, [(1, 0)], 1),
    (FORK, [(2, 0)], 0),
    (net([branch(0, 7)] + [sink(1, 0, 3)] * 5), [(2, 0), (2, 0)], 5),
    (net([sink(0, 20_000, 0)], limit=1, pin=0), [(1, 10_000)], (9, 19_998)),
    (net([sink(0, 6, 4)]), [(1, 3), (1, 2)], (10, 1)),
]


def halves_hold():
    """The half-buffered nets, by the Python reference alone."""
    for number, (half, given, want) in enumerate(HALVES):
        columns = [w for w, _ in given], [o for _, o in given]
        answer, _ = attempt(lambda: (ref.finish_judged(half, *columns), 0))
        expected = want if isinstance(want, int) else f"refused {want[0]} place {want[1]}"
        assert answer == expected, (number, answer)
        if isinstance(want, int) and len(given) < 5:
            assert ref.least_added_exhaustive(half, Placement(*columns)) == want, number
    unequal = attempt(lambda: ref.finish_judged(TABLE[13][0], [1], []))
    assert unequal == ("refused 3 place 0", 0)


def offsets_that_serve(one_wire):
    """All offsets at which a single entry makes a net of one wire legal."""
    return [o for o in range(one_wire.wire[1] + 1) if ref.legal(one_wire, Placement([1], [o]))]


def table_holds():
    """The table, by the Python reference alone; what the rows say of offsets too."""
    for number, (row, least) in enumerate(TABLE):
        found = ref.least_exhaustive(row)
        assert (NONE if found is None else found) == least, number
        assert ref.least_frontier(row) == found, number
    assert offsets_that_serve(TABLE[1][0]) == list(range(0, 7))
    assert offsets_that_serve(TABLE[2][0]) == [6]
    carried = ref.carry(FIFTEEN, net([sink(0, 10, 4)]), Placement([1, 1], [6, 14]))
    assert carried.offset == [6, 10]
    two_on_one_wire = [(1, 1, 2), (1, 2, 2)]      # no other wires serve in the twelfth net
    legal_with_three = {share for share in ((1, 1, 1), (1, 1, 2), (1, 2, 2), (2, 2, 2))
                        if ref.legal(TABLE[11][0], Placement(list(share), [0, 0, 0]))}
    assert legal_with_three <= set(two_on_one_wire) and legal_with_three


# ---------------------------------------------------------------- random cases

def random_net(chance, wires, limit, wire, pin):
    """Any tree: a leaf is a sink, the rest branch points with at most eight children."""
    parents, used = [], [0]
    for node in range(1, chance.randint(1, wires) + 1):
        open_nodes = [n for n in range(node) if parents.count(n) < 8]
        shape = chance.randrange(3)
        parents.append(open_nodes[0] if shape == 0 else
                       open_nodes[-1] if shape == 1 else chance.choice(open_nodes))
        used.append(node)
    kind, c_u = chance.randrange(2), chance.randint(1, limit)
    nodes = []
    for node, parent in enumerate(parents, 1):
        size = chance.randint(0, wire)
        if node in parents:
            nodes.append(branch(parent, size))
        else:
            nodes.append(sink(parent, size, chance.randint(0, pin), chance.randrange(kind + 1)))
    return net(nodes, c_u, chance.randint(0, (c_u - 1) // 2), kind)


def random_placement(chance, net):
    entries = []
    for _ in range(chance.choice((0, 1, 1, 2, 3, 5, 8))):
        wire = chance.randrange(1, len(net.parent))
        entries.append((wire, chance.randint(0, net.wire[wire])))
    entries.sort()
    if entries and chance.randrange(5) == 0:
        place = chance.randrange(len(entries))
        wire, offset = entries[place]
        entries[place] = chance.choice(((wire, offset + 1), (wire + 1, offset),
                                        (max(1, wire - 1), offset), (1, offset)))
    return Placement([w for w, _ in entries], [o for _, o in entries])


def eased(chance, net):
    """A net that mostly eases the given one."""
    limits = Limits(net.limits.limit + chance.randrange(3),
                    max(0, net.limits.pin - chance.randrange(2)), net.limits.type)
    wire = [max(0, w - chance.randrange(3)) for w in net.wire]
    pin = [max(0, p - chance.randrange(2)) for p in net.pin]
    polarity = list(net.polarity)
    node = chance.randrange(1, len(wire))
    spoil = chance.randrange(8)
    if spoil == 0:
        wire[node] = net.wire[node] + 1
    if spoil == 1 and net.kind[node] == 1:
        pin[node] = net.pin[node] + 1
    if spoil == 2 and net.limits.type == 1 and net.kind[node] == 1:
        polarity[node] ^= 1
    if spoil == 3:
        limits = Limits(max(1, net.limits.limit - 1), 0, net.limits.type)
    return Net(limits, net.parent, wire, net.kind, pin, polarity)


def broken_columns(chance, net):
    """Columns with one value or one length changed."""
    limits, columns = net.limits, [list(column) for column in net[1:]]
    which, how = chance.randrange(5), chance.randrange(8)
    column = columns[which]
    if how == 0:
        column.pop()
    elif how == 1:
        column.append(0)
    elif how == 2:
        limits = Limits(chance.choice((0, 1, 5, 1_000_001)), chance.randrange(4), chance.randrange(3))
    else:
        value = chance.choice((0, 0, 1, 2, 3, 4, 200, 1_000_001, 10_000_001))
        most = (65536, 1 << 32, 256, 1 << 32, 256)[which]
        column[chance.randrange(len(column))] = value % most
    return Net(limits, *columns)


def broken_net(chance, net):
    """A net with one node's wire or parent out of range."""
    wire, parent = list(net.wire), list(net.parent)
    node = chance.randrange(1, len(wire))
    if chance.randrange(2) == 0:
        wire[node] = 10_000_001
    else:
        parent[node] = node + chance.randrange(2)
    return Net(net.limits, parent, wire, net.kind, net.pin, net.polarity)


# ---------------------------------------------------------------- questions and Python's answers

def hexed(data):
    return data.hex() or "-"


def attempt(act):
    try:
        return act()
    except ref.Refused as refusal:
        named = {None: 0, "first": 1, "second": 2}[refusal.net]
        return f"refused {refusal.number} place {refusal.place}", named


def ask_read(word, data):
    read = ref.read_net if word == "net" else ref.read_placement
    return f"{word} {hexed(data)}", make_damaged.answer(read, data)


def ask_loads(word, loads, net, placement):
    def act():
        drives, source = loads(net, placement)
        return " ".join(["count", str(len(drives)), "source", str(source), *map(str, drives)]), 0
    question = f"{word} {hexed(ref.net_bytes(net))} {hexed(ref.placement_bytes(placement))}"
    return question, attempt(act)[0]


def ask_check(net, placement):
    def checked(net, placement):
        ref.check(net, placement)
        return ref.judge_placement(net, placement)
    return ask_loads("check", checked, net, placement)


def ask_drives(net, placement):
    return ask_loads("drives", ref.list_drives, net, placement)


def ask_files(net_file, placement_file):
    return (f"files {hexed(net_file)} {hexed(placement_file)}",
            str(ref.check_files(net_file, placement_file)))


def ask_carry(first, second, placement):
    def act():
        return ref.placement_bytes(ref.carry(first, second, placement)).hex(), None
    answer, named = attempt(act)
    files = (ref.net_bytes(first), ref.net_bytes(second), ref.placement_bytes(placement))
    return ("carry " + " ".join(map(hexed, files)),
            answer if named is None else f"net {named} {answer}")


def ask_judge(net):
    def act():
        ref.judge_net(net)
        return f"read {len(net.parent)}", 0
    columns = [",".join(map(str, column)) or "-" for column in net[1:]]
    return " ".join(["judge", *map(str, net.limits), *columns]), attempt(act)[0]


def ask_least(word, net, least):
    found = least(net)
    found = NONE if found is None else found
    return f"{word} {hexed(ref.net_bytes(net))}", f"{found} {found}"


def ask_finish(net, given, room):
    def act():
        return f"read {ref.finish_judged(net, *given, room)}", 0
    columns = [",".join(map(str, column)) or "-" for column in given]
    return f"finish {hexed(ref.net_bytes(net))} {' '.join(columns)} {room}", attempt(act)[0]


def ask_added(net, given):
    found = ref.least_added_exhaustive(net, given)
    assert found == ref.least_added(net, given), (net, given)
    found = NONE if found is None else found
    files = ref.net_bytes(net), ref.placement_bytes(given)
    return "added " + " ".join(map(hexed, files)), f"{found} {found}"


def table_questions():
    for row, least in TABLE:
        yield ask_least("least", row, ref.least_exhaustive)
        yield ask_check(row, Placement([], []))
        yield ask_judge(row)
        for offset in range(row.wire[1] + 1):
            yield ask_check(row, Placement([1], [offset]))
    yield ask_carry(FIFTEEN, net([sink(0, 10, 4)]), Placement([1, 1], [6, 14]))


def stored_questions():
    for name, (make, _, _) in make_damaged.SETS.items():
        for _, data in make_damaged.unlike(make()):
            yield ask_read(name.split("_")[0], data)


def half_questions():
    for half, given, _ in HALVES:
        columns = Placement([w for w, _ in given], [o for _, o in given])
        for room in (0, 1, 3, 5000):
            yield ask_finish(half, columns, room)


def as_buffers(net):
    return net._replace(limits=net.limits._replace(type=0), polarity=[0] * len(net.polarity))


def random_given(chance, net):
    """Entries in order on the net's wires, often at an end of one, often equal."""
    entries = []
    for _ in range(chance.choice((0, 1, 1, 2, 3, 5))):
        wire = chance.randrange(1, len(net.parent))
        offset = chance.choice((0, net.wire[wire], chance.randint(0, net.wire[wire])))
        entries += [(wire, offset)] * chance.choice((1, 1, 1, 2))
    entries.sort()
    return Placement([w for w, _ in entries], [o for _, o in entries])


def broken_given(chance, given):
    """Columns that are unequal, too long, or hold an entry that may not stand."""
    wires, offsets = list(given.wire), list(given.offset)
    how = chance.randrange(5)
    if how == 0:
        offsets.append(0)
    elif how == 1:
        wires, offsets = [1] * 4097, [0] * 4097
    elif wires:
        place = chance.randrange(len(wires))
        wires[place] = chance.choice((0, 1, wires[place], wires[place], len(wires), 65535))
        offsets[place] += chance.choice((0, 1, 10_000_001))
    return Placement(wires, offsets)


def finish_questions(chance, number):
    for _ in range(number):
        small = as_buffers(random_net(chance, 3, 9, 2, 4))
        large = as_buffers(random_net(chance, 12, 25, 30, 8))
        yield ask_added(small, random_given(chance, small))
        for net in (small, large, large):
            given = random_given(chance, net)
            yield ask_finish(net, given, chance.choice((0, 1, 2, 3, 5, 9, 4096, 5000)))
        yield ask_finish(large, broken_given(chance, given), 5000)
        yield ask_finish(broken_net(chance, large), broken_given(chance, given), 5000)
        yield ask_finish(random_net(chance, 5, 25, 30, 8), broken_given(chance, given), 5000)


def random_questions(chance, number):
    for _ in range(number):
        small = random_net(chance, 3, 9, 2, 4)
        large = random_net(chance, 12, 25, 30, 20)
        light = random_net(chance, 7, 60, 6, 4)        # many placements on it are legal
        yield ask_least("least", small, ref.least_exhaustive)
        yield ask_least("frontier", large, ref.least_frontier)
        yield ask_judge(broken_columns(chance, large))
        for net in (small, large, light, light):
            placement = random_placement(chance, net)
            yield ask_check(net, placement)
            yield ask_drives(net, placement)
            yield ask_carry(net, eased(chance, net), placement)
            yield from damaged_questions(chance, net, placement)
        yield ask_carry(light, broken_net(chance, light), placement)
        yield ask_carry(broken_net(chance, light), broken_net(chance, light), placement)


def damaged_questions(chance, net, placement):
    seed = chance.randrange(1 << 30)
    net_file, placement_file = ref.net_bytes(net), ref.placement_bytes(placement)
    _, bad_net = next(make_damaged.changed([net_file], seed, 1))
    _, bad_placement = next(make_damaged.changed([placement_file], seed, 1))
    yield ask_read("net", bad_net)
    yield ask_read("placement", bad_placement)
    yield ask_files(net_file, placement_file)
    yield ask_files(bad_net, bad_placement)
    yield ask_files(net_file, bad_placement)
    yield f"rewrite {hexed(net_file)}", net_file.hex()
    yield f"rewrite {hexed(placement_file)}", placement_file.hex()


def print_kinds(asked):
    """How often each question had each kind of answer."""
    kinds = Counter((q.split()[0], " ".join(a.split()[:2]) if a[0] in "nr" else a[:5])
                    for q, a in asked if q.split()[0] != "rewrite")
    for (word, kind), number in sorted(kinds.items()):
        print(f"  {word}: {kind}: {number}")


def main():
    program = sys.argv[1]
    number = int(sys.argv[2]) if len(sys.argv) > 2 else 1500
    table_holds()
    halves_hold()
    asked = [*table_questions(), *half_questions(), *stored_questions(),
             *random_questions(random.Random(SEED), number),
             *finish_questions(random.Random(SEED), number)]
    text = "".join(question + "\n" for question, _ in asked)
    done = subprocess.run([program], input=text, capture_output=True, text=True, check=True)
    answers = done.stdout.splitlines()
    assert len(answers) == len(asked), "the program stopped early"
    for (question, python), c in zip(asked, answers):
        if python != c:
            sys.exit(f"{question}\n  Python: {python}\n  C:      {c}")
    words = [question.split()[0] for question, _ in asked]
    if "--answers" in sys.argv:
        print_kinds(asked)
    print("same answers:", ", ".join(f"{word} {words.count(word)}" for word in sorted(set(words))))


if __name__ == "__main__":
    main()
