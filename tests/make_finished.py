"""Makes what crate finish_runs reads, and judges what it prints: half-buffered nets to be finished.

Run without arguments: writes the crate's stdin anew (it is stored, and comes out the same each
time). Its stdout is what the program printed: which of several least completions it adds is free.
With --check: compares the stdin with the stored, and judges the stored stdout: the refusal or the
number added that is due to each pair, the added entries in order, the whole legal. With --list:
says what each pair is, and what is due.

The input is pairs of files with nothing between: a net file, and the placement file of its given
entries. What follows a cut file cannot be told from it, so the only one stands last.
"""
import random
import re
import sys
from pathlib import Path

import reference as ref
from reference import Limits, Net, Placement

CRATE = Path(__file__).parent.parent / "crates" / "finish_runs"
INVERTERS, ONE_UNIT = Limits(10, 2, 1), Limits(1, 0, 0)
MOST_INPUT = 131_072         # the program reads fewer bytes
SEED = 40020
RANDOM = 200


# ---------------------------------------------------------------- nets and given entries

def net_of(*nodes, limits=Limits(10, 2, 0)):
    """A net of nodes (parent, wire, kind, pin, polarity), node 0 put before them."""
    return Net(limits, *(list(column) for column in zip((0, 0, 0, 0, 0), *nodes)))


def branch(parent, wire=0):
    return parent, wire, 0, 0, 0


def sink(parent, wire=0, pin=1):
    return parent, wire, 1, pin, 0


def line(wire, pin=4, limits=Limits(10, 2, 0)):
    return net_of(sink(0, wire, pin), limits=limits)


def given(*entries):
    return Placement([wire for wire, _ in entries], [offset for _, offset in entries])


def chain(nodes, wire):
    return net_of(*(branch(i, wire) for i in range(nodes - 1)), sink(nodes - 1, wire, 4))


def bushy(nodes):
    """Eight children to each point, as far as the nodes go, their wires and pins of many sizes."""
    wires = [7 * i % 61 for i in range(nodes + 1)]
    return net_of(*(branch((i - 1) // 8, wires[i]) if 8 * i < nodes else
                    sink((i - 1) // 8, wires[i], 11 * i % 97) for i in range(1, nodes + 1)),
                  limits=Limits(100, 5, 0))


# ---------------------------------------------------------------- cases: words, net, given, due
#
# What is due is the number of entries to add, or a refusal's number and place. None: the search
# alone says it. C_U is 10 and C_b is 2 unless it is said. No file can hold unequal columns.

def added_cases():
    yield "wire 14, nothing over", line(14), given((1, 6)), 0
    yield "wire 14, the source over", line(14), given((1, 5)), 1
    yield "wire 14, the entry over", line(14), given((1, 7)), 1
    yield "wire 14, given at its upper end", line(14), given((1, 14)), 1
    yield "wire 14, given at its lower end", line(14), given((1, 0)), 1
    yield "wire 15, two equal entries", line(15), given((1, 0), (1, 0)), 1
    yield "wire 30, two gaps", line(30), given((1, 6), (1, 23)), 2
    yield "five sinks, one buffered", net_of(*[sink(0, 0, 3)] * 5), given((1, 0)), 4
    free = net_of(*[sink(0)] * 6, limits=Limits(10, 0, 0))
    yield "six sinks, all buffered, C_b 0", free, on_each(6), 0
    yield "branch over pins 7, 5: the branch buffered", forked(), given((1, 0)), 1
    yield "branch over pins 7, 5: the pin 7 buffered", forked(), given((2, 0)), 0
    five = net_of(branch(0, 7), *[sink(1, 0, 3)] * 5)
    yield "branch wire 7 over five pins 3", five, given((2, 0), (2, 0)), 5
    yield "4,096 given and one added", line(14), given(*[(1, 5)] * 4096), 1


def forked():
    return net_of(branch(0, 3), sink(1, 0, 7), sink(1, 0, 5))


def on_each(wires):
    return given(*((wire, 0) for wire in range(1, wires + 1)))


def plain_cases():
    yield "none given, none needed", line(6), given(), 0
    yield "none given, one needed", line(14), given(), 1
    yield "none given, six sinks", net_of(*[sink(0, 0, 3)] * 6), given(), (8, 0)


def refused_cases():
    yield "pin 11", line(0, 11), given((1, 0)), (8, 0)
    yield "six sinks, all buffered", net_of(*[sink(0)] * 6), on_each(6), (8, 0)
    yield "six sinks, none buffered", net_of(*[sink(0)] * 6), given(), 0
    yield "out of order", line(6), given((1, 3), (1, 2)), (10, 1)
    yield "wires out of order", forked(), given((1, 0), (3, 0), (2, 0)), (10, 2)
    yield "past its wire", line(6), given((1, 6), (1, 7)), (10, 1)
    yield "on no wire", line(6), given((2, 0)), (10, 0)
    yield "out of order, and nothing legal", line(0, 11), given((1, 0), (1, 1)), (10, 1)
    yield "inverters", line(14, 4, INVERTERS), given((1, 6)), (3, 0)
    yield "inverters, out of order", line(6, 4, INVERTERS), given((1, 3), (1, 2)), (3, 0)


# Summed over every driver, m entries and the source, the loads are wires, pins and m times C_b.
# With C_U 1, C_b 0 and pin 0 that is the wire alone, so m + 1 is at least its size; an entry at each
# whole place between its ends reaches that, and the given entry is one of them: size - 2 are added.
def room_cases():
    yield "as many as there is room", line(4098, 0, ONE_UNIT), given((1, 1)), 4096
    yield "one more than there is room", line(4099, 0, ONE_UNIT), given((1, 1)), (9, 4097)
    longest = line(10_000_000, 0, ONE_UNIT)
    yield "the longest wire", longest, given((1, 5_000_000)), (9, 9_999_998)


def large_cases():
    yield "1,024 nodes, none given", bushy(1024), given(), None
    some = given(*((wire, 0) for wire in range(1, 1025) if wire % 3 == 0))
    yield "the same, a third of the wires buffered", bushy(1024), some, None
    yield "a chain of 1,024, each wire buffered", chain(1024, 15), on_each(1024), None


def random_cases():
    chance = random.Random(SEED)
    for number in range(RANDOM):
        net = random_net(chance)
        wires = [chance.randint(1, len(net.wire) - 1) for _ in range(chance.randint(0, 4))]
        entries = sorted((wire, chance.randint(0, net.wire[wire])) for wire in wires)
        yield f"random net {number}", net, given(*entries), None


def random_net(chance):
    limit = chance.randint(1, 12)
    parents = [chance.randrange(node) for node in range(1, chance.randint(2, 7))]
    nodes = [branch(parent, chance.randint(0, 9)) if node in parents else
             sink(parent, chance.randint(0, 20), chance.randint(0, limit))
             for node, parent in enumerate(parents, 1)]
    return net_of(*nodes, limits=Limits(limit, chance.randint(0, (limit - 1) // 2), 0))


def pairs():
    """Words, net file, placement file, what is due where the page says it."""
    for some in (added_cases, plain_cases, refused_cases, room_cases, large_cases, random_cases):
        for words, net, placement, due in some():
            yield words, ref.net_bytes(net), ref.placement_bytes(placement), due
    childless = ref.net_bytes(net_of(branch(0), branch(1), sink(1)))
    yield "a childless branch point", childless, ref.placement_bytes(given((1, 0))), ("net", 5, 2)
    net, placement = ref.net_bytes(line(14)), ref.placement_bytes(given((1, 6), (1, 9)))
    yield "the second entry cut", net, placement[:-4], ("placement", 1, 14)


# ---------------------------------------------------------------- the least number to add
#
# All pairs (number added, load) that no other beats in both, as in reference.py, here unit by unit
# from a wire's lower end up. A load over C_U is dropped: all of it hangs on one driver. Where an
# entry is given there is one buffer at least, and more at that place serve nothing.

def over_wire(net, wire, offsets, pairs):
    for place in range(net.wire[wire] + 1):
        pairs = ref.within(net, [(added, load + (place > 0)) for added, load in pairs])
        fixed = place in offsets
        topped = [(added + (not fixed), net.limits.pin) for added, _ in pairs]
        pairs = ref.unbeaten(topped if fixed else pairs + topped)
    return pairs


def least_added(net, placement):
    """The fewest entries that make the whole legal with the given ones, or None."""
    at = [[(0, pin if kind == 1 else 0)] for kind, pin in zip(net.kind, net.pin)]
    for node in range(len(net.parent) - 1, 0, -1):
        top = over_wire(net, node, set(ref.offsets_on(placement, node)), at[node])
        at[net.parent[node]] = ref.joined(net, at[net.parent[node]], top)
    return min((added for added, _ in at[0]), default=None)


# ---------------------------------------------------------------- what is due to a pair

def read_as(name, read, data):
    try:
        return read(data)
    except ref.Refused as refusal:
        raise ref.Refused(refusal.number, refusal.place, name)


def searched(net_file, placement_file, due):
    """The number to add, or Refused. The longest wires are too long for the search: their `due`."""
    net = read_as("net", ref.read_net, net_file)
    placement = read_as("placement", ref.read_placement, placement_file)
    if net.limits.type == 1:
        raise ref.Refused(3, 0)
    ref.judge_entries(net, placement)
    if max(net.wire) > 100_000:
        raise ref.Refused(*due)
    added = least_added(net, placement)
    if added is None:
        raise ref.Refused(8, 0)
    if added > ref.MOST_ENTRIES:
        raise ref.Refused(9, added)
    return added


def first_line(net_file, placement_file, due):
    try:
        added = searched(net_file, placement_file, due)
    except ref.Refused as refusal:
        whose = [refusal.net] if refusal.net else []
        assert due in (None, (*whose, refusal.number, refusal.place)), due
        return " ".join(whose + [f"refused {refusal.number} place {refusal.place}"])
    assert due in (None, added), due
    return f"added {added}"


# ---------------------------------------------------------------- the printed text judged

def wrong(words, what):
    sys.exit(f"finish_runs/stdout: {words}: {what}")


def entry_in(words, line):
    found = re.fullmatch(r"wire (0|[1-9]\d*) offset (0|[1-9]\d*)", line)
    if not found:
        wrong(words, f"an entry is due and not {line!r}")
    return int(found[1]), int(found[2])


def judge_added(words, net, placement, added):
    if added != sorted(added):
        wrong(words, "the added entries are not in order")
    whole = sorted(list(zip(*placement)) + added)
    if not ref.legal(net, given(*whole)):
        wrong(words, "the whole is not legal")


def judge_pair(lines, words, net_file, placement_file, first):
    """A pair's lines are those due to it. Answers the lines after them."""
    if lines[:1] != [first]:
        wrong(words, f"{first!r} is due and not {lines[:1]}")
    if not first.startswith("added"):
        return lines[1:]
    count = int(first.split()[1])
    added = [entry_in(words, line) for line in lines[1:count + 1]]
    judge_added(words, ref.read_net(net_file), ref.read_placement(placement_file), added)
    return lines[count + 1:]


def judge_text(text, due):
    """Each pair's lines in turn, and nothing after the last."""
    lines = text.split("\n")
    for pair in due:
        lines = judge_pair(lines, *pair)
    if lines != [""]:
        wrong("after the last pair", f"nothing is due and not {lines[:1]}")


def main():
    due = [(words, *files, first_line(*files, known)) for words, *files, known in pairs()]
    refusals = {first.split(" place")[0] for *_, first in due if "refused" in first}
    assert refusals == {"refused 3", "refused 8", "refused 9", "refused 10",
                        "net refused 5", "placement refused 1"}
    stdin = b"".join(net + placement for _, net, placement, _ in due)
    assert len(stdin) < MOST_INPUT
    if "--list" in sys.argv[1:]:
        print("\n".join(f"{first:28} {words}" for words, _, _, first in due))
        return
    if "--check" not in sys.argv[1:]:
        (CRATE / "stdin").write_bytes(stdin)
    elif (CRATE / "stdin").read_bytes() != stdin:
        sys.exit("finish_runs/stdin is not what make_finished.py makes")
    else:
        judge_text((CRATE / "stdout").read_bytes().decode(), due)
    print(f"finish_runs: {len(due)} pairs, {len(stdin)} bytes")


if __name__ == "__main__":
    main()
