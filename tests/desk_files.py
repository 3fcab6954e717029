"""desk_files.py: files for the tests of the desk, from a seed: records that are legal, and what spoils them.

A record is made the other way round: first a tree and the entries on it, then limits and polarities with which they are legal.
"""
from collections import namedtuple

import make_damaged
import reference as ref
from reference import Limits, Net, Placement

Size = namedtuple("Size", "nodes entries wire pin")      # the most of each
SMALL, MIDDLE, LARGE = Size(8, 6, 30, 12), Size(60, 80, 400, 90), Size(300, 700, 30_000, 900)


# ---------------------------------------------------------------- legal records

def parents_of(chance, nodes):
    """A tree: the parent of each node from 1 up. Some are chains, some are as bushy as eight children make them."""
    free, parents, shape = [0], [], chance.randrange(4)
    for node in range(1, nodes + 1):
        parent = free[0] if shape == 0 else free[-1] if shape == 1 else chance.choice(free)
        parents.append(parent)
        if parents.count(parent) == ref.MOST_CHILDREN:
            free.remove(parent)
        free.append(node)
    return parents


def unlimited(chance, nodes, size, kind):
    """A net of these nodes with the highest C_U that there is; who has no child is a sink."""
    parents = parents_of(chance, nodes)
    inner = set(parents)
    columns = [(0, 0, 0, 0, 0)]
    for node, parent in enumerate(parents, 1):
        wire = chance.choice((0, chance.randint(0, size.wire), chance.randint(0, size.wire)))
        columns.append((parent, wire, 0, 0, 0) if node in inner else (parent, wire, 1, chance.randint(0, size.pin), 0))
    return Net(Limits(ref.MOST_LIMIT, chance.randint(0, size.pin // 2), kind), *(list(column) for column in zip(*columns)))


def any_entries(chance, net, count):
    """So many entries anywhere on the net's wires, in order, some of them equal and some at a wire's end."""
    entries = []
    while len(entries) < count:
        wire = chance.randrange(1, len(net.parent))
        offset = chance.choice((0, net.wire[wire], chance.randint(0, net.wire[wire]), chance.randint(0, net.wire[wire])))
        entries += [(wire, offset)] * chance.choice((1, 1, 1, 2))
    return placed(sorted(entries[:count]))


def placed(entries):
    return Placement([wire for wire, _ in entries], [offset for _, offset in entries])


def limited(chance, net, placement, slack):
    """The net with a C_U that the fullest driver is `slack` below, and with polarities that the placement serves."""
    drives, source = ref.loads(net, placement)
    limit = max([*drives, source, 2 * net.limits.pin + 1]) + slack
    turn, above = chance.randrange(2), [0] * len(net.parent)
    for node in range(1, len(net.parent)):
        above[node] = above[net.parent[node]] + placement.wire.count(node)
    polarity = [(above[node] + turn) % 2 * kind * net.limits.type for node, kind in enumerate(net.kind)]
    return net._replace(limits=net.limits._replace(limit=min(limit, ref.MOST_LIMIT)), polarity=polarity)


def record(chance, size=None, kind=None, slack=None):
    """A net and a placement that is legal on it."""
    size = size or chance.choice((SMALL, SMALL, SMALL, MIDDLE))
    kind = chance.randrange(2) if kind is None else kind
    net = unlimited(chance, chance.randint(1, size.nodes), size, kind)
    placement = any_entries(chance, net, chance.randint(0, size.entries))
    return limited(chance, net, placement, chance.choice((0, 0, 1, size.pin)) if slack is None else slack), placement


def full_record(chance, kind):
    """1,024 nodes and 4,096 entries."""
    net = unlimited(chance, 1024, Size(1024, 4096, 5_000, 300), kind)
    placement = any_entries(chance, net, 4096)
    return limited(chance, net, placement, 0), placement


# ---------------------------------------------------------------- what spoils a record

def overload(_chance, net, placement):
    """C_U is one too low for the fullest driver, where it may be."""
    limits = net.limits
    lower = max(limits.limit - 1, 2 * limits.pin + 1)
    return net._replace(limits=limits._replace(limit=lower)), placement


def turn_a_sink(chance, net, placement):
    sinks = [node for node, kind in enumerate(net.kind) if kind == 1]
    polarity = list(net.polarity)
    polarity[chance.choice(sinks)] ^= net.limits.type
    return net._replace(polarity=polarity), placement


def misplace(chance, net, placement):
    """An entry on no wire, past its wire, or before its predecessor."""
    entries = list(zip(*placement)) or [(1, 0)]
    at = chance.randrange(len(entries))
    wire, offset = entries[at]
    how = chance.randrange(4)
    if how == 0:
        entries[at] = len(net.parent), offset
    elif how == 1:
        entries[at] = wire, net.wire[min(wire, len(net.wire) - 1)] + 1
    elif how == 2:
        entries[at] = 1, 0
    else:
        entries.reverse()
    return net, placed(entries)


def any_placement(chance, net, _placement):
    return net, any_entries(chance, net, chance.randint(0, 12))


SPOILS = (overload, overload, turn_a_sink, turn_a_sink, misplace, misplace, any_placement)


def damaged(chance, data):
    """The same bytes with one to three of them changed, left out or put in."""
    return next(make_damaged.changed([data], chance.randrange(1 << 30), 1))[1]


def lighter(chance, net):
    """A net that eases the first one: wires and pins cut, some of them to nothing, C_U raised, C_b lowered."""
    limits = Limits(min(net.limits.limit + chance.randrange(3), ref.MOST_LIMIT), chance.randint(0, net.limits.pin), net.limits.type)
    cut = chance.choice((0, 1, 2))      # none, few, most
    wire = [chance.randint(0, size) if chance.randrange(3) < cut else size for size in net.wire]
    pin = [chance.randint(0, size) if chance.randrange(3) < cut else size for size in net.pin]
    return Net(limits, net.parent, wire, net.kind, pin, net.polarity)


def heavier(chance, net):
    """A net that mostly does not ease the first one."""
    node = chance.randrange(1, len(net.parent))
    limits, wire, pin = net.limits, list(net.wire), list(net.pin)
    how = chance.randrange(5)
    if how == 0:
        limits = limits._replace(limit=max(limits.limit - 1, 2 * limits.pin + 1))
    elif how == 1:
        limits = limits._replace(pin=min(limits.pin + 1, (limits.limit - 1) // 2))
    elif how == 2:
        wire[node] += 1
    elif how == 3:
        pin[node] += net.kind[node]
    else:
        return unlimited(chance, chance.randint(1, 9), SMALL, limits.type)
    return Net(limits, net.parent, wire, net.kind, pin, net.polarity)


# ---------------------------------------------------------------- files at fault, one for each refusal

def faulty(read, names):
    """The first stored file of each number by which a reader refuses."""
    found = {}
    for name in names:
        for _, data in make_damaged.SETS[name][0]():
            try:
                read(data)
            except ref.Refused as refused:
                found.setdefault(refused.number, data)
    return [found[number] for number in sorted(found)]


def faulty_nets():
    return faulty(ref.read_net, ("net_cases", "net_large"))


def faulty_placements():
    return faulty(ref.read_placement, ("placement_cases", "placement_large"))


def long_files(data):
    """Files that are longer than any that reads: what stands behind decides nothing."""
    for length in (20_000, 70_000):
        yield (data + bytes(length))[:length]
        yield b"\xff" * length
        yield (data[:-3] * (length // max(1, len(data) - 3) + 1))[:length]
