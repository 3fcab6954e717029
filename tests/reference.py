"""The rules (docs/RULES.md) once more, in plain Python: the tests' own truth.

Nothing here is fast and nothing is shared with the crates or with reference.c.
A function answers its result or raises Refused(number, place).
Places are those of RULES 4.3: bytes for files, nodes or entries for columns.
"""
from collections import namedtuple
from itertools import combinations_with_replacement, product

Limits = namedtuple("Limits", "limit pin type")                       # C_U, C_b, 0 or 1
Net = namedtuple("Net", "limits parent wire kind pin polarity")       # five columns
Placement = namedtuple("Placement", "wire offset")                    # two columns

MOST_NODES = 1024            # node 0 not counted
MOST_CHILDREN = 8
MOST_ENTRIES = 4096
MOST_LIMIT = 1_000_000
MOST_WIRE = 10_000_000
MOST_PIN = 1_000_000

LIMITS, BRANCH, SINK, COUNT, ENTRY, END = 0x01, 0x02, 0x03, 0x11, 0x12, 0x7F
LENGTH = {LIMITS: 9, BRANCH: 6, SINK: 11, COUNT: 2, ENTRY: 6, END: 0}


class Refused(Exception):
    """A refusal: its number, its place, and for the carry which of the two nets."""

    def __init__(self, number, place, net=None):
        super().__init__(number, place, net)
        self.number, self.place, self.net = number, place, net


# ---------------------------------------------------------------- values

def limits_in_range(limits):
    return (1 <= limits.limit <= MOST_LIMIT and limits.pin >= 0
            and 2 * limits.pin < limits.limit and limits.type in (0, 1))


def node_in_range(limits, wire, kind, pin, polarity):
    if kind not in (0, 1) or not 0 <= wire <= MOST_WIRE:
        return False
    if kind == 0:
        return pin == 0 and polarity == 0
    polarities = (0,) if limits.type == 0 else (0, 1)
    return 0 <= pin <= MOST_PIN and polarity in polarities


def parent_fits(parents, kinds, parent):
    """May the next node, numbered len(parents), hang below `parent`?"""
    node = len(parents)
    if node > MOST_NODES or parent >= node or kinds[parent] == 1:
        return False
    return parents[1:].count(parent) < MOST_CHILDREN


def lowest_childless(parents, kinds):
    """The lowest branch point or source without a child, or None."""
    for node in range(len(parents)):
        if kinds[node] == 0 and node not in parents[1:]:
            return node
    return None


# ---------------------------------------------------------------- files read

def number_at(data, place, size):
    return int.from_bytes(data[place:place + size], "big")


def field_at(data, place, due):
    """The field that starts at `place`: (tag, where its value starts, the next place)."""
    if len(data) - place < 3:
        raise Refused(1, place)
    tag, length = data[place], number_at(data, place + 1, 2)
    if tag not in due or length != LENGTH[tag]:
        raise Refused(2, place)
    if len(data) - place - 3 < length:
        raise Refused(1, place)
    return tag, place + 3, place + 3 + length


def limits_at(data, value, place):
    limits = Limits(number_at(data, value, 4), number_at(data, value + 4, 4), data[value + 8])
    if not limits_in_range(limits):
        raise Refused(3, place)
    return limits


def node_at(data, tag, value):
    """(parent, wire, kind, pin, polarity) of a branch or sink field."""
    parent, wire = number_at(data, value, 2), number_at(data, value + 2, 4)
    if tag == BRANCH:
        return parent, wire, 0, 0, 0
    return parent, wire, 1, number_at(data, value + 6, 4), data[value + 10]


def add_node(net, node, place):
    """Put a node just read at the end of the columns, if it may stand there."""
    parent, wire, kind, pin, polarity = node
    if not node_in_range(net.limits, wire, kind, pin, polarity):
        raise Refused(3, place)
    if not parent_fits(net.parent, net.kind, parent):
        raise Refused(4, place)
    for column, item in zip(net[1:], node):
        column.append(item)


def read_net(data, room=None):
    """The net of a net file. `room` is the shortest lent column; None: enough."""
    _, value, place = field_at(data, 0, (LIMITS,))
    net = Net(limits_at(data, value, 0), [0], [0], [0], [0], [0])
    while True:
        tag, value, after = field_at(data, place, (BRANCH, SINK, END))
        if tag == END:
            break
        add_node(net, node_at(data, tag, value), place)
        place = after
    if after < len(data):
        raise Refused(6, after)
    childless = lowest_childless(net.parent, net.kind)
    if childless is not None:
        raise Refused(5, childless)
    if room is not None and room < len(net.parent):
        raise Refused(9, len(net.parent))
    return net


def read_placement(data, room=None):
    """The placement of a placement file, judged against no net."""
    _, value, place = field_at(data, 0, (COUNT,))
    count = number_at(data, value, 2)
    if count > MOST_ENTRIES:
        raise Refused(3, 0)
    placement = Placement([], [])
    for _ in range(count):
        _, value, after = field_at(data, place, (ENTRY,))
        entry = number_at(data, value, 2), number_at(data, value + 2, 4)
        if not entry_in_range(*entry):
            raise Refused(3, place)
        placement.wire.append(entry[0])
        placement.offset.append(entry[1])
        place = after
    _, _, after = field_at(data, place, (END,))
    if after < len(data):
        raise Refused(6, after)
    if room is not None and room < count:
        raise Refused(9, count)
    return placement


def entry_in_range(wire, offset):
    return 1 <= wire <= MOST_NODES and 0 <= offset <= MOST_WIRE


# ---------------------------------------------------------------- files written

def field(tag, *numbers):
    """The bytes of a field; `numbers` are pairs of value and size."""
    value = b"".join(number.to_bytes(size, "big") for number, size in numbers)
    return bytes([tag]) + len(value).to_bytes(2, "big") + value


def limits_field(limits):
    return field(LIMITS, (limits.limit, 4), (limits.pin, 4), (limits.type, 1))


def node_field(parent, wire, kind, pin, polarity):
    if kind == 0:
        return field(BRANCH, (parent, 2), (wire, 4))
    return field(SINK, (parent, 2), (wire, 4), (pin, 4), (polarity, 1))


def net_bytes(net):
    """The file of a net, unjudged."""
    nodes = list(zip(*net[1:]))[1:]
    return limits_field(net.limits) + b"".join(node_field(*n) for n in nodes) + field(END)


def placement_bytes(placement):
    """The file of a placement, unjudged."""
    entries = b"".join(field(ENTRY, (w, 2), (o, 4)) for w, o in zip(*placement))
    return field(COUNT, (len(placement.wire), 2)) + entries + field(END)


def write_net(net, room=None):
    judge_net(net)
    data = net_bytes(net)
    if room is not None and room < len(data):
        raise Refused(9, len(data))
    return data


def write_placement(placement, room=None):
    judge_placement_columns(placement)
    for place, entry in enumerate(zip(*placement)):
        if not entry_in_range(*entry):
            raise Refused(3, place)
    data = placement_bytes(placement)
    if room is not None and room < len(data):
        raise Refused(9, len(data))
    return data


# ---------------------------------------------------------------- columns judged

def judge_net(net):
    """The tests of RULES 5.4, in their order."""
    lengths = {len(column) for column in net[1:]}
    if len(lengths) != 1 or not 1 <= max(lengths) <= MOST_NODES + 1:
        raise Refused(7, 0)
    if not limits_in_range(net.limits):
        raise Refused(3, 0)
    if any(column[0] != 0 for column in net[1:]):
        raise Refused(3, 0)
    for node in range(1, len(net.parent)):
        parent, *values = (column[node] for column in net[1:])
        if not node_in_range(net.limits, *values):
            raise Refused(3, node)
        if not parent_fits(net.parent[:node], net.kind, parent):
            raise Refused(4, node)
    childless = lowest_childless(net.parent, net.kind)
    if childless is not None:
        raise Refused(5, childless)


def judge_placement_columns(placement):
    if len(placement.wire) != len(placement.offset) or len(placement.wire) > MOST_ENTRIES:
        raise Refused(7, 0)


# ---------------------------------------------------------------- loads

def children(net, node):
    return [n for n in range(1, len(net.parent)) if net.parent[n] == node]


def offsets_on(placement, wire):
    return [o for w, o in zip(*placement) if w == wire]


def loads(net, placement):
    """What each entry drives, in list order, and what lies below the source.

    The entries are in order, so those of one wire stand together and the lists of the
    wires 1, 2, 3 .. one after another are the list of the placement.
    Nodes are taken from the last to the first: a parent's number is lower.
    """
    below = [pin if kind == 1 else 0 for kind, pin in zip(net.kind, net.pin)]
    drives = {}
    for node in range(len(net.parent) - 1, 0, -1):
        load, last, drives[node] = below[node], 0, []
        for offset in offsets_on(placement, node):
            drives[node].append(offset - last + load)
            load, last = net.limits.pin, offset
        below[net.parent[node]] += net.wire[node] - last + load
    in_order = [load for node in range(1, len(net.parent)) for load in drives[node]]
    return in_order, below[0]


def sink_parity(net, placement, sink):
    """Inverters from source to sink, plus its polarity, odd or even."""
    count, node = net.polarity[sink], sink
    while node != 0:
        count += len(offsets_on(placement, node))
        node = net.parent[node]
    return count % 2


# ---------------------------------------------------------------- the checker

def judge_entries(net, placement):
    """10: on no wire, past its wire, or lower than the one before it."""
    before = (0, 0)
    for place, (wire, offset) in enumerate(zip(*placement)):
        on_a_wire = 1 <= wire < len(net.parent)
        if not on_a_wire or not 0 <= offset <= net.wire[wire] or (wire, offset) < before:
            raise Refused(10, place)
        before = (wire, offset)


def judge_parity(net, placement):
    """12: the lowest sink that differs from the lowest-numbered sink."""
    if net.limits.type == 0:
        return
    sinks = [node for node in range(len(net.kind)) if net.kind[node] == 1]
    first = sink_parity(net, placement, sinks[0])
    for sink in sinks:
        if sink_parity(net, placement, sink) != first:
            raise Refused(12, sink)


def judge_placement(net, placement):
    """7, 10, 11, 12 for a net that is one already. Answers the drives and the source's load."""
    judge_placement_columns(placement)
    judge_entries(net, placement)
    drives, source = loads(net, placement)
    for place, load in enumerate(drives + [source]):
        if load > net.limits.limit:
            raise Refused(11, place)
    judge_parity(net, placement)
    return drives, source


def check(net, placement):
    """The checker: the count and the source's load."""
    judge_net(net)
    drives, source = judge_placement(net, placement)
    return len(drives), source


def list_drives(net, placement):
    """What each entry drives and the source's load, of any placement that stands: no 11, no 12."""
    judge_net(net)
    judge_placement_columns(placement)
    judge_entries(net, placement)
    return loads(net, placement)


def legal(net, placement):
    """Is this list of entries legal on a judged net? Here no limit of 4,096 applies."""
    try:
        judge_entries(net, placement)
        drives, source = loads(net, placement)
        judge_parity(net, placement)
    except Refused:
        return False
    return max(drives + [source]) <= net.limits.limit


def check_files(net_file, placement_file):
    """The router's call: the number alone."""
    try:
        net = read_net(net_file)
        placement = read_placement(placement_file)
        check(net, placement)
    except Refused as refusal:
        return refusal.number
    return 0


# ---------------------------------------------------------------- the carry

def judge_easing(first, second):
    """13: limits or size at 0, else at the lowest node that does not ease."""
    a, b = first.limits, second.limits
    if b.limit < a.limit or b.pin > a.pin or b.type != a.type:
        raise Refused(13, 0)
    if len(first.parent) != len(second.parent):
        raise Refused(13, 0)
    for node in range(len(first.parent)):
        if not node_eases(first, second, node):
            raise Refused(13, node)


def node_eases(first, second, node):
    return (second.wire[node] <= first.wire[node] and second.pin[node] <= first.pin[node]
            and second.parent[node] == first.parent[node]
            and second.kind[node] == first.kind[node]
            and second.polarity[node] == first.polarity[node])


def eases(first, second):
    """Does the second net ease the first?"""
    try:
        judge_easing(first, second)
    except Refused:
        return False
    return True


def judge_named(net, name):
    try:
        judge_net(net)
    except Refused as refusal:
        raise Refused(refusal.number, refusal.place, name)


def carry(first, second, placement):
    """The placement as it stands on the second net."""
    judge_named(first, "first")
    judge_named(second, "second")
    judge_easing(first, second)
    judge_placement(first, placement)
    cut = [min(o, second.wire[w]) for w, o in zip(*placement)]
    return Placement(list(placement.wire), cut)


# ---------------------------------------------------------------- the least count, exhaustively
#
# Why few entries on a wire are enough. Let D = C_U - C_b; 2·C_b < C_U makes D at least 1.
# Take a legal placement and a wire of size w with m >= 1 entries, the lowest at o1. Put instead
# entries at o1, o1 + D, o1 + 2D .. as long as they are below w, and then one at w. The lowest
# drives what it drove; each other one drives at most D + C_b = C_U; the wire now hands up C_b,
# and it handed up at least C_b before. That is at most 1 + ceil(w / D) entries, and one more at w
# (it drives C_b) sets the parity back to that of m. So the whole stays legal, and a wire that
# held more than 2 + ceil(w / D) entries now holds fewer. Hence: where a legal placement exists,
# one with the least count exists that has at most `enough` entries on each wire, and where none
# within these bounds is legal there is no legal placement at all. The search below is finite
# and exact.

def enough(net, wire):
    between = net.limits.limit - net.limits.pin
    return 2 + -(-net.wire[wire] // between)


def arrangements(net, wire, count):
    """All ways to have `count` entries on a wire, equal ones among them."""
    return combinations_with_replacement(range(net.wire[wire] + 1), count)


def shares(caps, total):
    """All ways to deal `total` out to places that take at most `caps` each."""
    if not caps:
        return [()] if total == 0 else []
    return [(here,) + rest for here in range(min(caps[0], total) + 1)
            for rest in shares(caps[1:], total - here)]


def placements_of(net, share):
    """All placements with share[i] entries on wire i + 1."""
    wires = range(1, len(net.parent))
    for chosen in product(*(arrangements(net, w, c) for w, c in zip(wires, share))):
        entries = [(w, o) for w, offsets in zip(wires, chosen) for o in offsets]
        yield Placement([w for w, _ in entries], [o for _, o in entries])


def least_exhaustive(net):
    """The least count of a judged net by trying everything, or None."""
    caps = [enough(net, wire) for wire in range(1, len(net.parent))]
    for total in range(sum(caps) + 1):
        for share in shares(caps, total):
            if any(legal(net, placement) for placement in placements_of(net, share)):
                return total
    return None


# ---------------------------------------------------------------- the least count, by full frontiers
#
# For a point of the tree and a polarity (0: inverters below it on the way to a sink, plus the
# sink's polarity, are even for every sink below; 1: odd; for type 0 everything is put at 0)
# keep ALL pairs (count, load) that no other pair beats in both. A pair that is beaten may be
# dropped: whatever legal placement uses it, the better one in its place leaves every stage above
# with no more load, the same parities and no more entries. Loads over C_U are dropped: all of it
# hangs on one driver. On a wire every number of entries up to `enough` and every topmost offset
# that some arrangement reaches is tried; by the argument above more entries serve nothing.

def unbeaten(pairs):
    kept = []
    for count, load in sorted(pairs):
        if not kept or load < kept[-1][1]:
            kept.append((count, load))
    return kept


def tops(net, wire, load):
    """For 1, 2, .. entries on a wire above `load`: the set of topmost offsets that can be reached."""
    limit, pin, size = net.limits.limit, net.limits.pin, net.wire[wire]
    reached = {o for o in range(size + 1) if o + load <= limit}
    for count in range(1, enough(net, wire) + 1):
        yield count, reached
        reached = {o for low in reached for o in range(low, min(size, low + limit - pin) + 1)}


def over_wire(net, wire, below):
    """Frontiers at the top of a wire from those at its lower node."""
    size, pin = net.wire[wire], net.limits.pin
    pairs = [set(), set()]
    for polarity in (0, 1):
        for count, load in below[polarity]:
            pairs[polarity].add((count, size + load))
            for more, reached in tops(net, wire, load):
                above = (polarity + more) % 2 if net.limits.type == 1 else 0
                pairs[above].update((count + more, size - top + pin) for top in reached)
    return [unbeaten(within(net, some)) for some in pairs]


def within(net, pairs):
    return [(count, load) for count, load in pairs if load <= net.limits.limit]


def joined(net, one, other):
    """Frontier of two branches that meet, at one polarity."""
    return unbeaten(within(net, [(a + c, b + d) for a, b in one for c, d in other]))


def least_frontier(net):
    """The least count of a judged net, or None."""
    both = [[(0, 0)], [(0, 0)] if net.limits.type == 1 else []]
    at = [[list(side) for side in both] for _ in net.parent]
    for node in range(len(net.parent) - 1, 0, -1):
        if net.kind[node] == 1:
            at[node] = [[], []]
            at[node][net.polarity[node]] = within(net, [(0, net.pin[node])])
        top = over_wire(net, node, at[node])
        up = net.parent[node]
        at[up] = [joined(net, at[up][p], top[p]) for p in (0, 1)]
    counts = [count for side in at[0] for count, _ in side]
    return min(counts) if counts else None


# ---------------------------------------------------------------- finishing: given and added entries

def whole(given, added):
    """Given and added entries together, in order."""
    entries = sorted([*zip(*given), *zip(*added)])
    return Placement([w for w, _ in entries], [o for _, o in entries])


def completes(net, given, added):
    """Are the added entries in order, and is the whole legal? It may have more than 4,096."""
    added_entries = list(zip(*added))
    return added_entries == sorted(added_entries) and legal(net, whole(given, added))


# Why few added entries on a wire are enough. Take a legal whole that holds the given entries and a
# wire of size w on which it has entries, the lowest of all at o1. Leave the given ones where they
# are, take the added ones off and put some at o1, o1 + D, o1 + 2D .. as long as they are below w,
# and one at w. No given one stands below o1, so the lowest drives what it drove; each other one,
# given or added, has one within D below it, so it drives at most D + C_b = C_U; and the wire hands
# up C_b, which is the least that a wire with entries can. That is at most 1 + ceil(w / D) added
# ones. So where a completion exists, one with the fewest added exists that adds at most so many on
# each wire, and where none within these bounds is legal there is none. Type 0 has no parity.

def enough_added(net, wire):
    between = net.limits.limit - net.limits.pin
    return 1 + -(-net.wire[wire] // between)


def least_added_exhaustive(net, given):
    """The fewest entries to add, by trying everything, or None. Type 0, judged, small."""
    caps = [enough_added(net, wire) for wire in range(1, len(net.parent))]
    for total in range(sum(caps) + 1):
        for share in shares(caps, total):
            if any(legal(net, whole(given, added)) for added in placements_of(net, share)):
                return total
    return None


def climbed(net, wire, given_offsets, below):
    """The frontier at the top of a wire from that at its lower node, a unit at a time.

    At every unit an entry may be added. A given one drives whatever lies below it, if that is
    within C_U, and hands up C_b.
    """
    pin, here = net.limits.pin, below
    for offset in range(net.wire[wire] + 1):
        if offset > 0:
            here = within(net, [(count, load + 1) for count, load in here])
        here = unbeaten(here + [(count + 1, pin) for count, _ in here])
        for _ in range(given_offsets.count(offset)):
            here = unbeaten([(count, pin) for count, _ in here])
    return here


def least_added(net, given):
    """The least number of entries that make `given` legal when they are added, or None.

    `net` is a judged Net of type 0, `given` a Placement whose entries stand on its wires in order;
    it may overload. Equal entries count as often as they are given. The time grows with the sum of
    the wires, unit by unit: a wire of 10,000,000 takes half a minute.
    """
    at = [within(net, [(0, pin)]) for pin in net.pin]
    for node in range(len(net.parent) - 1, 0, -1):
        top = climbed(net, node, offsets_on(given, node), at[node])
        at[net.parent[node]] = joined(net, at[net.parent[node]], top)
    return min(count for count, _ in at[0]) if at[0] else None


def finish_judged(net, given_wires, given_offsets, room=None):
    """What the call must answer: how many entries it adds, or Refused(number, place).

    `net` is a Net of any columns and limits, sound or not; the given columns may be unequal, too
    long, or hold entries that do not stand. `room` is the shorter lent column; None: enough.
    Which least completion a finisher gives is free: `completes` judges the entries it added.
    """
    judge_net(net)
    if net.limits.type == 1:
        raise Refused(3, 0)
    given = Placement(given_wires, given_offsets)
    judge_placement_columns(given)
    judge_entries(net, given)
    least = least_added(net, given)
    if least is None:
        raise Refused(8, 0)
    if least > MOST_ENTRIES or (room is not None and least > room):
        raise Refused(9, least)
    return least
