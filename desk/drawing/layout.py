"""Where a net and its repeaters stand on paper, in pixels right of and below the source's pin.

A sink has a row of its own, and x grows from the source to the sinks: wires are to scale. A wire too short for what stands on it is
stretched. Rows shrink and stretching is shared out where a net is large, so that the paper has a largest size."""
from itertools import product

from .svg import width

WIDE = 1000           # the longest way from the source to a sink, to scale
STRETCHED = 1000      # what stretched wires may add to it
TALL = 3000           # all rows together
ROW = 42              # a row of a small net
DENSE_ROW = 11        # a row of a large one, before TALL makes it smaller
ROOMY = 36, 100       # rows so high, and so few nodes and repeaters, leave room for words
STUB = 12             # the shortest wire that can be told from its neighbours
ROOMY_STUB = 40       # and the shortest where there is room
FEW = 24              # a wire is stretched for so many repeaters at most
TIGHT = 6.5           # rows smaller than this have no room for a number
DRAWN = 600           # so many repeaters are drawn as triangles, the fullest; a tick is enough for the others


def by_wire(entries):
    """The entries of each wire that has some, the lowest first (RULES 2.4)."""
    found = {}
    for entry in entries:
        found.setdefault(entry.wire, []).append(entry)
    return found


def sinks_below(net):
    """How many sinks lie below each node; a parent has a smaller number."""
    count = [int(node.is_sink) for node in net.nodes]
    for number in range(len(count) - 1, 0, -1):
        count[net.nodes[number].parent] += count[number]
    return count


def top_down(net):
    """All nodes, a parent straight before its subtrees, small ones first and then short wires: so the tree goes down like a stair."""
    sinks, found, left = sinks_below(net), [], [0]
    while left:
        node = left.pop()
        found.append(node)
        left += sorted(net.nodes[node].children, key=lambda child: (sinks[child], net.nodes[child].wire, child), reverse=True)
    return found


def rows(net, order):
    """Each node's row: sinks take the next one, any other node stands in the middle of its children. So no two wires cross."""
    row, following = [0.0] * len(net.nodes), 0
    for node in order:
        if net.nodes[node].is_sink:
            row[node], following = following, following + 1
    for node in reversed(order):
        children = net.nodes[node].children
        if children:
            row[node] = sum(row[child] for child in children) / len(children)
    return row, following


def added_up(net, sizes):
    """The sum of `sizes` on the way from the source to each node; a parent has a smaller number."""
    total = [0] * len(net.nodes)
    for number, node in enumerate(net.nodes[1:], 1):
        total[number] = total[node.parent] + sizes[number]
    return total


def spread(wanted, lowest, room):
    """Places from right to left, each as wanted or as little left (and near `lowest` right) of it as leaves `room` between neighbours."""
    places = []
    for place in wanted:
        places.append(min(place, places[-1] - room) if places else place)
    floor = lowest
    for index in reversed(range(len(places))):
        places[index] = max(places[index], floor)
        floor = places[index] + room
    return places


class Layout:
    """`x` and `y` of each node, `place` (the middle) of each entry, which wires are `stretched`, which entries are `drawn` as
    triangles; `half` is half a triangle's height, `body` its width, `bubble` the radius of an inverter's."""

    def __init__(self, net, entries):
        self.net, self.entries, self.on_wire = net, entries, by_wire(entries)
        self.order = top_down(net)
        row, self.rows = rows(net, self.order)
        self.step = min(ROW, max(DENSE_ROW, 480 / self.rows), TALL / self.rows)
        self.y = [place * self.step for place in row]
        self.roomy = self.step >= ROOMY[0] and len(net.nodes) + len(entries) <= ROOMY[1]
        self.size_repeaters()
        self.place_nodes()
        self.place = {entry: place for wire in self.on_wire for entry, place in zip(self.on_wire[wire], self.places(wire))}
        self.drawn = self.choose()

    def size_repeaters(self):
        """Smaller in small rows. `room` is what a repeater takes of its wire, `before` what of that lies left of its middle: in roomy
        rows its number stands over it and its margin below, in others its number stands behind it."""
        self.half = min(8.5, 0.5 * self.step)
        self.body = 1.86 * self.half
        self.bubble = 0.34 * self.half * self.net.repeater
        self.letters = min(9.5, 1.3 * self.half)
        shape, number = self.body + 2 * self.bubble, width(str(len(self.entries)), self.letters)
        margin = max((width(f"{entry.margin:,}", self.letters) for entry in self.entries), default=0)
        self.room = max(shape, number, margin) + 4 if self.roomy else shape + number * (self.step >= TIGHT) + 2
        self.before = self.room / 2 if self.roomy else shape / 2 + 1

    def place_nodes(self):
        """Wires to scale, and the short ones longer by what they need, or by a part of it where a way has many of them."""
        net = self.net
        longest = max(added_up(net, [node.wire for node in net.nodes]))
        self.scale = min(WIDE, 560 + 10 * (self.rows + len(self.entries))) / longest if longest else 0
        true = [node.wire * self.scale for node in net.nodes]
        stub = ROOMY_STUB if self.roomy else STUB
        needs = [stub / 2 + self.room * min(FEW, len(self.on_wire.get(wire, ()))) for wire in range(len(net.nodes))]
        lacks = [0] + [max(0, max(stub, need) - length) for need, length in zip(needs[1:], true[1:])]
        part = min(1, STRETCHED / (max(added_up(net, lacks)) or 1))
        self.stretched = {wire for wire, lack in enumerate(lacks) if lack > 0}
        self.x = added_up(net, [length + part * lack for length, lack in zip(true, lacks)])

    def places(self, wire):
        """The middle of each repeater on a wire, the lowest (rightmost) first: its offset to scale. Where it would stand on a node or on
        another repeater it is moved aside, if the wire has room for all. On a stretched wire they stand evenly."""
        entries, size = self.on_wire[wire], self.net.nodes[wire].wire
        left, right = self.x[self.net.nodes[wire].parent], self.x[wire]
        first, last = left + self.before, right - self.room + self.before
        stretched, count = wire in self.stretched, len(entries)
        parts = [(index + 0.5) / count if stretched else entry.offset / size for index, entry in enumerate(entries)]
        wanted = [right - part * (right - left) for part in parts]
        if first > last:
            return wanted
        wanted = [max(first, min(last, place)) for place in wanted]
        return spread(wanted, first, self.room) if count * self.room <= right - left else wanted

    def choose(self):
        """The entries drawn as triangles: the fullest first, and none on another one."""
        drawn, taken = set(), {}
        for entry in sorted(self.entries, key=lambda entry: (entry.margin, entry.number)):
            place = self.place[entry], self.y[entry.wire]
            if len(drawn) < DRAWN and self.is_free(place, taken):
                taken.setdefault(self.cell(place), []).append(place)
                drawn.add(entry)
        return drawn

    def cell(self, place):
        """The paper in cells of the size of a repeater: what overlaps it is in its cell or in one of the eight around."""
        return int(place[0] // self.room), int(place[1] // (2 * self.half))

    def is_free(self, place, taken):
        (x, y), (column, line) = place, self.cell(place)
        near = [other for cell in product((column - 1, column, column + 1), (line - 1, line, line + 1)) for other in taken.get(cell, [])]
        return all(abs(x - left) > self.room - 0.01 or abs(y - top) > 2 * self.half - 0.01 for left, top in near)
