"""Nets and placements that are drawn by tests/check_picture.py: the examples, random ones, and the largest and oddest that the rules allow.

A case is a name, a net and its placement; None in place of the placement: the text is a refusal and the net is drawn alone."""
import pathlib
import random
from collections import deque, namedtuple

import compare_references as compare
import reference as ref
from compare_references import branch, net, sink

EXAMPLES = pathlib.Path(__file__).resolve().parent.parent / "examples"
SEED = 2718

Case = namedtuple("Case", "name net placement")


def placed(entries):
    entries = sorted(entries)
    return ref.Placement([wire for wire, _ in entries], [offset for _, offset in entries])


def anywhere(chance, net, count):
    """Entries on any wires, at any offsets."""
    wires = [chance.randrange(1, len(net.parent)) for _ in range(count)]
    return placed((wire, chance.choice((0, net.wire[wire], chance.randint(0, net.wire[wire])))) for wire in wires)


def each_wire(chance, net, times):
    """As many entries on every wire, up to the most that a placement holds."""
    wires = [wire for wire in range(1, len(net.parent)) for _ in range(times)]
    return placed([(wire, chance.randint(0, net.wire[wire])) for wire in wires][:ref.MOST_ENTRIES])


# ---------------------------------------------------------------- examples

def examples():
    """Each placement file on the net of its name, or on wire-14, and without a repeater every net that has no placement file."""
    nets = {}
    for file in sorted(EXAMPLES.glob("*.net")):
        try:
            nets[file.stem] = ref.read_net(file.read_bytes())
        except ref.Refused:
            continue
        if not file.with_suffix(".place").exists():
            yield Case(file.stem, nets[file.stem], placed([]))
    for file in sorted(EXAMPLES.glob("*.place")):
        on = nets.get(file.stem.removesuffix("-finished"), nets["two-inverters" if file.stem == "wrong-parity" else "wire-14"])
        yield Case(file.name, on, ref.read_placement(file.read_bytes()))


# ---------------------------------------------------------------- large and odd ones

def chain(chance, nodes, most, limit=500, pin=20, kind=0):
    """A way of branch points to one sink."""
    points = [branch(parent, chance.randint(0, most)) for parent in range(nodes - 1)]
    return net([*points, sink(nodes - 1, chance.randint(0, most), 5, kind)], limit, pin, kind)


def comb(chance, teeth, most, kind):
    """A way of branch points with a sink beside each."""
    nodes = []
    for tooth in range(teeth):
        nodes.append(branch(max(0, 2 * tooth - 1), chance.randint(0, most)))
        nodes.append(sink(2 * tooth + 1, chance.randint(0, most), chance.randint(0, 400), tooth % 2 * kind))
    return net(nodes, 20_000, 500, kind)


def star(chance, points, most, limits):
    """Eight children everywhere, first `points` branch points and then sinks: a star of stars."""
    nodes, hang = [], deque([0])
    limit, pin, kind = limits
    for number in range(1, 8 * points + 9):
        parent = hang[0]
        if number % 8 == 0:
            hang.popleft()
        if number <= points:
            nodes.append(branch(parent, chance.randint(0, most)))
            hang.append(number)
        else:
            nodes.append(sink(parent, chance.randint(0, most), chance.randint(0, 2 * limit // 3), chance.randrange(kind + 1)))
    return net(nodes, *limits)


def broom(chance, points, sinks):
    """A way of branch points, then a sink on each of many of them: long words, many rows, deep."""
    nodes = [branch(parent, 10_000_000 - parent) for parent in range(points)]
    nodes += [sink(points - number, chance.randint(0, 10_000_000), 1_000_000 - number, number % 2) for number in range(sinks)]
    return net(nodes, 7, 3, 1)


def odd_ones(chance):
    wide = net([sink(0, 10_000_000, 4)], 5000, 100)
    yield Case("4,096 on a wire", wide, anywhere(chance, wide, 4096))
    even = net([sink(0, 4096 * 900, 4)], 1000, 100)
    yield Case("4,096 on a wire, none overloaded", even, placed((1, 900 * k) for k in range(1, 4097)))
    yield Case("4,096 at one point", net([sink(0, 0, 4)]), placed([(1, 0)] * 4096))
    stacks = net([sink(0, 0, 4), sink(0, 30, 4, 1)], kind=1)
    yield Case("stacks", stacks, placed([(1, 0)] * 20 + [(2, 0), (2, 7), (2, 30)] * 2))
    yield Case("equal entries", net([sink(0, 100, 4)], 60, 2, 1), placed([(1, 50)] * 3 + [(1, 100), (1, 0)] * 2))
    yield Case("one sink of nothing", net([sink(0, 0, 0)], 1, 0), placed([]))
    yield Case("source overloaded", net([sink(0, 100, 4), sink(0, 200, 50)], 60), placed([(1, 5)]))
    uneven = net([branch(0, 1), sink(0, 10_000_000, 9), sink(1, 1, 5), sink(1, 10_000_000, 1_000_000), sink(1, 0, 5)], 1000, 10)
    yield Case("10,000,000 beside 1", uneven, placed([(1, 1), (2, 5), (2, 9_999_999), (4, 0), (4, 10_000_000)]))


def large_ones(chance):
    for kind in (0, 1):
        way = chain(chance, 1024, 100, kind=kind)
        yield Case(f"chain, type {kind}", way, placed((wire, 0) for wire in range(1, 1025, 3)))
        yield Case(f"chain with four a wire, type {kind}", way, each_wire(chance, way, 4))
        teeth = comb(chance, 511, 3000, kind)
        yield Case(f"comb, type {kind}", teeth, anywhere(chance, teeth, 150))
        stars = star(chance, 127, 50_000, (100_000, 3000, kind))
        yield Case(f"897 sinks, type {kind}", stars, anywhere(chance, stars, 130))
        yield Case(f"897 sinks with four a wire, type {kind}", stars, each_wire(chance, stars, 4))
    heavy = chain(chance, 1024, 0, 1, 0)
    heavy = heavy._replace(wire=[0] + [10_000_000] * 1024)
    yield Case("loads over 10,000,000,000", heavy, placed([(3, 5), (9, 9)]))
    words = broom(chance, 563, 461)
    yield Case("the most words", words, each_wire(chance, words, 4))
    yield Case("897 sinks alone", star(chance, 127, 50_000, (100_000, 3000, 1)), None)


# ---------------------------------------------------------------- random ones

def random_ones(chance, count):
    """Half of them with a limit so high that hardly a driver is overloaded."""
    for number in range(count):
        most = chance.choice((12, 1000, 10_000_000))
        some = compare.random_net(chance, chance.choice((3, 12, 40)), 12, most, min(most // 3, ref.MOST_PIN))
        if number % 2:
            some = some._replace(limits=some.limits._replace(limit=1_000_000))
        yield Case(f"random {number}", some, None if number % 9 == 8 else anywhere(chance, some, chance.choice((0, 1, 3, 9, 40, 120))))


def cases():
    chance = random.Random(SEED)
    return [*examples(), *odd_ones(chance), *large_ones(chance), *random_ones(chance, 256)]
