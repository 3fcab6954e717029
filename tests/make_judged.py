"""Makes what crate net_runs reads and what it must print: nets' columns, sound and unsound.

Run without arguments: writes the crate's stdin and stdout anew (they are stored, and come out the
same each time). With --check: compares with the stored. With --list: says what each line is of.

The input is a count of two bytes and so many nets: the limits (4, 4 and 1 bytes), then the five
columns, each a length of two bytes and its values in the column's own width. High byte first.
"""
import sys
from pathlib import Path

import reference as ref
from reference import Limits, Net

CRATE = Path(__file__).parent.parent / "crates" / "net_runs"
WIDTHS = {"parent": 2, "wire": 4, "kind": 1, "pin": 4, "polarity": 1}
COLUMNS = tuple(WIDTHS)


# ---------------------------------------------------------------- nets

def net_of(*nodes, limits=Limits(10, 2, 1)):
    """A net of nodes (parent, wire, kind, pin, polarity), node 0 put before them."""
    return Net(limits, *(list(column) for column in zip((0, 0, 0, 0, 0), *nodes)))


def branch(parent, wire=5):
    return parent, wire, 0, 0, 0


def sink(parent, wire=3, pin=4, polarity=0):
    return parent, wire, 1, pin, polarity


def small():
    """Source, a branch point and its two sinks, a sink: every kind of node."""
    return net_of(branch(0), sink(1), sink(1, 2, 1, 1), sink(0))


def buffers():
    """The same with buffers, so all plus."""
    return with_values(small(), ("polarity", 3, 0), limits=Limits(10, 2, 0))


def with_values(net, *changes, limits=None):
    """The net with some places changed: (column, node, value)."""
    columns = {name: list(getattr(net, name)) for name in COLUMNS}
    for name, node, value in changes:
        columns[name][node] = value
    return Net(limits or net.limits, **columns)


def with_limits(limit, pin, repeater):
    base = buffers() if repeater == 0 else small()
    return base._replace(limits=Limits(limit, pin, repeater))


def bushy(places):
    """Eight children to each node, as far as the places go."""
    nodes = range(1, places)
    return net_of(*(branch((i - 1) // 8) if 8 * i + 1 < places else sink((i - 1) // 8) for i in nodes))


def chain(places):
    return net_of(*(branch(i - 1) for i in range(1, places - 1)), sink(places - 2))


def star(children):
    return net_of(*(sink(0) for _ in range(children)))


def cut(net, name, by):
    """The net with one column shorter, or longer by repeating its last value."""
    column = getattr(net, name)
    return net._replace(**{name: column[:by] if by < 0 else column + column[-1:] * by})


# ---------------------------------------------------------------- cases

def column_cases():
    yield "empty columns", net_of()._replace(**{name: [] for name in COLUMNS})
    yield "one place", net_of()
    yield "sound", small()
    yield "sound, buffers", buffers()
    for name in COLUMNS:
        yield f"{name} one place short", cut(small(), name, -1)
        yield f"{name} one place long", cut(small(), name, 1)
        yield f"{name} empty", small()._replace(**{name: []})
    yield "1,025 places, eight children each", bushy(1025)
    yield "1,025 places in a chain", chain(1025)
    yield "1,026 places", bushy(1026)
    yield "1,026 places in a chain", chain(1026)


def limit_cases():
    for limit in (0, 1, 1_000_000, 1_000_001, 2 ** 31, 2 ** 32 - 1):
        yield f"C_U {limit}", with_limits(limit, 0, 1)
    for limit, pin in ((10, 5), (10, 4), (11, 5), (11, 6), (1_000_000, 499_999),
                       (1_000_000, 500_000), (1_000_000, 2 ** 31), (10, 2 ** 31 + 4),
                       (10, 2 ** 32 - 1)):
        yield f"C_U {limit}, C_b {pin}", with_limits(limit, pin, 1)
    for repeater in (0, 1, 2, 128, 255):
        yield f"type {repeater}", with_limits(10, 2, repeater)


def node_cases():
    for name in COLUMNS:
        for value in (1, 2 ** (8 * WIDTHS[name]) - 1):
            yield f"node 0 with {name} {value}", with_values(small(), (name, 0, value))
    yield "polarity 1 with type 0", with_values(buffers(), ("polarity", 2, 1))
    yield "polarity 2", with_values(small(), ("polarity", 3, 2))
    yield "kind 2", with_values(small(), ("kind", 2, 2))
    for node in (1, 2):
        for wire in (10_000_000, 10_000_001, 2 ** 32 - 1):
            yield f"node {node} with wire {wire}", with_values(small(), ("wire", node, wire))
    for pin in (0, 1_000_000, 1_000_001, 2 ** 32 - 1):
        yield f"sink with pin {pin}", with_values(small(), ("pin", 3, pin))
    yield "branch point with a pin", with_values(small(), ("pin", 1, 1))
    yield "branch point with a polarity", with_values(small(), ("polarity", 1, 1))


def parent_cases():
    yield "parent itself", with_values(small(), ("parent", 1, 1))
    yield "parent the next node", with_values(small(), ("parent", 2, 3))
    yield "parent past the last node", with_values(small(), ("parent", 4, 5))
    yield "parent 65,535", with_values(small(), ("parent", 4, 65535))
    yield "parent a sink", with_values(small(), ("parent", 4, 2))
    yield "eight children of the source", star(8)
    yield "the ninth child of the source", star(9)
    yield "the ninth child, more after it", star(12)
    yield "eight children of a branch point", net_of(branch(0), *[sink(1)] * 8)
    yield "the ninth child of a branch point", net_of(branch(0), *[sink(1)] * 9)
    yield "a childless branch point", net_of(branch(0), branch(0), sink(1))
    yield "a childless last branch point", net_of(branch(0), sink(1), branch(1))
    yield "two childless branch points", net_of(branch(0), branch(0), branch(0), sink(2))
    yield "a childless source", net_of()


def two_faults():
    """Two faults at once: RULES 5.4 says which is named."""
    bad = Limits(0, 0, 0)
    yield "7 and limits", cut(small(), "pin", -1)._replace(limits=bad)
    yield "limits and node 0", with_values(small(), ("wire", 0, 1), limits=bad)
    yield "limits and node 1", with_values(small(), ("wire", 1, 10_000_001), limits=bad)
    yield "node 0 and node 1", with_values(small(), ("pin", 0, 1), ("parent", 1, 1))
    yield "3 and 4 at one node", with_values(small(), ("wire", 2, 10_000_001), ("parent", 2, 2))
    yield "4 at node 2, 3 at node 3", with_values(small(), ("parent", 2, 2), ("wire", 3, 10_000_001))
    yield "3 at node 2, 4 at node 3", with_values(small(), ("wire", 2, 10_000_001), ("parent", 3, 3))
    yield "3 at nodes 2 and 3", with_values(small(), ("kind", 2, 3), ("kind", 3, 3))
    yield "3 at the ninth child", with_values(star(9), ("polarity", 9, 2))
    yield "5 at node 1, 4 at node 3", net_of(branch(0), sink(0), sink(2))
    yield "5 at node 1, 3 at node 2", net_of(branch(0), sink(0, 10_000_001))
    yield "a childless source, 3 at node 1", net_of(sink(1, 10_000_001))
    yield "a childless source, 4 at node 1", net_of(sink(1))
    yield "1,026 places and C_U 0", bushy(1026)._replace(limits=bad)


def cases():
    for some in (column_cases, limit_cases, node_cases, parent_cases, two_faults):
        yield from some()


# ---------------------------------------------------------------- stored forms

def answer(net):
    try:
        ref.judge_net(net)
    except ref.Refused as refusal:
        return f"refused {refusal.number} place {refusal.place}"
    return "sound"


def numbers(values, width):
    return b"".join(value.to_bytes(width, "big") for value in values)


def packed(net):
    limit, pin, repeater = net.limits
    columns = (numbers([len(getattr(net, name))], 2) + numbers(getattr(net, name), WIDTHS[name])
               for name in COLUMNS)
    return numbers((limit, pin), 4) + numbers([repeater], 1) + b"".join(columns)


def main():
    words, nets = zip(*cases())
    answers = [answer(net) for net in nets]
    assert {line.split()[1] for line in answers if line != "sound"} == {"3", "4", "5", "7"}
    forms = {"stdin": numbers([len(nets)], 2) + b"".join(map(packed, nets)),
             "stdout": "".join(line + "\n" for line in answers).encode()}
    if "--list" in sys.argv[1:]:
        print("\n".join(f"{line:22} {what}" for line, what in zip(answers, words)))
        return
    for name, content in forms.items():
        if "--check" not in sys.argv[1:]:
            (CRATE / name).write_bytes(content)
        elif (CRATE / name).read_bytes() != content:
            sys.exit(f"net_runs/{name} is not what make_judged.py makes")
    print(f"net_runs: {len(nets)} nets, {len(forms['stdin'])} bytes")


if __name__ == "__main__":
    main()
