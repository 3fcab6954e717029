"""Net and placement files in Python: what their bytes say, and the bytes of a field or of a net.

A reader for pictures: it stops at the first thing that does not belong, and says where. Which refusal that is
(docs/RULES.md, section 4), ./mustorgyel says. `reading` is the one that also takes damaged files."""

LIMITS, BRANCH, SINK, COUNT, ENTRY, END = 0x01, 0x02, 0x03, 0x11, 0x12, 0x7F
# RULES 3.4: the bytes of each number of a field's value
BODY = {LIMITS: (4, 4, 1), BRANCH: (2, 4), SINK: (2, 4, 4, 1), COUNT: (2,), ENTRY: (2, 4), END: ()}


class WrongFile(Exception):
    """The bytes are not the file that they should be; the message says where."""


class Node:
    """Node 0 is the source; a sink has a pin and a polarity, a branch point has neither."""

    def __init__(self, parent, wire, pin=None, polarity=0):
        self.parent, self.wire, self.pin, self.polarity = parent, wire, pin, polarity
        self.children = []

    @property
    def is_sink(self):
        return self.pin is not None


class Net:
    def __init__(self, limit, pin, repeater):
        self.limit, self.pin, self.repeater = limit, pin, repeater
        self.nodes = [Node(None, 0)]

    def add(self, node):
        if node.parent >= len(self.nodes) or self.nodes[node.parent].is_sink:
            raise WrongFile(f"node {len(self.nodes)} hangs under {node.parent}, which is no branch point before it")
        self.nodes[node.parent].children.append(len(self.nodes))
        self.nodes.append(node)
        return len(self.nodes) - 1


def fields(data):
    """(tag, values) of each field up to the end field."""
    at, tag = 0, None
    while tag != END:
        tag = data[at] if at < len(data) else None
        if tag not in BODY:
            raise WrongFile(f"no field at byte {at}")
        sizes = BODY[tag]
        end = at + 3 + sum(sizes)
        if end > len(data) or data[at + 1] * 256 + data[at + 2] != sum(sizes):
            raise WrongFile(f"the field at byte {at} has a wrong length or is cut")
        at, values = at + 3, []
        for size in sizes:
            values.append(int.from_bytes(data[at:at + size], "big"))
            at += size
        yield tag, values
    if at != len(data):
        raise WrongFile(f"bytes after the end, from byte {at}")


def read(data):
    """The net that a net file holds."""
    found = list(fields(data))
    tags = [tag for tag, _ in found]
    if tags[0] != LIMITS or not {BRANCH, SINK}.issuperset(tags[1:-1]):
        raise WrongFile("a net file is limits, then branch points and sinks, then the end")
    net = Net(*found[0][1])
    for _, values in found[1:-1]:
        net.add(Node(*values))
    return net


def read_placement(data):
    """The entries that a placement file holds: pairs of wire number and offset."""
    found = list(fields(data))
    tags = [tag for tag, _ in found]
    if tags[0] != COUNT or not {ENTRY}.issuperset(tags[1:-1]):
        raise WrongFile("a placement file is a count, then entries, then the end")
    if found[0][1] != [len(found) - 2]:
        raise WrongFile(f"the count is {found[0][1][0]}, and {len(found) - 2} entries follow")
    return [tuple(values) for _, values in found[1:-1]]


def field(tag, *values):
    sizes = BODY[tag]
    body = b"".join(value.to_bytes(size, "big") for value, size in zip(values, sizes, strict=True))
    return bytes([tag]) + len(body).to_bytes(2, "big") + body


def net_bytes(net):
    """The net file of a net."""
    said = [field(LIMITS, net.limit, net.pin, net.repeater)]
    for node in net.nodes[1:]:
        if node.is_sink:
            said.append(field(SINK, node.parent, node.wire, node.pin, node.polarity))
        else:
            said.append(field(BRANCH, node.parent, node.wire))
    return b"".join(said) + field(END)
