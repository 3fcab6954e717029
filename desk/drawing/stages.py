"""The drivers that the program printed, whose stage each node belongs to, and each stage's colour."""
import re
from collections import namedtuple

from .svg import OVER, PALE

COLOURS = ["#2b83cf", "#e07b00", "#239b56", "#9b3fb5", "#8a5a14", "#17a8b4", "#2b3f9e"]

# `number` is RULES 2.11's, so that the place of refusal 11 can be found in the picture; the source is on no wire, 0.
Driver = namedtuple("Driver", "number wire offset load margin")


class WrongText(Exception):
    """The text is not what the program prints of this net."""


def read_drivers(text, net):
    """The drivers in their order, the source last; none where the text is a refusal. A line may say more behind the load."""
    drivers = []
    for line in text.splitlines():
        entry = re.match(r"wire (\d+) offset (\d+) drives (\d+)", line)
        source = re.match(r"source drives (\d+)", line)
        if entry:
            drivers.append(driver(net, len(drivers), *map(int, entry.groups())))
        elif source:
            return drivers + [driver(net, len(drivers), 0, 0, int(source.group(1)))]
    if drivers or "refused" not in text:
        raise WrongText("it has neither the source's load nor a refusal")
    return []


def driver(net, number, wire, offset, load):
    if wire >= len(net.nodes) or offset > net.nodes[wire].wire:
        raise WrongText(f"wire {wire} of the net has no offset {offset}")
    return Driver(number, wire, offset, load, net.limit - load)


def fullest_first(drivers):
    """Equally full ones in their order, the source last."""
    return sorted(drivers, key=lambda driver: (driver.margin, driver.number))


class Stages:
    """`of[v]` is the driver of node v's stage, None where nothing drives; `wrong` the sinks that get a wrong sense."""

    def __init__(self, layout, drivers):
        self.net, self.on_wire, self.colours = layout.net, layout.on_wire, {}
        self.of = [None] * len(self.net.nodes)
        if drivers:
            self.colours[drivers[-1]] = COLOURS[0]
            self.of[0] = drivers[-1]
            for node in layout.order[1:]:
                self.of[node] = self.below(node)
        self.wrong = self.find_wrong() if drivers and self.net.repeater else set()

    def below(self, wire):
        """The driver of what lies below a wire, after colours for the entries on it."""
        above = self.of[self.net.nodes[wire].parent]
        for entry in reversed(self.on_wire.get(wire, [])):
            self.colours[entry] = self.next_colour(self.colours[above])
            above = entry
        return above

    def next_colour(self, above):
        """In turn, by threes so that neighbours in turn look unlike, and never that of the stage above."""
        turn = 3 * len(self.colours) % len(COLOURS)
        return next(colour for colour in COLOURS[turn:] + COLOURS[:turn] if colour != above)

    def find_wrong(self):
        """Of inverters: the sinks whose sum (RULES 2.13) is odd where the lowest sink's is even, or the other way round."""
        nodes, turns = self.net.nodes, [0] * len(self.net.nodes)
        for number in range(1, len(nodes)):
            turns[number] = turns[nodes[number].parent] + len(self.on_wire.get(number, ()))
        odd = {number: (turns[number] + node.polarity) % 2 for number, node in enumerate(nodes) if node.is_sink}
        return {sink for sink in odd if odd[sink] != odd[min(odd)]}

    def paint(self, driver):
        if driver is None:
            return PALE
        return OVER if driver.margin < 0 else self.colours[driver]
