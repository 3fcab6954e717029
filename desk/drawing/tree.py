"""The left part of a picture: wires to scale, nodes, and each driver where it stands."""
from .layout import TIGHT
from .svg import INK, OVER, PALE, PAPER, counted, element, path, signed, text, tip, width

LEFT, TOP = 76, 132   # where the source's pin stands, if its row is the first


def filled(left, y, body, half, part):
    """A triangle that points right, from its bottom up to `part` of its height."""
    level = y + half - 2 * half * part
    edge = left + body * (1 - abs(level - y) / half)
    apex = [("L", left + body, y)] if level < y else []
    return path(("M", left, y + half), ("L", left, level), ("L", edge, level), *apex) + "Z"


class Tree:
    def __init__(self, layout, stages):
        self.net, self.layout, self.stages = layout.net, layout, stages
        self.x = [LEFT + x for x in layout.x]
        self.y = [TOP + y for y in layout.y]
        self.middle = {entry: LEFT + place for entry, place in layout.place.items()}
        self.sinks = [number for number, node in enumerate(self.net.nodes) if node.is_sink]
        self.right = max(self.beside(sink) + width(self.sink_words(sink), self.letters()) for sink in self.sinks)
        self.bottom = max(self.y)

    def svg(self):
        wires = range(1, len(self.net.nodes))
        drawn = [entry for entry in self.layout.entries if entry in self.layout.drawn]
        halo = {"stroke": PAPER, "stroke_width": 2.5, "paint_order": "stroke", "stroke_linejoin": "round"}
        return "".join([
            element("g", *map(self.wire, wires), fill="none", stroke_width=self.thick(2.2), stroke_linecap="round"),
            *self.ticks(),
            element("g", *map(self.node, wires), stroke_width=self.thick(1.2)),
            element("g", self.source(), *map(self.repeater, drawn), stroke_width=self.thick(1.5), stroke_linejoin="round"),
            element("g", *map(self.mark, drawn), font_weight="bold", **halo) if self.layout.step >= TIGHT else "",
            element("g", *map(self.notes, wires), text_anchor="middle", fill=PALE, **halo) if self.layout.roomy else ""])

    def thick(self, line):
        """A line's width, finer where rows are small."""
        return line * min(1, max(0.35, self.layout.half / 6))

    # ------------------------------------------------------------ wires

    def wire(self, wire):
        """The bend from the parent, then a piece for each stage from the top down; of a stretched wire all but the bend is dashed."""
        y, ((start, end, driver), *others) = self.y[wire], self.pieces(wire)
        bend, corner = self.bend(wire, start, end)
        words, lines = tip(self.wire_words(wire)), [self.line([("M", start, y), ("H", end)], driver) for start, end, driver in others]
        if wire not in self.layout.stretched:
            return element("g", words, self.line([*bend, ("H", end)], driver), *lines, class_="wire")
        lines.insert(0, self.line([("M", corner, y), ("H", end)], driver))
        solid = self.line(bend, driver, stroke_dasharray="none") if len(bend) > 1 else ""
        return element("g", words, solid, *lines, class_="wire stretched", stroke_dasharray="3 4")

    def line(self, steps, driver, **attributes):
        return element("path", d=path(*steps), stroke=self.stages.paint(driver), **attributes)

    def wire_words(self, wire):
        entries = self.layout.on_wire.get(wire, [])
        hidden = len(set(entries) - self.layout.drawn)
        words = f"wire {wire}: {counted(self.net.nodes[wire].wire, 'unit')}"
        words += f", {counted(len(entries), 'repeater')}" if entries else ""
        return words + (f", {hidden:,} of them as ticks" if hidden else "")

    def bend(self, wire, x, end):
        """From the parent to the wire's row and round the corner, which takes a part of the first piece; and where that part ends."""
        start, y = self.y[self.net.nodes[wire].parent], self.y[wire]
        if y == start:
            return [("M", x, y)], x
        corner = min(5, abs(y - start), end - x)
        return [("M", x, start), ("V", y + corner if y < start else y - corner), ("Q", x, y, x + corner, y)], x + corner

    def pieces(self, wire):
        """(start, end, driver) from the top of a wire down; below the first a piece too short to be seen is part of the next."""
        parent = self.net.nodes[wire].parent
        found, left, driver = [], self.x[parent], self.stages.of[parent]
        for entry in reversed(self.layout.on_wire.get(wire, [])):
            if self.middle[entry] - left >= 1 or not found:
                found.append((left, self.middle[entry], driver))
                left = self.middle[entry]
            driver = entry
        return found + [(left, self.x[wire], driver)]

    def ticks(self):
        """Repeaters that are not drawn: a tick each, and one where several fall on half a pixel."""
        hidden = [entry for entry in self.layout.entries if entry not in self.layout.drawn]
        for kind, colour, over in (("ticks", INK, False), ("ticks overloaded", OVER, True)):
            places = {(self.y[entry.wire], round(2 * self.middle[entry]) / 2) for entry in hidden if (entry.margin < 0) == over}
            reach = 0.6 * self.layout.half
            steps = [step for y, x in sorted(places) for step in (("M", x, y - reach), ("v", 2 * reach))]
            if places:
                yield element("path", class_=kind, d=path(*steps), stroke=colour, stroke_width=0.5)

    # ------------------------------------------------------------ nodes

    def node(self, number):
        if self.net.nodes[number].is_sink:
            return self.sink(number)
        branches = len(self.net.nodes[number].children) > 1
        radius = self.thick(2.6 if branches else 1.6)
        return element("circle", tip(f"branch point {number}"), class_="branch", cx=self.x[number], cy=self.y[number], r=radius,
                       fill=self.stages.paint(self.stages.of[number]))

    def radius(self, sink):
        """Larger for a larger pin, up to C_U."""
        return self.layout.half * (0.5 + 0.45 * min(1, self.net.nodes[sink].pin / self.net.limit) ** 0.5)

    def beside(self, sink):
        """Where the words of a sink begin."""
        return self.x[sink] + 2 * self.radius(sink) + 4

    def letters(self):
        return 11.5 if self.layout.roomy else self.layout.letters

    def faults(self, sink):
        """What is wrong with a sink: nothing may drive it, or it gets the other sense than the lowest sink asks for."""
        over, wrong = self.net.nodes[sink].pin > self.net.limit, sink in self.stages.wrong
        return ", over C_U" * over + ", wrong sense" * wrong

    def sink_words(self, sink):
        pin = f"{self.net.nodes[sink].pin:,}" + self.faults(sink)
        if self.layout.roomy:
            return f"sink {sink}, pin {pin}"
        return f"{sink}: {pin}" if self.layout.step >= TIGHT else ""

    def sink(self, sink):
        node, radius, y, faults = self.net.nodes[sink], self.radius(sink), self.y[sink], self.faults(sink)
        colour = OVER if faults else self.stages.paint(self.stages.of[sink])
        sign = ("plus, ", "minus, ")[node.polarity] if self.net.repeater else ""
        circle = element("circle", cx=self.x[sink] + radius, cy=y, r=radius, fill=colour, fill_opacity=0.2)
        words = self.sink_words(sink)
        if words:
            words = text(self.beside(sink), y + 0.35 * self.letters(), words, self.letters(), fill=OVER if faults else PALE, stroke="none")
        return element("g", tip(f"sink {sink}, {sign}pin {node.pin:,}{faults}"), circle, self.sign(sink, radius), words,
                       class_="sink faulty" if faults else "sink", stroke=colour)

    def sign(self, sink, radius):
        """Plus or minus in the circle of a sink, where the net has inverters."""
        if not self.net.repeater:
            return ""
        arm, x, y = 0.5 * radius, self.x[sink] + radius, self.y[sink]
        upright = [("M", x, y - arm), ("v", 2 * arm)] if self.net.nodes[sink].polarity == 0 else []
        return element("path", d=path(("M", x - arm, y), ("h", 2 * arm), *upright))

    # ------------------------------------------------------------ drivers

    def source(self):
        """The source is a driver like the others, but larger and without a bubble."""
        x, y, half, body = self.x[0], self.y[0], 13, 25
        driver, left = self.stages.of[0], self.x[0] - 8 - 25
        colour = self.stages.paint(driver)
        line = element("path", d=path(("M", left + body, y), ("H", x)), stroke_width=self.thick(2.2))
        shape = self.triangle(driver, left, y, body, half)
        words = {"text_anchor": "middle", "stroke": "none"}
        name = text(left + 9, y - half - 6, "source", 10.5, font_weight="bold", **words)
        margin = text(left + 9, y + half + 13, signed(driver.margin), 9.5, class_="margin", **words) if driver else ""
        return element("g", line, *shape, name, margin, class_=self.kind("source", driver), stroke=colour, fill=colour, stroke_width=1.6)

    def repeater(self, entry):
        half, body, bubble = self.layout.half, self.layout.body, self.layout.bubble
        left, y, colour = self.middle[entry] - body / 2 - bubble, self.y[entry.wire], self.stages.paint(entry)
        parts = self.triangle(entry, left, y, body, half)
        if bubble:
            parts.append(element("circle", class_="bubble", cx=left + body + bubble, cy=y, r=bubble, fill=PAPER))
        return element("g", *parts, class_=self.kind("repeater", entry), stroke=colour, fill=colour)

    def kind(self, kind, driver):
        return kind + " overloaded" * (driver is not None and driver.margin < 0)

    def triangle(self, driver, left, y, body, half):
        """Its outline and, of a driver, what it says and the fill up to its load."""
        outline = element("path", d=path(("M", left, y - half), ("L", left + body, y), ("L", left, y + half)) + "Z", fill=PAPER)
        if driver is None:
            return [outline]
        full = filled(left, y, body, half, min(1, driver.load / self.net.limit))
        return [tip(self.driver_words(driver)), outline, element("path", class_="load", d=full, stroke="none", fill_opacity=0.8)]

    def driver_words(self, driver):
        where = f"{driver.number}: wire {driver.wire} offset {driver.offset:,}" if driver.wire else "source"
        return f"{where} drives {driver.load:,}, margin {driver.margin:,}"

    def mark(self, entry):
        """A repeater's number: behind it or, where there is room, over it, and then its margin below."""
        x, y, half, size = self.middle[entry], self.y[entry.wire], self.layout.half, self.layout.letters
        number = {"class_": "number", "fill": self.stages.paint(entry)}
        if not self.layout.roomy:
            return text(x + self.layout.body / 2 + self.layout.bubble + 0.5, y - 2, str(entry.number), size, **number)
        margin = number | {"class_": "margin", "font_weight": "normal", "text_anchor": "middle"}
        return (text(x, y - 1.25 * half, str(entry.number), size, text_anchor="middle", **number)
                + text(x, y + 1.25 * half + 0.7 * size, signed(entry.margin), size, **margin))

    # ------------------------------------------------------------ words beside the wires, where there is room

    def notes(self, wire):
        """The units of each piece over it, and the number of a branch point."""
        number = "" if self.net.nodes[wire].is_sink else text(self.x[wire] - 4, self.y[wire] + 11, str(wire), 9, text_anchor="end")
        return "".join(self.piece_notes(wire)) + number

    def piece_notes(self, wire):
        half = self.layout.room / 2
        ends = [(self.x[wire], self.x[wire], 0)]
        ends += [(self.middle[entry] - half, self.middle[entry] + half, entry.offset) for entry in self.layout.on_wire.get(wire, [])]
        start = self.x[self.net.nodes[wire].parent]
        ends.append((start, start, self.net.nodes[wire].wire))
        for (right, _, below), (_, left, above) in zip(ends, ends[1:]):
            words = f"{above - below:,}"
            if width(words, 9) + 6 <= right - left:
                yield text((left + right) / 2, self.y[wire] - 5, words, 9)
