"""The drawings of desk/picture, read as XML and held to tests/reference.py: every margin, what is red, bubbles, lengths, sizes.

    python3 check_picture.py TOOL

TOOL is the path of desk/picture. Nothing here knows how it lays out a net: all places are read from the shapes drawn. The texts that the
tool reads are written from the reference's loads. Ends with status 1 and a line a fault. See README.md."""
import os
import pathlib
import re
import subprocess
import sys
import tempfile
import time
import xml.etree.ElementTree as ElementTree
from collections import Counter, namedtuple

sys.dont_write_bytecode = True
import picture_cases
import reference as ref

MOST_WIDE, MOST_HIGH, MOST_BYTES = 3000, 3300, 1_000_000
SVG = "{http://www.w3.org/2000/svg}"
NEAR = 0.25           # pixels: places have one decimal
ASIDE = 100           # a repeater takes less than this of its wire, with its number and margin

Driver = namedtuple("Driver", "number wire offset load margin")


# ---------------------------------------------------------------- what must be drawn

class Truth:
    """A case as the reference has it: drivers (the source last), the text that the program prints of them, the headline."""

    def __init__(self, case):
        self.net, self.limits = case.net, case.net.limits
        self.drivers, self.text = [], "refused 8 place 0\n"
        self.headline = self.text.strip()
        if case.placement is not None:
            self.list_drivers(case.placement)
        self.entries = self.drivers[:-1]
        self.over = {driver.number for driver in self.drivers if driver.margin < 0}
        self.fullest = sorted(self.drivers, key=lambda driver: (-driver.load, driver.number))
        self.faulty = self.find_faulty()
        self.stage = self.find_stages()

    def list_drivers(self, placement):
        try:
            loads, source = ref.list_drives(self.net, placement)
        except ref.Refused as refusal:
            self.text = f"refused {refusal.number} place {refusal.place}\n"
            self.headline = self.text.strip()
            return
        entries = [*zip(*placement, loads), (0, 0, source)]
        self.drivers = [Driver(number, *entry, self.limits.limit - entry[2]) for number, entry in enumerate(entries)]
        lines = [f"wire {wire} offset {offset} drives {load}" for wire, offset, load in entries[:-1]]
        self.text = "\n".join([*lines, f"source drives {source}", ""])
        over = [driver.number for driver in self.drivers if driver.margin < 0]
        self.headline = f"refused 11 place {over[0]}" if over else f"legal {len(loads)}"

    def find_faulty(self):
        """Sinks whose pin is over C_U, and those of another sense than the lowest (RULES 2.13)."""
        net, turns = self.net, [0] * len(self.net.parent)
        on = Counter(entry.wire for entry in self.entries)
        for node in range(1, len(turns)):
            turns[node] = turns[net.parent[node]] + on[node]
        sinks = [node for node in range(len(turns)) if net.kind[node] == 1]
        odd = {sink: (turns[sink] + net.polarity[sink]) % 2 for sink in sinks}
        tell = self.limits.type == 1 and self.drivers
        return {sink: (net.pin[sink] > self.limits.limit, bool(tell and odd[sink] != odd[sinks[0]])) for sink in sinks}

    def find_stages(self):
        """The driver of what lies below each node: the lowest entry on its wire, or else its parent's."""
        lowest = {entry.wire: entry.number for entry in reversed(self.entries)}
        stage = [len(self.entries)]
        for node in range(1, len(self.net.parent)):
            stage.append(lowest.get(node, stage[self.net.parent[node]]))
        return stage


# ---------------------------------------------------------------- what is drawn

def numbers(words):
    return [float(number) for number in re.findall(r"-?\d+(?:\.\d+)?", words)]


def whole(words):
    """A number as it is printed: with commas and any minus."""
    return int(words.replace(",", "").replace("−", "-"))


def is_red(colour):
    if not re.fullmatch("#[0-9a-f]{6}", colour or ""):
        return False
    red, green, blue = bytes.fromhex(colour[1:])
    return red > 150 and green < 70 and blue < 90


def reddens(element):
    return any(is_red(part.get(name)) for part in element.iter() for name in ("fill", "stroke"))


def title(element):
    return element.findtext(SVG + "title") or ""


class Drawing:
    def __init__(self, data):
        self.bytes, self.root = len(data), ElementTree.fromstring(data)
        self.by_class = {}
        for element in self.root.iter():
            for name in element.get("class", "").split():
                self.by_class.setdefault(name, []).append(element)

    def all(self, name):
        return self.by_class.get(name, [])

    def words(self):
        return ["".join(text.itertext()) for text in self.root.iter(SVG + "text")]


class Wire:
    """A wire's shapes: where it begins and ends, its row, the colour of each piece from the top down."""

    def __init__(self, group):
        self.number, size = re.match(r"wire (\d+): ([\d,]+) unit", title(group)).groups()
        self.number, self.size = int(self.number), whole(size)
        self.stretched = "stretched" in group.get("class").split()
        paths = group.findall(SVG + "path")
        self.dashed = group.get("stroke-dasharray") is not None
        self.left, self.top = numbers(paths[0].get("d"))[:2]
        self.right = numbers(paths[-1].get("d"))[-1]
        self.y = numbers(paths[-1].get("d"))[1] if len(paths) > 1 or "Q" not in paths[0].get("d") else numbers(paths[0].get("d"))[-2]
        colours = [path.get("stroke") for path in paths]
        self.colours = [colour for index, colour in enumerate(colours) if index == 0 or colour != colours[index - 1]]


class Repeater:
    """A repeater's shapes: what its tip says, its ends, its row, how far it is filled."""

    def __init__(self, group):
        found = re.fullmatch(r"(\d+): wire (\d+) offset ([\d,]+) drives ([\d,]+), margin (-?[\d,]+)", title(group))
        self.driver = Driver(*map(whole, found.groups()))
        outline, load = group.findall(SVG + "path")
        self.left, self.top, self.right, self.y, _, bottom = numbers(outline.get("d"))
        self.bubbles = group.findall(SVG + "circle")
        for bubble in self.bubbles:
            self.right = float(bubble.get("cx")) + float(bubble.get("r"))
        self.middle, self.high = (self.left + self.right) / 2, bottom - self.top
        self.filled = bottom - min(numbers(load.get("d"))[1::2])
        self.colour, self.red = group.get("stroke"), reddens(group)
        self.flagged = "overloaded" in group.get("class").split()


# ---------------------------------------------------------------- faults: each function yields lines

def page_faults(truth, drawing):
    wide, high = int(drawing.root.get("width")), int(drawing.root.get("height"))
    if wide > MOST_WIDE or high > MOST_HIGH or drawing.bytes > MOST_BYTES:
        yield f"the page is {wide} by {high} with {drawing.bytes} bytes"
    if drawing.root.get("viewBox") != f"0 0 {wide} {high}":
        yield "the view box is another than the page"
    for element in drawing.root.iter():
        x, y = (float(element.get(name, 0)) for name in (("cx", "cy") if element.get("cx") else ("x", "y")))
        if not (0 <= x <= wide and 0 <= y <= high):
            yield f"off the page: {element.tag} at {x} {y}"
    at_fault = truth.over or "refused" in truth.headline or any(any(faults) for faults in truth.faulty.values())
    if reddens(drawing.root) and not at_fault:
        yield "something is red and nothing is wrong"


def headline_faults(truth, drawing):
    headline, = drawing.all("headline")
    if headline.text != truth.headline:
        yield f"the headline is {headline.text}"
    if reddens(headline) != truth.headline.startswith("refused"):
        yield "the headline's colour is wrong"


def row_faults(row, driver, truth):
    """A row of the list: mark, place, bar, load, margin."""
    mark, place, load, margin = [text.text for text in row.findall(SVG + "text")]
    is_source = driver.number == len(truth.entries)
    if mark != ("S" if is_source else str(driver.number)):
        yield f"driver {driver.number} is listed as {mark}"
    if place != ("source" if is_source else f"wire {driver.wire} offset {driver.offset:,}"):
        yield f"driver {driver.number} is listed at {place}"
    if (whole(load), whole(margin)) != (driver.load, driver.margin):
        yield f"driver {driver.number} drives {driver.load}, margin {driver.margin}, and the list says {load}, {margin}"
    reds = {is_red(text.get("fill", row.get("fill"))) for text in row.findall(SVG + "text")}
    if reds != {driver.margin < 0} or reddens(row) != (driver.margin < 0) or ("overloaded" in row.get("class")) != (driver.margin < 0):
        yield f"driver {driver.number} has the wrong colour in the list"
    bars = [float(bar.get("width")) for bar in row.findall(SVG + "rect")]
    if abs(bars[1] - bars[0] * min(1, driver.load / truth.limits.limit)) > 0.1:
        yield f"driver {driver.number} has a bar of {bars[1]} of {bars[0]}"


def list_faults(truth, drawing):
    rows = drawing.all("driver")
    if len(rows) < min(40, len(truth.drivers)) or len(rows) > len(truth.drivers):
        yield f"{len(rows)} drivers of {len(truth.drivers)} are listed"
    for row, driver in zip(rows, truth.fullest):
        yield from row_faults(row, driver, truth)
    left = truth.fullest[len(rows):]
    over = sum(driver.margin < 0 for driver in left)
    rest = [element.text for element in drawing.all("rest")]
    words = f"and {len(left):,} more driver" + "s" * (len(left) != 1) + ", "
    if left:
        words += f"{over:,} of them overloaded" if over else f"with a margin of {left[0].margin:,} or more"
    if rest != ([words] if left else []):
        yield f"the list ends with {rest}, due is {words}"
    counts = [f"{len(truth.drivers):,} driver", f"{len(truth.over):,} overloaded"]
    heading = "".join(drawing.all("drivers")[0].find(SVG + "text").itertext()) if truth.drivers else ""
    if truth.drivers and (not heading.startswith(counts[0]) or heading.endswith(counts[1]) != bool(truth.over)):
        yield f"the list begins with {heading}"


def wire_faults(truth, wires):
    """Sizes, whose end each wire hangs at, and one scale for all wires that are not stretched."""
    if sorted(wires) != list(range(1, len(truth.net.parent))):
        yield "not one drawing a wire"
        return
    true = [wire for wire in wires.values() if not wire.stretched]
    longest = max(true, key=lambda wire: wire.size, default=None)
    scale = (longest.right - longest.left) / longest.size if longest and longest.size else 0
    on = Counter(entry.wire for entry in truth.entries)
    for wire in wires.values():
        parent = wires.get(truth.net.parent[wire.number])
        if wire.size != truth.net.wire[wire.number]:
            yield f"wire {wire.number} is said to have {wire.size} units"
        if parent and abs(wire.left - parent.right) + abs(wire.top - parent.y) > NEAR:
            yield f"wire {wire.number} does not begin at its parent"
        if wire.dashed != wire.stretched:
            yield f"wire {wire.number}: dashed and stretched differ"
        if not wire.stretched and abs(wire.right - wire.left - scale * wire.size) > NEAR:
            yield f"wire {wire.number} is not to scale"
        if wire.stretched and scale * wire.size > 50 + ASIDE * min(on[wire.number], 24):
            yield f"wire {wire.number} is long enough and stretched"


def repeater_faults(truth, repeaters):
    """What each one says, its colour, its bubble, its fill."""
    for repeater in repeaters:
        number = repeater.driver.number
        if number >= len(truth.entries) or repeater.driver != truth.entries[number]:
            yield f"no such repeater: {repeater.driver}"
            continue
        if not repeater.red == repeater.flagged == (number in truth.over):
            yield f"repeater {number} has the wrong colour"
        if len(repeater.bubbles) != truth.limits.type:
            yield f"repeater {number} has {len(repeater.bubbles)} bubbles"
        full = repeater.high * min(1, repeater.driver.load / truth.limits.limit)
        if abs(repeater.filled - full) > 0.21:
            yield f"repeater {number} is filled to {repeater.filled} of {repeater.high}"


def drawn_faults(truth, drawing, repeaters):
    """Which ones are drawn: each once, the fullest in any case; how many are not is said, and they have ticks."""
    found = Counter(repeater.driver.number for repeater in repeaters)
    entries = [driver.number for driver in truth.fullest if driver.number < len(truth.entries)]
    if set(found.values()) - {1} or entries and entries[0] not in found:
        yield "a repeater is drawn twice, or the fullest is not drawn"
    hidden = [number for number in entries if number not in found]
    if hidden and len(entries) < 10 and len(truth.net.parent) < 12:
        yield "there is room for all, and some are not drawn"
    words = r"Of ([\d,]+) repeaters ([\d,]+) are drawn, the fullest where they crowd; ([\d,]+) are ticks"
    said = [tuple(map(whole, some)) for some in re.findall(words, " ".join(drawing.words()))]
    if said != ([(len(entries), len(found), len(hidden))] if hidden else []):
        yield f"{len(hidden)} repeaters are not drawn, and {said} is said"
    kinds = {"overloaded" in ticks.get("class").split() for ticks in drawing.all("ticks")}
    if kinds != {number in truth.over for number in hidden}:
        yield "ticks are missing or too many"
    for ticks in drawing.all("ticks"):
        if reddens(ticks) != ("overloaded" in ticks.get("class").split()):
            yield "ticks have the wrong colour"


def place_faults(truth, wires, repeaters):
    """On a wire to scale a repeater stands at its offset, unless an end or another one is near; and in order anywhere."""
    offsets = {}
    for entry in truth.entries:
        offsets.setdefault(entry.wire, []).append(entry.offset)
    for repeater in repeaters:
        wire, others = wires[repeater.driver.wire], list(offsets[repeater.driver.wire])
        if abs(repeater.y - wire.y) > NEAR:
            yield f"repeater {repeater.driver.number} is not in its wire's row"
        if wire.stretched:
            continue
        scale = (wire.right - wire.left) / wire.size
        due = wire.right - scale * repeater.driver.offset
        others.remove(repeater.driver.offset)
        marks = [wire.left, wire.right, *(wire.right - scale * offset for offset in others)]
        room = ASIDE * min(len(others) + 1, 1000 / ASIDE)
        near = min(abs(due - mark) for mark in marks) < room
        if abs(repeater.middle - due) > (room if near else NEAR):
            yield f"repeater {repeater.driver.number} stands at {repeater.middle:.1f}, due is {due:.1f}"


def overlap_faults(repeaters):
    """In a row no repeater stands on another, and on a wire they stand in the list's order from right to left."""
    rows = {}
    for repeater in repeaters:
        rows.setdefault(repeater.y, []).append(repeater)
    for row in rows.values():
        row.sort(key=lambda repeater: repeater.left)
        for one, other in zip(row, row[1:]):
            if one.right > other.left + 0.1:
                yield f"repeaters {one.driver.number} and {other.driver.number} overlap"
            if one.driver.wire == other.driver.wire and one.driver.number < other.driver.number:
                yield f"repeaters {one.driver.number} and {other.driver.number} have changed places"


def colour_faults(truth, drawing, wires, repeaters):
    """A wire's pieces have their drivers' colours, and a stage has another colour than the one above it, unless both are red."""
    colour = {repeater.driver.number: repeater.colour for repeater in repeaters}
    source, = drawing.all("source")
    colour[len(truth.entries)] = source.get("stroke")
    if truth.drivers and reddens(source) != (len(truth.entries) in truth.over):
        yield "the source has the wrong colour"
    on = {}
    for entry in truth.entries:
        on.setdefault(entry.wire, []).insert(0, entry.number)
    for wire in wires.values():
        drivers = [truth.stage[truth.net.parent[wire.number]], *on.get(wire.number, [])]
        if not colour.keys() >= set(drivers):
            continue
        due = [colour[driver] for driver in drivers]
        seen = [one for index, one in enumerate(due) if index == 0 or one != due[index - 1]]
        if wire.colours != seen:
            yield f"wire {wire.number} has the colours {wire.colours}, due are {seen}"
        if any(one == other and not is_red(one) for one, other in zip(due, due[1:])):
            yield f"stages that meet on wire {wire.number} have one colour"


def sink_faults(truth, drawing, wires):
    words, drawn = {}, {}
    for group in drawing.all("sink"):
        number = int(re.match(r"sink (\d+)", title(group)).group(1))
        words[number], drawn[number] = title(group), group
    for sink, (over, wrong) in truth.faulty.items():
        sign = ("plus, ", "minus, ")[truth.net.polarity[sink]] if truth.limits.type else ""
        due = f"sink {sink}, {sign}pin {truth.net.pin[sink]:,}" + ", over C_U" * over + ", wrong sense" * wrong
        if words.pop(sink, None) != due:
            yield f"due is {due}"
            continue
        circle = drawn[sink].find(SVG + "circle")
        begin = float(circle.get("cx")) - float(circle.get("r"))
        if abs(begin - wires[sink].right) + abs(float(circle.get("cy")) - wires[sink].y) > NEAR:
            yield f"sink {sink} does not stand at the end of its wire"
        if reddens(drawn[sink]) != (over or wrong or truth.stage[sink] in truth.over):
            yield f"sink {sink} has the wrong colour"
    if words:
        yield f"sinks too many: {list(words)}"


def label_faults(truth, drawing, repeaters):
    """Words of sinks do not overprint; the number of each drawn repeater stands beside it, or no number at all."""
    labels = [group.find(SVG + "text") for group in drawing.all("sink")]
    rows = sorted((float(label.get("y")), float(label.get("font-size"))) for label in labels if label is not None)
    if any(below - above < 0.9 * size for (above, size), (below, _) in zip(rows, rows[1:])):
        yield "the sinks' words overprint"
    marks = {int(text.text): text for text in drawing.all("number")}
    if marks and len(marks) != len(repeaters) or len(rows) not in (0, len(truth.faulty)):
        yield "some numbers are missing"
    for repeater in repeaters if marks else ():
        text = marks[repeater.driver.number]
        if abs(float(text.get("x")) - repeater.middle) > 20 or not 0 < repeater.y - float(text.get("y")) < 20:
            yield f"the number of repeater {repeater.driver.number} stands elsewhere"


def faults(truth, data):
    """All faults of a drawing."""
    drawing = Drawing(data)
    wires = {wire.number: wire for wire in map(Wire, drawing.all("wire"))}
    repeaters = [*map(Repeater, drawing.all("repeater"))]
    yield from page_faults(truth, drawing)
    yield from headline_faults(truth, drawing)
    yield from list_faults(truth, drawing)
    yield from wire_faults(truth, wires)
    yield from repeater_faults(truth, repeaters)
    yield from drawn_faults(truth, drawing, repeaters)
    yield from place_faults(truth, wires, repeaters)
    yield from overlap_faults(repeaters)
    yield from colour_faults(truth, drawing, wires, repeaters)
    yield from sink_faults(truth, drawing, wires)
    yield from label_faults(truth, drawing, repeaters)


# ---------------------------------------------------------------- the tool

class Tool:
    def __init__(self, path, folder):
        self.path, self.net, self.text = os.path.abspath(path), folder / "net", folder / "text"

    def run(self, truth, name=b"a.net", text=None, seed="0"):
        self.net.write_bytes(ref.net_bytes(truth.net))
        self.text.write_text(truth.text if text is None else text)
        environment = {**os.environ, "PYTHONHASHSEED": seed, "LC_ALL": "C"}
        return subprocess.run([self.path, name, self.net, self.text, truth.headline], capture_output=True, env=environment)

    def draw(self, truth, **words):
        done = self.run(truth, **words)
        if done.returncode or done.stderr:
            raise ValueError(f"status {done.returncode}: {done.stderr.decode(errors='replace').strip()}")
        return done.stdout


def case_faults(tool, case):
    truth = Truth(case)
    data = tool.draw(truth)
    yield from faults(truth, data)
    if case.name == "routed-300" and len(data) > 160_000:
        yield f"{len(data)} bytes"


def name_faults(tool, case):
    """Names of all bytes: whole where they are letters, and never a picture that XML does not allow."""
    truth = Truth(case)
    shown_whole = ["a&b <c> \"d\" 'e'.net", "é中.net", "&amp;", "-", ""]
    odd = [(b"x\xff\xfe\x01\n\x7f.net", None), (b"]]>\x80" * 60, None)]
    for name, shown in [(name.encode(), name) for name in shown_whole] + odd:
        text = "".join(Drawing(tool.draw(truth, name=name)).root.find(SVG + "text").itertext())
        if shown is not None and text != shown + truth.headline:
            yield f"the name {name} is shown as {text}"


def same_faults(tool, some):
    for case in some:
        if tool.draw(Truth(case), seed="1") != tool.draw(Truth(case), seed="2"):
            yield f"{case.name}: two drawings differ"


def text_faults(tool, case):
    """Of a text with `least` before the lines the drawing is the same; a text that is not the program's gives status 2 and no drawing."""
    truth = Truth(case)
    if tool.draw(truth, text=f"least {len(truth.entries)}\n{truth.text}") != tool.draw(truth):
        yield "the lines of solve are drawn otherwise than those of loads"
    past = truth.text.replace("offset ", "offset 99999999")
    for text in ("", "least 1\n", truth.text.partition("source")[0], past, truth.text.replace("wire 1 ", "wire 1024 ")):
        done = tool.run(truth, text=text)
        if done.returncode != 2 or done.stdout or not done.stderr.startswith(b"picture: "):
            yield f"status {done.returncode} for the text {text!r}"


def told(name, lines):
    """The faults that were found, and a line where the tool fails or its drawing cannot be read."""
    try:
        for line in lines:
            yield f"{name}: {line}"
    except (ValueError, ElementTree.ParseError, AttributeError, KeyError, TypeError) as why:
        yield f"{name}: no drawing that can be read: {why!r}"


def main():
    if len(sys.argv) != 2:
        sys.exit(__doc__)
    begun, found, cases = time.time(), [], picture_cases.cases()
    with tempfile.TemporaryDirectory() as folder:
        tool = Tool(sys.argv[1], pathlib.Path(folder))
        for case in cases:
            found += told(case.name, case_faults(tool, case))
        one = next(case for case in cases if case.name == "wire-14.place")
        found += told("names", name_faults(tool, one))
        found += told("texts", text_faults(tool, one))
        found += told("twice", same_faults(tool, cases[-12::4]))
    print("\n".join(found[:50]) if found else f"{len(cases)} drawings hold, in {time.time() - begun:.1f} s")
    sys.exit(1 if found else 0)


main()
