"""A refusal in words: which file is at fault, what is wrong and where, by which rule.

What is said of bytes is read from them again. Where they do not bear the refusal out, or are not at hand, the words say no more
than the refusal itself does."""
import re
from collections import Counter, namedtuple

from net_file import SINK
from reading import REPEATER, SIGN, Reading, many

MOST_READ = 1 << 16                              # bytes of a file: no refusal lies further behind
REFUSAL = re.compile(r"(?:(net|first net|second net|placement) )?refused ([0-9]{1,20}) place ([0-9]{1,20})")
DRIVER = re.compile(r"(?:wire ([0-9]{1,20}) offset ([0-9]{1,20})|source) drives ([0-9]{1,20})(?: .*)?")
ROLES = {0: (), 1: ("net",), 2: ("net", "placement"), 3: ("net", "second", "placement")}
ROLE = {"net": "net", "first net": "net", "second net": "second", "placement": "placement"}
AT_FAULT = {10: "placement", 11: "placement", 12: "placement", 13: "second"}        # where the line does not say: else the net

Refusal = namedtuple("Refusal", "role number place bare")       # bare: no file was named before it
Driver = namedtuple("Driver", "wire offset load")               # the source's wire is None
# What was found: the words, the paragraphs, and the fields to show, each of a role's file with the names of the values at fault.
Finding = namedtuple("Finding", "words rules points")
Point = namedtuple("Point", "role field wrong")

# What a refusal says by itself: the words, and the paragraphs beside its row of RULES 4.3.
PLAIN = {1: ("byte {place}: the file is over where a field is due, or within a field", ("5.2",)),
         2: ("byte {place}: a tag that is not due, or a length that is not the tag's", ("3.4", "5.2")),
         3: ("byte {place}: a value is out of its range", ("3.8", "3.9")),
         4: ("byte {place}: a parent that will not do, or one node too many", ("1.3", "1.5", "1.6")),
         5: ("node {place} has no child", ("1.6",)),
         6: ("byte {place}: bytes after the end field", ("3.1",)),
         7: ("columns that do not fit", ("1.12", "1.14")),
         8: ("no placement is legal", ("2.18",)),
         9: ("the answer has {place} entries, more than the 4,096 that it may have", ("2.17",)),
         10: ("entry {place} (byte {byte}) is on no wire, past its wire's end or out of order", ("2.3", "2.4")),
         11: ("driver {place} drives more than C_U (the source, if the placement has {place} entries)", ("2.11", "2.12")),
         12: ("sink {place} gets another polarity than the lowest sink", ("2.13",)),
         13: ("node {place} does not ease the first net", ("6.16",))}
PLAIN_AT_0 = {5: "the source has no child", 13: "limits or number of nodes do not ease the first net"}
FINISH = {3: ("the net is of inverters, and finish takes buffers alone", ("8.7",)),
          8: ("no legal placement has all the given entries", ("8.4",)),
          9: ("{place} entries are to be added at least, more than the 4,096 that an answer may have", ("8.5",))}


def refusal_of(line):
    """What a line says, or None where it is no refusal."""
    found = REFUSAL.fullmatch(line)
    if not found:
        return None
    number, place = int(found[2]), int(found[3])
    return Refusal(ROLE[found[1]] if found[1] else AT_FAULT.get(number, "net"), number, place, found[1] is None)


def drivers_of(text):
    """The drivers that `loads` or `solve` printed, the source last; none where the text is not whole."""
    found = [DRIVER.fullmatch(line) for line in text.splitlines()]
    drivers = [Driver(one[1] and int(one[1]), one[2] and int(one[2]), int(one[3])) for one in found if one]
    whole = drivers and drivers[-1].wire is None and all(one.wire is not None for one in drivers[:-1])
    return drivers if whole else []


class Record:
    """The files of a verb: by role their names as typed and what their bytes say, and the drivers with their loads.

    `files` are triples of a name, its first bytes (None where they are not at hand) and how many bytes it has."""

    def __init__(self, verb, files, loads=""):
        self.verb, self.drivers, self.names, self.readings = verb, drivers_of(loads), {}, {}
        for role, (name, data, whole) in zip(ROLES.get(len(files), ROLES[3]), files):
            self.names[role] = name
            if data is not None:
                self.readings[role] = Reading(data, role == "placement", whole)

    def name(self, refusal):
        return self.names.get(refusal.role) or self.names.get("net") or "mustorgyel"

    def sound(self, *roles):
        """The readings of these files, or None where one is not at hand or is refused."""
        found = [self.readings.get(role) for role in roles]
        return found if all(one and one.refusal() is None for one in found) else None

    def finds(self, refusal):
        """What the bytes show of a refusal, or what it says by itself."""
        found = FINDERS[refusal.number](self, refusal) if refusal.number in FINDERS else None
        return found or self.plain(refusal)

    def plain(self, refusal):
        number, place = refusal.number, refusal.place
        if number not in PLAIN or (number == 9 and place <= 4096):
            return Finding(f"refused {number} place {place}", (), ())
        words, rules = PLAIN[number]
        if refusal.bare and self.verb == "finish" and number in FINISH:
            words, rules = FINISH[number]
        elif place == 0:
            words = PLAIN_AT_0.get(number, words)
        return Finding(words.format(place=place, byte=5 + 9 * place), rules, ())


# ---------------------------------------------------------------- 1 to 6: a file by itself

def in_file(record, refusal):
    reading = record.readings.get(refusal.role)
    if refusal.bare and record.verb == "finish":
        return inverters_given(record) if (refusal.number, refusal.place) == (3, 0) else None
    fault, field = (reading and reading.refusal()) or (None, None)
    if not fault or (fault.number, fault.place) != (refusal.number, refusal.place):
        return None
    point = Point(refusal.role, field or reading.end, fault.wrong)
    if fault.number == 5:
        what = f"node {fault.place} (a branch point, byte {field.at})" if field else "the source (node 0, which has no field)"
        return Finding(f"{what} {fault.words}", fault.rules, (point,))
    member = f", {'entry' if reading.placement else 'node'} {field.number}" if field.number is not None and fault.number != 2 else ""
    return Finding(f"byte {field.at}{member}: {fault.words}", fault.rules, (point,))


def inverters_given(record):
    nets = record.sound("net")
    if not nets or nets[0].repeater() != 1:
        return None
    words, rules = FINISH[3]
    return Finding(words.replace("inverters,", "inverters (type 1, byte 11),"), rules, (Point("net", nets[0].limits, ("type",)),))


# ---------------------------------------------------------------- 8: no placement is legal

def least_below(net, given):
    """For each node the least that can lie below it, at either polarity, whatever stands on the wires: (even, odd).

    A wire hands up C_b at least where a repeater is on it, and else all of itself with what lies below it. Where the less of the two
    is within C_U at every node, repeaters at the ends of the wires make a legal placement."""
    limits, count = net.limits.values, len(net.nodes)
    below = [[0, 0] for _ in range(count)]
    for node in range(count - 1, 0, -1):
        field = net.nodes[node]
        if field.tag == SINK:
            wrong = 1 - field.values["polarity"]
            below[node] = [field.values["pin"]] * 2
            below[node][wrong] = float("inf")
        bare = [float("inf") if node in given else field.values["wire"] + load for load in below[node]]
        above = below[field.values["parent"]]
        for sense in (0, 1):
            above[sense] += min(limits["C_b"], bare[sense])
    return [min(loads) if limits["type"] == 1 else loads[0] for loads in below]


def none_legal(record, refusal):
    nets, finishing = record.sound("net"), record.verb == "finish"
    if not nets or refusal.place != 0:
        return None
    net, places = nets[0], record.sound("placement") if finishing else None
    given = {entry.values["wire"] for entry in places[0].entries} if places else set()
    most = net.limits.values["C_U"]
    over = [(node, load) for node, load in enumerate(least_below(net, given)) if load > most]
    if not over:
        return None
    node, load = over[-1]
    field, excess = net.nodes[node], f"{load - most} over C_U {most}"
    if field and field.tag == SINK:
        why, points = f"sink {node} (byte {field.at}) has a pin of {load}, {excess}", (Point("net", field, ("pin",)),)
    else:
        at = f"node {node} (byte {field.at})" if field else "the source"
        why = f"the wires under {at} hand up {load} at least, {excess}"
        points = tuple(Point("net", child, ()) for child in net.nodes[1:] if child.values["parent"] == node)
    words, rules = FINISH[8] if finishing else PLAIN[8]
    return Finding(f"{words}: {why}", (*rules, "2.12"), (Point("net", net.limits, ("C_U",)), *points))


# ---------------------------------------------------------------- 10 to 12: a placement on a net

def named(entry):
    """`entry 0 (wire 1 offset 7, byte 5)`."""
    return f"entry {entry.number} (wire {entry.values['wire']} offset {entry.values['offset']}, byte {entry.at})"


def entry_at(placement, place):
    return placement.entries[place] if place < len(placement.entries) else None


def misplaced(record, refusal):
    net, placement = record.sound("net", "placement") or (None, None)
    entry = entry_at(placement, refusal.place) if placement else None
    if not entry:
        return None
    wire, offset = entry.values["wire"], entry.values["offset"]
    if wire >= len(net.nodes):
        last = len(net.nodes) - 1
        wires = f"wires 1 to {last}" if last > 1 else "wire 1 alone"
        return Finding(f"{named(entry)} is on no wire: the net has {wires}", ("2.3",), (Point("placement", entry, ("wire",)),))
    node = net.nodes[wire]
    past = offset - node.values["wire"]
    if past > 0:
        return Finding(f"{named(entry)} is past its wire's end by {past}: wire {wire} has size {node.values['wire']}", ("2.3",),
                       (Point("placement", entry, ("offset",)), Point("net", node, ("wire",))))
    before = placement.entries[refusal.place - 1] if refusal.place else None
    if before is None or (before.values["wire"], before.values["offset"]) <= (wire, offset):
        return None
    wrong = ("offset",) if before.values["wire"] == wire else ("wire",)
    return Finding(f"{named(entry)} is out of order: it comes after {named(before)}", ("2.4",), (Point("placement", entry, wrong),))


def overloaded(record, refusal):
    net, placement = record.sound("net", "placement") or (None, None)
    if not net or refusal.place > len(placement.entries):
        return None
    entry, most = entry_at(placement, refusal.place), net.limits.values["C_U"]
    what = named(entry) if entry else "the source"
    load = load_of(record.drivers, placement, refusal.place)
    limits = Point("net", net.limits, ("C_U",))
    points = (Point("placement", entry, ("wire", "offset")), limits) if entry else (limits,)
    if load is None:
        return Finding(f"{what} drives more than C_U {most}", ("2.11", "2.12"), points)
    return Finding(f"{what} drives {load}, {load - most} over C_U {most}", ("2.11", "2.12"), points) if load > most else None


def load_of(drivers, placement, place):
    """The load of a driver, where the list of loads is of this placement."""
    entries = [(entry.values["wire"], entry.values["offset"]) for entry in placement.entries]
    return drivers[place].load if [(one.wire, one.offset) for one in drivers[:-1]] == entries and drivers else None


def wrong_parity(record, refusal):
    net, placement = record.sound("net", "placement") or (None, None)
    sinks = [field for field in net.nodes[1:] if field.tag == SINK] if net else []
    found = [field for field in sinks if field.number == refusal.place]
    if not found or net.repeater() != 1:
        return None
    on = Counter(entry.values["wire"] for entry in placement.entries)
    pair = found[0], sinks[0]
    above = [inverters_above(net, on, field.number) for field in pair]
    sums = [count + field.values["polarity"] for count, field in zip(above, pair)]
    if sums[0] % 2 == sums[1] % 2:
        return None
    said = [f"({SIGN[field.values['polarity']]}, byte {field.at} of the net, {many(count, 'inverters')} above it)"
            for count, field in zip(above, pair)]
    words = f"sink {pair[0].number} {said[0]} disagrees with sink {pair[1].number}, the lowest {said[1]}: sums {sums[0]} and {sums[1]}"
    return Finding(words, ("2.13",), (*(Point("net", field, ("polarity",)) for field in pair), *between(net, placement, pair)))


def between(net, placement, pair):
    """The inverters that one of two sinks has above it and the other has not, the first of them."""
    paths = [set(wires_above(net, field.number)) for field in pair]
    apart = [entry for entry in placement.entries if entry.values["wire"] in paths[0] ^ paths[1]]
    return [Point("placement", entry, ()) for entry in apart[:8]]


def wires_above(net, node):
    while node:
        yield node
        node = net.nodes[node].values["parent"]


def inverters_above(net, on, node):
    return sum(on[wire] for wire in wires_above(net, node))


# ---------------------------------------------------------------- 13: a second net that does not ease the first

# What may not happen to a value: whether it did, and what is said of it.
CHANGES = {"C_U": (lambda old, new: new < old, "C_U fell from {old} to {new}"),
           "C_b": (lambda old, new: new > old, "C_b grew from {old} to {new}"),
           "type": (lambda old, new: new != old, "the type changed from {old} to {new}"),
           "parent": (lambda old, new: new != old, "its parent changed from {old} to {new}"),
           "wire": (lambda old, new: new > old, "its wire grew from {old} to {new}"),
           "pin": (lambda old, new: new > old, "its pin grew from {old} to {new}"),
           "polarity": (lambda old, new: new != old, "its polarity changed from {old} to {new}")}
NAMED = {"type": REPEATER, "polarity": SIGN}


def changed(old, new):
    """What does not ease between two fields: names of values, and words."""
    for name in old.values:
        harmful, words = CHANGES[name]
        pair = old.values[name], new.values.get(name)
        if name in new.values and harmful(*pair):
            before, after = (NAMED.get(name, {}).get(value, value) for value in pair)
            yield name, words.format(old=before, new=after)
    if old.tag != new.tag:
        yield "tag", "a branch point became a sink" if new.tag == SINK else "a sink became a branch point"


def not_eased(record, refusal):
    first, second = record.sound("net", "second") or (None, None)
    if not first or refusal.place >= len(first.nodes):
        return None
    old, new, place = first.limits, second.limits, refusal.place
    counts = len(first.nodes) - 1, len(second.nodes) - 1
    if place:
        old, new = first.nodes[place], second.nodes[place] if place < len(second.nodes) else None
    found = list(changed(old, new)) if new else []
    words = [words for _, words in found]
    if not place and counts[0] != counts[1]:
        words.append(f"{many(counts[1], 'nodes')} besides the source, where the first net has {counts[0]}")
    if not words:
        return None
    wrong = tuple(name for name, _ in found)
    at = f"node {place} (byte {new.at}): " if place else ""
    return Finding(at + "; ".join(words), ("6.16", "6.17"), (Point("net", old, wrong), Point("second", new, wrong)))


FINDERS = {**dict.fromkeys((1, 2, 3, 4, 5, 6), in_file), 8: none_legal,
           10: misplaced, 11: overloaded, 12: wrong_parity, 13: not_eased}
