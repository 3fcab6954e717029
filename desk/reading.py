"""What the bytes of a net or placement file say, damaged ones too: its fields, each with what is wrong with it.

The tests and their order are those of RULES 5.1 to 5.3, so that the first fault is the refusal. Behind a field that is wrong the
reading goes on where another field plainly begins, so that the rest of a torn file can be seen."""
from collections import Counter, namedtuple

from net_file import BODY, BRANCH, COUNT, END, ENTRY, LIMITS, SINK

LENGTH = {tag: sum(sizes) for tag, sizes in BODY.items()}
NAMES = {LIMITS: ("C_U", "C_b", "type"), BRANCH: ("parent", "wire"), SINK: ("parent", "wire", "pin", "polarity"),
         COUNT: ("count",), ENTRY: ("wire", "offset"), END: ()}
KIND = {LIMITS: "the limits", BRANCH: "a branch point", SINK: "a sink", COUNT: "the count", ENTRY: "an entry", END: "the end"}
REPEATER, SIGN = {0: "buffer", 1: "inverter"}, {0: "plus", 1: "minus"}
MOST_NODES, MOST_CHILDREN = 1024, 8

# What a field says, piece by piece: each piece with the value that it takes.
SAID = {LIMITS: (("", "limits"), ("C_U", ": C_U {C_U}"), ("C_b", ", C_b {C_b}"), ("type", ", {repeater}")),
        BRANCH: (("", "node {number}"), ("parent", " under {parent}"), ("wire", ": wire {wire}"), ("", ", branch point")),
        SINK: (("", "node {number}"), ("parent", " under {parent}"), ("wire", ": wire {wire}"), ("", ", sink"),
               ("pin", ", pin {pin}"), ("polarity", "{sign}")),
        COUNT: (("", "count"), ("count", ": {count}")),
        ENTRY: (("", "entry {number}"), ("wire", ": wire {wire}"), ("offset", ", offset {offset}")),
        END: (("", "end"),)}

# The ranges: which value, whether it will do, what is said where it will not, and the paragraph of docs/RULES.md.
WIRE = ("wire", lambda v: v["wire"] <= 10_000_000, "wire {wire} is over 10,000,000", "1.4")
RANGES = {LIMITS: (("C_U", lambda v: 1 <= v["C_U"] <= 1_000_000, "C_U {C_U} is not from 1 to 1,000,000", "1.9"),
                   ("C_b", lambda v: 2 * v["C_b"] < v["C_U"], "C_b {C_b} doubled is not below C_U {C_U}", "1.9"),
                   ("type", lambda v: v["type"] <= 1, "type {type} is neither 0 (buffers) nor 1 (inverters)", "1.9")),
          BRANCH: (WIRE,),
          SINK: (WIRE,
                 ("pin", lambda v: v["pin"] <= 1_000_000, "pin {pin} is over 1,000,000", "1.7"),
                 ("polarity", lambda v: v["polarity"] <= 1, "polarity {polarity} is neither 0 (plus) nor 1 (minus)", "1.7"),
                 ("polarity", lambda v: v["polarity"] != 1 or v["of"] != 0, "polarity 1 (minus) in a net of buffers, which has 0 alone",
                  "1.10")),
          COUNT: (("count", lambda v: v["count"] <= 4096, "count {count} is over 4,096", "3.9"),),
          ENTRY: (("wire", lambda v: 1 <= v["wire"] <= 1024, "wire number {wire} is not from 1 to 1,024", "3.9"),
                  ("offset", lambda v: v["offset"] <= 10_000_000, "offset {offset} is over 10,000,000", "3.9")),
          END: ()}

# A refusal's number and place (RULES 4.3), what is wrong in words, the paragraphs that say so, the names of the values at fault:
# `tag`, `length`, those of NAMES, `rest` for what is missing or too much; none where the field as a whole is meant.
Fault = namedtuple("Fault", "number place words rules wrong")


def size(tag):
    return 3 + LENGTH[tag]


def head(data, at):
    """Tag and length of the field at a byte."""
    return data[at], int.from_bytes(data[at + 1:at + 3], "big")


def begins(data, at, tags):
    """Does a field with one of these tags, and with that tag's length, begin here?"""
    return at + 3 <= len(data) and data[at] in tags and head(data, at)[1] == LENGTH[data[at]]


def many(number, things):
    """`1 byte`, `2 bytes`."""
    return f"{number} {things}" if number != 1 else f"1 {things[:-1]}"


def one_of(tags):
    """`a branch point (02), a sink (03) or the end (7F)`."""
    said = [f"{KIND[tag]} ({tag:02X})" for tag in tags]
    return " or ".join([", ".join(said[:-1]), said[-1]]) if len(said) > 1 else said[0]


class Field:
    """Where it begins and its bytes. Its tag is None where the bytes make none of the six; else its values by name, as far as they
    are there. Its number is that of the node or entry."""

    def __init__(self, at, data, tag):
        self.at, self.data, self.tag = at, data, tag
        self.faults, self.number = [], None
        self.values = dict(self.numbers()) if tag is not None else {}

    def numbers(self):
        at = 3
        for name, width in zip(NAMES[self.tag], BODY[self.tag]):
            at += width
            if at <= len(self.data):
                yield name, int.from_bytes(self.data[at - width:at], "big")

    def is_whole(self):
        return self.tag is not None and len(self.data) == size(self.tag)


class Reading:
    """The fields of a file; among them its limits, nodes (node 0 is None: the source has no field), count, entries and end.

    `whole` is the number of bytes of the file, where `data` are only its first: no refusal lies behind byte 36,872."""

    def __init__(self, data, placement, whole=None):
        self.data, self.placement, self.whole = data, placement, len(data) if whole is None else whole
        self.fields, self.nodes, self.entries = [], [None], []
        self.limits = self.count = self.end = None
        self.children = Counter()
        at = 0
        while at is not None:
            at = self.take(at)
        self.childless = list(self.without_child()) if self.end and not self.is_torn() else []

    def take(self, at):
        """Takes up the field at a byte. Gives where the next one begins, or None where there is no other."""
        fault = self.head_fault(at)
        field = self.field(at, fault)
        after = at + len(field.data)
        if fault:
            field.faults.append(fault)
        self.enter(field)
        if self.end:
            self.take_rest(after)
        over = self.end or (fault and (fault.number == 1 or after == len(self.data)))
        return None if over else after

    def due(self):
        """The tags that may come next (RULES 5.2)."""
        if not self.fields:
            return (COUNT,) if self.placement else (LIMITS,)
        if not self.placement:
            return BRANCH, SINK, END
        if self.count is None:
            return ENTRY, END
        return (ENTRY,) if len(self.entries) < self.count.values["count"] else (END,)

    def said_due(self):
        due = self.due()
        because = f", for the count is {self.count.values['count']}" if self.count and len(due) == 1 else ""
        return f"due is {one_of(due)}{because}"

    def head_fault(self, at):
        """1 or 2 of the field at a byte, by tests a, b and c of RULES 5.1, or None."""
        left = len(self.data) - at
        if left < 3:
            return self.cut(at, left)
        tag, length = head(self.data, at)
        if tag not in self.due():
            what = f"tag {tag:02X}, {KIND[tag]}, is not due" if tag in BODY else f"no such tag, {tag:02X}"
            return Fault(2, at, f"{what}; {self.said_due()}", ("3.4", "5.2"), ("tag",))
        if length != LENGTH[tag]:
            return Fault(2, at, f"length {length} of {KIND[tag]}, where {LENGTH[tag]} is due", ("3.4",), ("length",))
        return self.cut(at, left) if left < size(tag) else None

    def cut(self, at, left):
        if left == 0:
            return Fault(1, at, f"the file is over; {self.said_due()}", ("5.2",), ("rest",))
        tag = self.data[at]
        whole = f"{size(tag)} bytes of {KIND[tag]}" if tag in self.due() else "3 bytes of a field's tag and length"
        return Fault(1, at, f"cut after {left} of the {whole}", ("3.2", "3.4"), ("rest",))

    def field(self, at, fault):
        """The field at a byte. A damaged one has the bytes up to where the next plainly begins, or all that are left."""
        if fault and fault.number == 1:
            tag = self.data[at] if at < len(self.data) else None
            return Field(at, self.data[at:], tag if tag in self.due() else None)
        tag, length = head(self.data, at)
        if begins(self.data, at, BODY):
            return Field(at, self.data[at:at + size(tag)], tag)
        follow = (ENTRY, END) if self.placement else (BRANCH, SINK, END)
        tries = [*map(size, [tag] if tag in BODY else []), 3 + length, *map(size, self.due())]
        after = next((at + some for some in tries if begins(self.data, at + some, follow)), len(self.data))
        return Field(at, self.data[at:after], None)

    def enter(self, field):
        """Gives a field its place among the others, and judges its values where they are all there."""
        members = self.entries if self.placement else self.nodes
        skipped = field.tag is None and self.fields and field.at + len(field.data) < len(self.data)
        if field.tag in (BRANCH, SINK, ENTRY) or skipped:
            field.number = len(members)
        if field.is_whole():
            self.judge(field)
            self.keep(field)
        self.fields.append(field)
        if field.number is not None:
            members.append(field)

    def keep(self, field):
        if field.tag == LIMITS:
            self.limits = self.limits or field
        elif field.tag == COUNT:
            self.count = self.count or field
        elif field.tag == END:
            self.end = field
        elif "parent" in field.values:
            self.children[field.values["parent"]] += 1

    def judge(self, field):
        """3 and 4 of a field that is all there, by tests d and e of RULES 5.1."""
        values = dict(field.values, of=self.repeater())
        for name, will_do, words, rule in RANGES[field.tag]:
            if not will_do(values):
                field.faults.append(Fault(3, field.at, words.format(**values), (rule,), (name,)))
        if "parent" in values and not self.placement:
            why = self.parent_fault(field.number, values["parent"])
            if why:
                field.faults.append(Fault(4, field.at, *why))

    def parent_fault(self, node, parent):
        if node > MOST_NODES:
            return "one node too many: besides the source a net has at most 1,024", ("1.3",), ()
        if parent >= node:
            return f"its parent {parent} is no smaller number", ("1.5",), ("parent",)
        above = self.nodes[parent]
        if above and above.tag == SINK:
            return f"its parent {parent} is a sink (byte {above.at})", ("1.6",), ("parent",)
        if self.children[parent] >= MOST_CHILDREN:
            return f"its parent {parent} has eight children already", ("1.6",), ("parent",)
        return None

    def take_rest(self, at):
        """6: what stands behind the end field."""
        more = self.whole - at
        if more > 0:
            rest = Field(at, self.data[at:], None)
            rest.faults.append(Fault(6, at, f"{many(more, 'bytes')} after the end field", ("3.1",), ("rest",)))
            self.fields.append(rest)

    def is_torn(self):
        return any(fault.number in (1, 2) for field in self.fields for fault in field.faults)

    def without_child(self):
        """5 of each node without a child, from the lowest up."""
        for node, field in enumerate(self.nodes):
            if not self.children[node] and (field is None or field.tag == BRANCH) and not self.placement:
                yield node, Fault(5, node, "has no child", ("1.6",), ())

    def refusal(self):
        """The first fault, with its field (None for the source); all that is wrong there by the same number. Or None."""
        for field in self.fields:
            if field.faults:
                first = field.faults[0]
                same = [fault for fault in field.faults if fault.number == first.number]
                return Fault(first.number, first.place, "; ".join(fault.words for fault in same),
                             tuple(dict.fromkeys(rule for fault in same for rule in fault.rules)),
                             tuple(name for fault in same for name in fault.wrong)), field
        for node, fault in self.childless:
            return fault, self.nodes[node]
        return None

    def repeater(self):
        """The type that the limits say, or None."""
        return self.limits.values["type"] if self.limits else None

    def said(self, field):
        """What a field says, in the words of the readable twin."""
        if field.tag is None:
            kind = "entry" if self.placement else "node"
            return "" if field.number is None else f"{kind} {field.number}"
        values = dict(field.values, number=field.number)
        values["repeater"] = REPEATER.get(values.get("type"), f"type {values.get('type')}")
        sign = SIGN.get(values.get("polarity"), f"polarity {values.get('polarity')}")
        values["sign"] = "" if self.repeater() == 0 and values.get("polarity") == 0 else f", {sign}"
        return "".join(words.format(**values) for name, words in SAID[field.tag] if not name or name in field.values)
