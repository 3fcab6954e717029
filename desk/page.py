"""The page of the verb `explain`: a refusal, what is wrong in words, the bytes that it points at, the rules as docs/RULES.md has them."""
import functools
import pathlib
import re
import textwrap

from net_file import BODY
from reading import KIND, NAMES, REPEATER, SIGN, many
from streams import shown

WIDTH, ROW, AROUND = 100, 14, 2                  # columns of the page; bytes on a line; lines of bytes that are no field
RULES = pathlib.Path(__file__).resolve().parent.parent / "docs/RULES.md"


# ---------------------------------------------------------------- the rules' own words

def plain(text):
    """Without marks of the page's markup, in plain ASCII."""
    text = re.sub(r"\[([^]]*)\]\([^)]*\)", r"\1", " ".join(text.split()))
    return re.sub(r"[*`]", "", text).replace("\u00b7", "*").encode("ascii", "replace").decode()


@functools.cache
def rules_page():
    try:
        return RULES.read_text(encoding="utf-8")
    except (OSError, ValueError):
        return ""


def rules(number, paragraphs):
    """Pairs of a paragraph and its words: the refusal's row of 4.3, then these; without the words where the page is not there."""
    page = rules_page()
    row = re.search(rf"^\| {number} \| `\w+` \| (.*) \| (.*) \|$", page, re.M)
    yield "4.3", plain(f"{number}: {row[1]}. Its place: {row[2]}.") if row else ""
    for name in paragraphs:
        found = re.search(rf"^\*\*{re.escape(name)}\*\* (.*?)\n(?:\n|\Z)", page, re.M | re.S)
        # a last sentence that ends with a colon leads to a table
        yield name, re.sub(r"(?<=\.) [^.]*:$", "", plain(found[1])) if found else ""


def rule_lines(number, paragraphs):
    yield "The rule, in docs/RULES.md:"
    for name, words in rules(number, paragraphs):
        yield from textwrap.wrap(words, WIDTH, initial_indent=f"  {name:<6}", subsequent_indent=" " * 8) or [f"  {name}"]


# ---------------------------------------------------------------- bytes

def row(at, data, what, wrong=False):
    """The lines of some bytes: where they are, the bytes in hex, what they say."""
    front = f"{'>' if wrong else ' '} byte {at:<6}{data.hex(' ').upper():<{3 * ROW}}"
    first, *more = textwrap.wrap(what, WIDTH - len(front)) or [""]
    return [(front + first).rstrip(), *(" " * len(front) + line for line in more)]


def loose(field, wrong, more):
    """Bytes that are no field, the first of them."""
    for at in range(0, min(len(field.data), AROUND * ROW), ROW):
        yield from row(field.at + at, field.data[at:at + ROW], "", wrong)
    if more > AROUND * ROW:
        yield f"  .. and {many(more - AROUND * ROW, 'bytes')} more"


def parts(field, wrong):
    """A field number by number: tag, length, and each value with its name; what is wrong is marked."""
    yield from row(field.at, field.data[:1], f"tag: {KIND.get(field.data[0], 'none of the six')}", "tag" in wrong)
    if len(field.data) > 1:
        length = f"length: {int.from_bytes(field.data[1:3], 'big')}" if len(field.data) > 2 else "length: 1 of its 2 bytes"
        yield from row(field.at + 1, field.data[1:3], length, "length" in wrong)
    at = 3
    for name, width in zip(NAMES.get(field.tag, ()), BODY.get(field.tag, ())):
        data, names = field.data[at:at + width], {"type": REPEATER, "polarity": SIGN}.get(name, {})
        value = field.values.get(name)
        said = f"{name}: {value}" + (f", {names[value]}" if value in names else "")
        if data:
            yield from row(field.at + at, data, said if value is not None else f"{name}: {len(data)} of its {width} bytes", name in wrong)
        at += width


def fault_lines(reading, point):
    """The field at fault."""
    field, after = point.field, point.field.at + len(point.field.data)
    if field is reading.fields[-1] and reading.end and field.tag is None and reading.end.at < field.at:
        yield from loose(field, True, reading.whole - field.at)
        return
    if not point.wrong:
        yield from row(field.at, field.data, reading.said(field), True)
    elif field.data:
        yield from parts(field, point.wrong)
    if field.tag is None and len(field.data) > 3:
        rest = type(field)(field.at + 3, field.data[3:], None)
        yield from loose(rest, False, len(rest.data))
    if "rest" in point.wrong:
        yield from row(after, b"", "the file is over here", True)


def with_neighbours(reading, points):
    """The fields at fault in the order of the file; the first one named with the field before it and the one behind it."""
    wanted = {reading.fields.index(point.field): point for point in points}
    beside = {next(iter(wanted)) + step for step in (-1, 0, 1)} & set(range(len(reading.fields)))
    last = None
    for place in sorted(beside | set(wanted)):
        field = reading.fields[place]
        if last is not None and place > last + 1:
            yield "  .."
        last = place
        if place in wanted:
            yield from fault_lines(reading, wanted[place])
        elif field.tag is None:
            yield from loose(field, False, len(field.data))
        else:
            yield from row(field.at, field.data, reading.said(field))


def byte_lines(record, points):
    for role in dict.fromkeys(point.role for point in points):
        here = [point for point in points if point.role == role]
        yield ""
        yield f"{shown(record.names[role])}:"
        yield from with_neighbours(record.readings[role], here)


# ---------------------------------------------------------------- the page

def refused(record, refusal):
    found = record.finds(refusal)
    said = f"{shown(record.name(refusal))}: {found.words}"
    yield from textwrap.wrap(said, WIDTH, break_long_words=False, break_on_hyphens=False)
    yield from byte_lines(record, found.points)
    yield ""
    yield from rule_lines(refusal.number, found.rules)


def answered(record, word, count):
    """`legal N` or `least N`: what that means, and how full the fullest driver is."""
    net = (record.sound("net") or [None])[0]
    things = f"{REPEATER[net.repeater()]}s" if net else "repeaters"
    names = {role: shown(name) for role, name in record.names.items()}
    within = f"no driver drives more than C_U {net.limits.values['C_U']}" if net else "no driver drives more than C_U"
    forms = {"legal": "{placement} is a legal placement of {net}: {count}, and {within}.",
             "least": "The least legal placement of {net} has {count}: {within}, and none has fewer."}
    names = {"net": "the net", "placement": "the placement", **names}
    said = [forms[word].format(**names, count=many(count, things), within=within)]
    if record.drivers and len(record.drivers) == count + 1:
        said.append(fullest(record.drivers, net))
    for words in said:
        yield from textwrap.wrap(words, WIDTH, break_long_words=False, break_on_hyphens=False)


def fullest(drivers, net):
    load = max(driver.load for driver in drivers)
    place = next(place for place, driver in enumerate(drivers) if driver.load == load)
    driver = drivers[place]
    what = "the source" if driver.wire is None else f"entry {place} (wire {driver.wire} offset {driver.offset})"
    left = f", {net.limits.values['C_U'] - load} below C_U" if net and load <= net.limits.values["C_U"] else ""
    return f"No driver is fuller than {what}: it drives {load}{left}."


def lines(record, line, refusal):
    """The page for the first line that a verb printed."""
    yield shown(line)
    yield ""
    answer = re.fullmatch(r"(legal|least) ([0-9]{1,20})", line)
    if refusal and 1 <= refusal.number <= 13:
        yield from refused(record, refusal)
    elif answer:
        yield from answered(record, answer[1], int(answer[2]))
    else:
        yield "This is no answer and no refusal of docs/RULES.md."
