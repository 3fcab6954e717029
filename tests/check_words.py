"""check_words.py: what the desk's tools say of bytes, held to the reference: the readable twin and back, the words after a refusal,
the page of `explain`.

    python3 tests/check_words.py [HOW_MANY]

The stored damaged files, the nets of RULES section 9, and random nets and placements of both types, legal, near-legal, damaged. Every
number that is said is worked out again here, from the bytes and by reference.py; every byte that is shown is compared with the file's.
"""
import importlib.machinery
import importlib.util
import os
import pathlib
import random
import re
import subprocess
import sys
import tempfile
from collections import Counter, namedtuple

sys.dont_write_bytecode = True
import compare_references as compare
import make_damaged
import reference as ref
from reference import BRANCH, COUNT, END, ENTRY, LIMITS, SINK, Limits, Net, Placement

ROOT = pathlib.Path(__file__).resolve().parent.parent
DESK = ROOT / "desk"
RULES = re.sub(r"[*`]", "", " ".join((ROOT / "docs/RULES.md").read_text().replace("\u00b7", "*").split()))
SEED = 1113
NAMES = {1: ("a.net",), 2: ("a.net", "a.place"), 3: ("old.net", "new.net", "a.place")}
VALUES = {LIMITS: {"C_U": (3, 4), "C_b": (7, 4), "type": (11, 1)},
          BRANCH: {"parent": (3, 2), "wire": (5, 4)},
          SINK: {"parent": (3, 2), "wire": (5, 4), "pin": (9, 4), "polarity": (13, 1)},
          COUNT: {"count": (3, 2)}, ENTRY: {"wire": (3, 2), "offset": (5, 4)}, END: {}}
SAYS_WIRE = {"wire number": "wire"}
Case = namedtuple("Case", "verb files line loads")
seen = Counter()


class Wrong(Exception):
    pass


def hold(holds, *what):
    if not holds:
        raise Wrong(" | ".join(map(str, what)))


# ---------------------------------------------------------------- the tools, in this process

def loaded(name):
    loader = importlib.machinery.SourceFileLoader(f"desk_{name}", str(DESK / name))
    module = importlib.util.module_from_spec(importlib.util.spec_from_loader(loader.name, loader))
    loader.exec_module(module)
    return module


sys.path.insert(0, str(DESK))
explain, twin = loaded("explain"), loaded("twin")
told = []
explain.streams.tell = told.append
FOLDER = tempfile.TemporaryDirectory(dir="/dev/shm" if os.path.isdir("/dev/shm") else None)


def stored(name, data):
    path = os.path.join(FOLDER.name, name)
    with open(path, "wb") as file:
        file.write(data)
    return path


def said(case, *before):
    """The line of `words`, or the page of `show`, for a case."""
    told.clear()
    pairs = [word for name, data in zip(NAMES[len(case.files)], case.files)
             for word in (name, "" if data is None else stored(name, data))]
    out = explain.answer([*before, case.line, stored("loads", case.loads.encode()) if case.loads else "", *pairs])
    hold(all("\n" not in line for line in told), "more than one line", told)
    return told[0] if told else out.decode()


# ---------------------------------------------------------------- what a verb prints, by the reference

def named(word, read, data):
    try:
        return read(data)
    except ref.Refused as refusal:
        raise ref.Refused(refusal.number, refusal.place, word) from None


def loads_text(net, placement):
    drives, source = ref.loads(net, placement)
    return "".join(f"wire {w} offset {o} drives {load}\n" for w, o, load in zip(*placement, drives)) + f"source drives {source}\n"


def solved(data):
    net = named("", ref.read_net, data)
    least = ref.least_frontier(net)
    if least is None:
        raise ref.Refused(8, 0)
    return f"least {least}"


def checked(net_data, placement_data):
    net = named("net ", ref.read_net, net_data)
    return f"legal {ref.check(net, named('placement ', ref.read_placement, placement_data))[0]}"


def carried(first, second, placement_data):
    first, second = named("first net ", ref.read_net, first), named("second net ", ref.read_net, second)
    placement = named("placement ", ref.read_placement, placement_data)
    return f"carried {len(ref.carry(first, second, placement).wire)}"


def finished(net_data, placement_data):
    net = named("net ", ref.read_net, net_data)
    return f"added {ref.finish_judged(net, *named('placement ', ref.read_placement, placement_data))}"


VERBS = {"solve": solved, "check": checked, "carry": carried, "finish": finished}


def case_of(verb, *files):
    """The files with the line that the verb prints, and the list of loads where there is one."""
    try:
        line = VERBS[verb](*files)
    except ref.Refused as refusal:
        line = f"{refusal.net or ''}refused {refusal.number} place {refusal.place}"
    loads = ""
    if " 11 " in line or line.startswith("legal"):
        loads = loads_text(ref.read_net(files[0]), ref.read_placement(files[-1]))
    return Case(verb, files, line, loads)


# ---------------------------------------------------------------- bytes, read once more

def number(data, at, width):
    return int.from_bytes(data[at:at + width], "big")


def values_at(data, at):
    return {name: number(data, at + place, width) for name, (place, width) in VALUES[data[at]].items()}


def before(data, place):
    """(byte, tag) of the fields before a place that the reader reached."""
    at, found = 0, []
    while at < place:
        found.append((at, data[at]))
        at += 3 + ref.LENGTH[data[at]]
    hold(at == place, "no field begins at", place)
    return found


def member(data, place):
    """The number that a node or an entry at this byte has."""
    return sum(tag in (BRANCH, SINK, ENTRY) for _, tag in before(data, place)) + (data[0] == LIMITS)


def node_byte(data, node):
    return 12 + sum(14 if tag == SINK else 9 for _, tag in before_node(data, node))


def before_node(data, node):
    at, found = 12, []
    while len(found) < node - 1:
        found.append((at, data[at]))
        at += 3 + ref.LENGTH[data[at]]
    return found


def due_at(data, place, is_placement):
    if place == 0:
        return {COUNT} if is_placement else {LIMITS}
    if not is_placement:
        return {BRANCH, SINK, END}
    return {ENTRY} if member(data, place) < number(data, 3, 2) else {END}


def tags_in(words):
    return {int(tag, 16) for tag in re.findall(r"\(([0-9A-F]{2})\)", words)}


def out_of_range(data, place):
    """The names of the values of a field that are out of their range, from RULES 1.4, 1.7, 1.9, 1.10 and 3.9."""
    v = values_at(data, place)
    if data[place] == LIMITS:
        tests = {"C_U": 1 <= v["C_U"] <= ref.MOST_LIMIT, "C_b": v["C_b"] * 2 < v["C_U"], "type": v["type"] in (0, 1)}
    elif data[place] == COUNT:
        tests = {"count": v["count"] <= ref.MOST_ENTRIES}
    elif data[place] == ENTRY:
        tests = {"wire": 1 <= v["wire"] <= ref.MOST_NODES, "offset": v["offset"] <= ref.MOST_WIRE}
    else:
        tests = {"wire": v["wire"] <= ref.MOST_WIRE, "pin": v.get("pin", 0) <= ref.MOST_PIN,
                 "polarity": v.get("polarity", 0) <= (data[11] == 1)}
    return {name for name, holds in tests.items() if not holds}


# ---------------------------------------------------------------- the words for a file by itself

def words_1(words, data, place, is_placement):
    left = len(data) - place
    if left == 0:
        hold(re.fullmatch(rf"byte {place}: the file is over; due is .*", words), words)
        return hold(tags_in(words) == due_at(data, place, is_placement), words)
    found = re.fullmatch(rf"byte {place}(?:, (?:node|entry) (\d+))?: cut after (\d+) of the (\d+) bytes of .*", words)
    due = data[place] in due_at(data, place, is_placement)
    hold(found and int(found[2]) == left and int(found[3]) == (3 + ref.LENGTH[data[place]] if due else 3), words)
    is_member = due and data[place] in (BRANCH, SINK, ENTRY)
    return hold(found[1] == (str(member(data, place)) if is_member else None), words)


def words_2(words, data, place, is_placement):
    due = due_at(data, place, is_placement)
    if data[place] in due:
        length = number(data, place + 1, 2)
        return hold(re.fullmatch(rf"byte {place}: length {length} of .*, where {ref.LENGTH[data[place]]} is due", words), words)
    what = rf"tag {data[place]:02X}, .*, is not due" if data[place] in ref.LENGTH else rf"no such tag, {data[place]:02X}"
    hold(re.fullmatch(rf"byte {place}: {what}; due is .*", words), words)
    count = re.findall(r"for the count is (\d+)", words)
    hold(count == ([str(number(data, 3, 2))] if is_placement and place else []), words)
    return hold(tags_in(words) == due, words)


def words_3(words, data, place, is_placement):
    where, _, rest = words.partition(": ")
    is_member = data[place] in (BRANCH, SINK, ENTRY)
    hold(where == f"byte {place}" + (f", {'entry' if is_placement else 'node'} {member(data, place)}" if is_member else ""), words)
    claims = [re.match(r"(C_U|C_b|type|wire number|wire|pin|polarity|count|offset) (\d+) ", clause) for clause in rest.split("; ")]
    hold(all(claims), words)
    values = {SAYS_WIRE.get(claim[1], claim[1]): int(claim[2]) for claim in claims}
    hold(set(values) == out_of_range(data, place) and values.items() <= values_at(data, place).items(), words)
    seen.update((3, data[place], name) for name in values)


def words_4(words, data, place, _):
    node, parent = member(data, place), number(data, place + 3, 2)
    nodes = [(0, BRANCH)] + [(at, tag) for at, tag in before(data, place) if tag in (BRANCH, SINK)]
    if node > ref.MOST_NODES:
        why = "one node too many: besides the source a net has at most 1,024"
    elif parent >= node:
        why = f"its parent {parent} is no smaller number"
    elif nodes[parent][1] == SINK:
        why = f"its parent {parent} is a sink (byte {nodes[parent][0]})"
    else:
        hold(sum(number(data, at + 3, 2) == parent for at, _ in nodes[1:]) == 8, words)
        why = f"its parent {parent} has eight children already"
    hold(words == f"byte {place}, node {node}: {why}", words)
    seen[4, re.sub(r"\d+", "#", why)] += 1


def words_5(words, data, place, _):
    what = f"node {place} (a branch point, byte {node_byte(data, place)})" if place else "the source (node 0, which has no field)"
    hold(words == f"{what} has no child", words)
    seen[5, "node" if place else "source"] += 1


def words_6(words, data, place, _):
    more = len(data) - place
    hold(words == f"byte {place}: {more} byte{'s' * (more > 1)} after the end field", words)


# ---------------------------------------------------------------- the words for a net or a placement on it

def subtree(net, root):
    """What hangs under a node, as a net of its own: the columns, and the new number of each node."""
    new = {root: 0}
    for node in range(1, len(net.parent)):
        if net.parent[node] in new and node != root:
            new[node] = len(new)
    nodes = [(new[net.parent[node]], *(column[node] for column in net[2:])) for node in new if node != root]
    columns = [list(column) for column in zip((0, 0, 0, 0, 0), *nodes)]
    return Net(net.limits, *columns), new


def possible(net, limit, given):
    net = net._replace(limits=net.limits._replace(limit=limit))
    return (ref.least_frontier(net) if given is None else ref.least_added(net, given)) is not None


def words_8(words, case):
    net = ref.read_net(case.files[0])
    given = ref.read_placement(case.files[1]) if case.verb == "finish" else None
    front = "no placement is legal: " if given is None else "no legal placement has all the given entries: "
    hold(words.startswith(front), words)
    if sink := re.fullmatch(r"sink (\d+) \(byte (\d+)\) has a pin of (\d+), (\d+) over C_U (\d+)", words[len(front):]):
        node, at, load, excess, limit = map(int, sink.groups())
        hold(net.kind[node] == 1 and net.pin[node] == load and at == node_byte(case.files[0], node), words)
    else:
        found = re.fullmatch(r"the wires under (?:the source|node (\d+) \(byte (\d+)\)) hand up (\d+) at least, (\d+) over C_U (\d+)",
                             words[len(front):])
        hold(found, words)
        node, at, load, excess, limit = (int(word or 0) for word in found.groups())
        hold(node == 0 or at == node_byte(case.files[0], node), words)
        part, new = subtree(net, node)
        if given is not None:
            kept = [(new[wire], offset) for wire, offset in zip(*given) if new.get(wire)]
            given = Placement([wire for wire, _ in kept], [offset for _, offset in kept])
        hold(possible(part, load, given) and not possible(part, load - 1, given), words)
    hold(limit == net.limits.limit and excess == load - limit > 0, words)
    seen[8, "pin" if sink else "node" if node else "source", net.limits.type] += 1


def entry_words(data, place):
    """`entry K (wire W offset O, byte B)`."""
    at = 5 + 9 * place
    return f"entry {place} (wire {number(data, at + 3, 2)} offset {number(data, at + 5, 4)}, byte {at})"


def words_10(words, case, place):
    net, placement = ref.read_net(case.files[0]), ref.read_placement(case.files[-1])
    wire, offset, last = placement.wire[place], placement.offset[place], len(net.parent) - 1
    front = entry_words(case.files[-1], place)
    if wire > last:
        due, kind = f"is on no wire: the net has {f'wires 1 to {last}' if last > 1 else 'wire 1 alone'}", "no wire"
    elif offset > net.wire[wire]:
        due, kind = f"is past its wire's end by {offset - net.wire[wire]}: wire {wire} has size {net.wire[wire]}", "past"
    else:
        hold((wire, offset) < (placement.wire[place - 1], placement.offset[place - 1]), words)
        due, kind = f"is out of order: it comes after {entry_words(case.files[-1], place - 1)}", "order"
    hold(words == f"{front} {due}", words)
    seen[10, kind] += 1


def words_11(words, case, place):
    net, placement = ref.read_net(case.files[0]), ref.read_placement(case.files[-1])
    limit = net.limits.limit
    front = entry_words(case.files[-1], place) if place < len(placement.wire) else "the source"
    if not case.loads:
        return hold(words == f"{front} drives more than C_U {limit}", words)
    drives, source = ref.loads(net, placement)
    load = [*drives, source][place]
    seen[11, "source" if place == len(drives) else "entry"] += 1
    return hold(load > limit and words == f"{front} drives {load}, {load - limit} over C_U {limit}", words)


def words_12(words, case, place):
    net, placement = ref.read_net(case.files[0]), ref.read_placement(case.files[-1])
    lowest, parts, sums = net.kind.index(1), [], []
    for sink in (place, lowest):
        wires, node = [], sink
        while node:
            wires, node = [*wires, node], net.parent[node]
        above = sum(wire in wires for wire in placement.wire)
        hold((above + net.polarity[sink]) % 2 == ref.sink_parity(net, placement, sink), words)
        sums.append(above + net.polarity[sink])
        parts.append(f"({('plus', 'minus')[net.polarity[sink]]}, byte {node_byte(case.files[0], sink)} of the net, "
                     f"{above} inverter{'s' * (above != 1)} above it)")
    due = f"sink {place} {parts[0]} disagrees with sink {lowest}, the lowest {parts[1]}: sums {sums[0]} and {sums[1]}"
    hold(words == due and (sums[0] - sums[1]) % 2, words, due)


def words_13(words, case, place):
    first, second = map(ref.read_net, case.files[:2])
    front = f"node {place} (byte {node_byte(case.files[1], place)}): " if place else ""
    hold(words.startswith(front), words)
    due = set(worse_node(first, second, place) if place else worse_limits(first, second))
    hold(set(words[len(front):].split("; ")) == due, words, due)
    seen.update((13, re.sub(r"\d+", "#", clause)) for clause in due)


def worse_limits(first, second):
    a, b, kinds = first.limits, second.limits, ("buffer", "inverter")
    if b.limit < a.limit:
        yield f"C_U fell from {a.limit} to {b.limit}"
    if b.pin > a.pin:
        yield f"C_b grew from {a.pin} to {b.pin}"
    if b.type != a.type:
        yield f"the type changed from {kinds[a.type]} to {kinds[b.type]}"
    if len(first.kind) != len(second.kind):
        nodes = len(second.kind) - 1
        yield f"{nodes} node{'s' * (nodes > 1)} besides the source, where the first net has {len(first.kind) - 1}"


def worse_node(first, second, node):
    a, b = ([column[node] for column in net[1:]] for net in (first, second))
    if a[0] != b[0]:
        yield f"its parent changed from {a[0]} to {b[0]}"
    if b[1] > a[1]:
        yield f"its wire grew from {a[1]} to {b[1]}"
    if a[2] != b[2]:
        yield "a branch point became a sink" if b[2] else "a sink became a branch point"
        return
    if b[3] > a[3]:
        yield f"its pin grew from {a[3]} to {b[3]}"
    if a[4] != b[4]:
        yield f"its polarity changed from {('plus', 'minus')[a[4]]} to {('plus', 'minus')[b[4]]}"


FILE_WORDS = {1: words_1, 2: words_2, 3: words_3, 4: words_4, 5: words_5, 6: words_6}
PAIR_WORDS = {10: words_10, 11: words_11, 12: words_12, 13: words_13}


def parsed(case):
    """Which file a refusal is of (its place among the case's), whether that is a placement, its number and its place."""
    found = re.fullmatch(r"(first net |second net |net |placement |)refused (\d+) place (\d+)", case.line)
    if not found:
        return None
    refused, place = int(found[2]), int(found[3])
    last = len(case.files) - 1
    by_number = {10: last, 11: last, 12: last, 13: min(1, last)}
    of = {"first net ": 0, "net ": 0, "second net ": 1, "placement ": last}.get(found[1], by_number.get(refused, 0))
    return of, of == last > 0, refused, place


def check_words(case):
    """The line after a refusal: the file at fault, and every number that is said. What comes behind the file's name."""
    line, refusal = said(case, "words", case.verb), parsed(case)
    if not refusal:
        return hold(line == "", line)
    of, is_placement, refused, place = refusal
    name = NAMES[len(case.files)][of]
    hold(line.startswith(f"{name}: "), line)
    words = line[len(name) + 2:]
    seen[refused] += 1
    if case.verb == "finish" and case.line == "refused 3 place 0":
        hold(case.files[0][11] == 1 and words == "the net is of inverters (type 1, byte 11), and finish takes buffers alone", words)
    elif refused in FILE_WORDS:
        FILE_WORDS[refused](words, case.files[of], place, is_placement)
    elif refused == 8:
        words_8(words, case)
    elif refused in PAIR_WORDS:
        PAIR_WORDS[refused](words, case, place)
    return words


# ---------------------------------------------------------------- what is said of a field's bytes

FORMS = {LIMITS: "limits: C_U {C_U}, C_b {C_b}, {kind}", BRANCH: "node {node} under {parent}: wire {wire}, branch point",
         SINK: "node {node} under {parent}: wire {wire}, sink, pin {pin}{sign}", COUNT: "count: {count}",
         ENTRY: "entry {node}: wire {wire}, offset {offset}", END: "end"}


def described(data, at, node):
    """What the readable twin says of a sound field, with its number where it is a node or an entry."""
    v = values_at(data, at)
    sign = ", " + ("minus" if v.get("polarity") else "plus") if data[0] == LIMITS and data[11] == 1 else ""
    kind = {0: "buffer", 1: "inverter"}.get(v.get("type"))
    return FORMS[data[at]].format(**v, node=node, sign=sign, kind=kind)


def refusal_of(data, is_placement):
    try:
        (ref.read_placement if is_placement else ref.read_net)(data)
    except ref.Refused as refusal:
        return refusal.number, refusal.place
    return None, None


def is_childless(data, at):
    """Is no node of the file under the one whose field is at a byte, or at the end field under the source?"""
    node, place, parents = 0 if data[at] == END else member(data, at), 12, set()
    while data[place] != END:
        parents.add(number(data, place + 3, 2))
        place += 3 + ref.LENGTH[data[place]]
    return node not in parents


def check_twin(data, is_placement):
    """The twin gives the bytes back, says what each field says, and marks what is wrong where it is."""
    path = stored("x", data)
    text = twin.answer(["text", path]).decode()
    title, *rows = text.splitlines()
    hold(title == "# x" and twin.answer(["file", stored("x.hex", text.encode())]) == data, "the way back", data.hex())
    refused, place = refusal_of(data, is_placement)
    hold(("wrong: " in text) == (refused is not None), text)
    at, node = 0, 0 if is_placement else 1
    childless = (node_byte(data, place) if place else len(data) - 3) if refused == 5 else None
    for row in rows:
        bytes_here, _, comment = row.partition("#")
        here = bytes.fromhex(bytes_here)
        hold(data[at:at + len(here)] == here and len(bytes_here) == 42, row)
        if refused is None or refused == 5 or at < place:
            hold(comment.split("; wrong: ")[0] == " " + described(data, at, node), row)
            node += data[at] in (BRANCH, SINK, ENTRY)
            hold(at != childless or "has no child" in comment, row)
            hold("wrong" not in comment or ("has no child" in comment and is_childless(data, at)), row)
        elif at == place:
            hold("wrong: " in comment, row)
        at += len(here)
    hold(at == len(data), "not every byte", text)


def check_row(row, data):
    """A row of the page; gives whether it is marked, and its bytes' range."""
    at, here, what = int(row[7:13]), bytes.fromhex(row[13:55]), row[55:].strip()
    hold(data[at:at + len(here)] == here, "bytes", row)
    if len(here) < 5 and (part := re.fullmatch(r"(C_U|C_b|type|parent|wire|pin|polarity|count|offset|length): (\d+)(?:, (\w+))?", what)):
        hold(int.from_bytes(here, "big") == int(part[2]), "value", row)
        names = {"type": ("buffer", "inverter"), "polarity": ("plus", "minus")}.get(part[1])
        hold(part[3] == (names[int(part[2])] if names and int(part[2]) < 2 else None), "value's name", row)
    elif re.match(r"(node|entry) \d|limits|end\b|count", what) and len(here) > 2:
        seen["described"] += 1
        return row[0] == ">", at, len(here), (at, what)
    return row[0] == ">", at, len(here), None


def check_described(page, data, refusal):
    """Whole fields before the place at fault are described as the twin does."""
    of_file, place = refusal
    for at, what in page:
        if place is None or at < place or not of_file:
            due = described(data, at, member(data, at))
            hold(what == due, what, due)


def check_page(case, words):
    """The page of `explain`: the refusal, the words, every byte that is shown, the rules as docs/RULES.md has them."""
    page = said(case, "show")
    hold(page.isascii() and max(map(len, page.splitlines())) <= 100, "width", page)
    (of, _, refused, place), names = parsed(case), NAMES[len(case.files)]
    head, _, rules = page.partition("\nThe rule, in docs/RULES.md:\n")
    line, _, rest = head.partition("\n\n")
    hold(line == case.line and " ".join(rest.split("\n\n")[0].split()) == f"{names[of]}: {words}", page)
    file, marked = None, []
    for row in re.sub(r"\n {55}(?=\S)", " ", rest).splitlines():
        if row.rstrip(":") in names:
            file = names.index(row.rstrip(":"))
        elif re.match(r"[ >] byte \d", row):
            mark, at, length, field = check_row(row, case.files[file])
            marked += [(file, at)] if mark else []
            own = refused < 7 and file == of
            check_described([field] if field else [], case.files[file], (own, place if own and refused != 5 else None))
    hold(bool(marked) == (refused not in (7, 9)), "marks", page)
    if refused in (1, 2, 3, 4, 6):
        hold(all(file == of and place <= at < place + (28 if refused == 6 else 14) for file, at in marked), "marks", page)
    check_rules(rules, refused)


def check_rules(rules, refused):
    entries = re.split(r"^  (?=\d)", rules, flags=re.M)[1:]
    hold(entries[0].startswith(f"4.3   {refused}: "), rules)
    for entry in entries[1:]:
        name, text = entry.split(None, 1)
        hold(f"{name} {' '.join(text.split())}" in RULES and len(text) > 20, "no such rule", entry)
    row = re.sub(r" Its place: .*", "", " ".join(entries[0].split()[2:])).rstrip(".")
    hold(f"| {row} |" in RULES, "not the row of 4.3", row)


# ---------------------------------------------------------------- cases

def stored_cases():
    for name, (make, _, _) in make_damaged.SETS.items():
        for _, data in make_damaged.unlike(make()):
            yield name.startswith("placement"), data


ANY_NET = ref.net_bytes(compare.TABLE[2][0])
EMPTY = ref.placement_bytes(Placement([], []))


def file_cases():
    """Each stored file as the one that is at fault: as a placement, a net, either net of a carry in turn."""
    for place, (is_placement, data) in enumerate(stored_cases()):
        if is_placement:
            yield case_of("check", ANY_NET, data)
        elif refusal_of(data, False)[0] is not None:
            yield case_of(*(("solve", data), ("carry", data, ANY_NET, EMPTY), ("carry", ANY_NET, data, EMPTY))[place % 3])


def spoiled(chance, net):
    """A net that hardly eases another: one thing changed for the worse."""
    columns, limits = [list(column) for column in net[1:]], net.limits
    node, how = chance.randrange(1, len(net.parent)), chance.randrange(8)
    if how == 0:
        limits = limits._replace(pin=limits.pin + 1)
    elif how == 1:
        limits = Limits(limits.limit - 1, limits.pin, 1 - limits.type)
    elif how == 2:
        columns[0][node] = chance.randrange(node)
        columns[1][node] += chance.randrange(2)
    elif how == 3:
        for column, value in zip(columns, (0, 3, 1, 2, 0)):
            column.append(value)
    elif how == 4:
        columns[2] = [0, *[1 - kind for kind in columns[2][1:]]]
    else:
        columns[1][node] += chance.randrange(2)
        columns[3][node] += columns[2][node]
        columns[4][node] ^= chance.randrange(2) & columns[2][node] & limits.type
    return Net(limits, *columns)


# Node 1 is a branch point in one and a sink in the other; the last node hangs under node 1 and under the source.
CHAIN, STAR = compare.net([compare.branch(0, 5), compare.sink(1, 5, 2)]), compare.net([compare.sink(0, 5, 2), compare.sink(0, 5, 2)])
HERE, THERE = (compare.net([compare.branch(0, 5), compare.sink(1, 5, 2), compare.sink(last, 5, 2)]) for last in (1, 0))
# Six sinks under node 1: too much at either polarity, in the last net because of the polarities alone.
CROWDED = [compare.net([compare.branch(0, 3), *[compare.sink(1, 0, 3)] * 6], kind=kind) for kind in (0, 1)]
CROWDED.append(compare.net([compare.branch(0, 3), *[compare.sink(1, 0, 0, place % 2) for place in range(6)]], 10, 4, 1))


def random_cases(chance, many):
    for _ in range(many):
        small, light = compare.random_net(chance, 3, 9, 2, 6), compare.random_net(chance, 7, 60, 6, 4)
        placement, given = compare.random_placement(chance, light), compare.random_given(chance, small)
        net_data, placement_data = ref.net_bytes(light), ref.placement_bytes(placement)
        seed = chance.randrange(1 << 30)
        _, bad_net = next(make_damaged.changed([net_data], seed, 1))
        _, bad_placement = next(make_damaged.changed([placement_data], seed, 1))
        for net in (small, compare.random_net(chance, 8, 9, 2, 3)):
            yield case_of("solve", ref.net_bytes(net))
        yield case_of("check", net_data, placement_data)
        yield case_of("check", bad_net, placement_data)
        yield case_of("check", net_data, bad_placement)
        yield case_of("carry", net_data, ref.net_bytes(compare.eased(chance, light)), placement_data)
        yield case_of("carry", net_data, ref.net_bytes(spoiled(chance, light)), placement_data)
        yield case_of("finish", ref.net_bytes(small), ref.placement_bytes(given))
        heavy = compare.as_buffers(compare.random_net(chance, 12, 12, 30, 8))
        yield case_of("finish", ref.net_bytes(heavy), ref.placement_bytes(compare.random_given(chance, heavy)))


def known_cases():
    for net in (*(net for net, _ in compare.TABLE), *CROWDED):
        yield case_of("solve", ref.net_bytes(net))
        yield case_of("finish", ref.net_bytes(net), EMPTY)
    for net, given, _ in compare.HALVES:
        yield case_of("finish", ref.net_bytes(net), ref.placement_bytes(Placement([w for w, _ in given], [o for _, o in given])))
    yield case_of("solve", ANY_NET + bytes(100_000))
    for pair in ((CHAIN, STAR), (STAR, CHAIN), (HERE, THERE)):
        yield case_of("carry", *map(ref.net_bytes, pair), EMPTY)


# ---------------------------------------------------------------- answers, and lines that are of other bytes

def check_answer(case):
    """`legal N` and `least N`: the counts, C_U, and the fullest driver."""
    page = " ".join(said(case, "show").split())
    net = ref.read_net(case.files[0])
    hold(page.startswith(case.line) and f"C_U {net.limits.limit}" in page, page)
    hold(f" {case.line.split()[1]} {('buffer', 'inverter')[net.limits.type]}" in page, page)
    if case.loads:
        drives, source = ref.loads(net, ref.read_placement(case.files[-1]))
        most = max([*drives, source])
        place = [*drives, source].index(most)
        entries = [f"entry {k} (wire {w} offset {o})" for k, (w, o) in enumerate(zip(*ref.read_placement(case.files[-1])))]
        fullest = [*entries, "the source"][place]
        hold(f"No driver is fuller than {fullest}: it drives {most}, {net.limits.limit - most} below C_U." in page, page)
    seen[case.line.split()[0]] += 1


def check_stranger(case):
    """A line that may not be of these bytes: nothing breaks, and what is said beyond the line itself is true of the bytes."""
    words, page, refusal = said(case, "words", case.verb), said(case, "show"), parsed(case)
    hold(page.endswith("\n"), page)
    bare = said(case._replace(files=(None,) * len(case.files), loads=""), "words", case.verb)
    hold(bool(words) == bool(bare), words)
    if words == bare or None in case.files:
        return
    of, is_placement, refused, place = refusal
    if refused in PAIR_WORDS:
        PAIR_WORDS[refused](words.partition(": ")[2], case, place)
    else:
        own = case.verb == "finish" and case.line == "refused 3 place 0" and case.files[0][11] == 1
        hold(refused == 8 or own or refusal_of(case.files[of], is_placement) == (refused, place), words)
    seen["strangers' words"] += 1


def strangers(chance, cases):
    lines = [case.line for case in cases]
    words = ("net ", "first net ", "second net ", "placement ", "", "", "refused ", "\x1b[31m", "legal ", "\u0663")
    for case in cases:
        yield case._replace(line=chance.choice(lines))
        place = chance.choice((0, 1, 5, 12, 14, 99, 10 ** 19, 10 ** 30))
        yield case._replace(line=f"{chance.choice(words)}refused {chance.randrange(16)} place {place}")
        junk = tuple(chance.choice((data, None, chance.randbytes(chance.randrange(60)))) for data in case.files)
        yield case._replace(files=junk)


def pair_strangers(chance, many):
    """Sound files with a line of 10 to 13 at a place of chance: few of the lines are true."""
    for _ in range(many):
        net = compare.random_net(chance, 7, 60, 6, 4)
        given = compare.random_given(chance, net)
        second = ref.net_bytes(spoiled(chance, net))
        files = ref.net_bytes(net), *([second] if refusal_of(second, False)[0] is None else []), ref.placement_bytes(given)
        lines = [(refused, chance.randrange(6)) for refused in (10, 11, 13)[:len(files)]]
        for refused, place in lines + [(12, node) for node in range(len(net.kind)) if net.kind[node]]:
            yield Case("check", files, f"refused {refused} place {place}", loads_text(net, given))
        yield Case("finish", (files[0], files[-1]), f"refused {chance.randrange(1, 7)} place {chance.choice((0, 12))}", "")


def check_strangers(chance, cases):
    for case in [*strangers(chance, cases), *pair_strangers(chance, 100)]:
        try:
            check_stranger(case)
        except Exception as why:
            sys.exit(f"{case}: {type(why).__name__}: {why}")


def check_bare():
    """No bytes at hand: the refusal's own numbers, and where an entry begins."""
    for refused in range(1, 14):
        for place in (0, 7, 5000):
            case = Case("check", (None,) * (3 if refused == 13 else 2), f"refused {refused} place {place}", "")
            line = said(case, "words", "check")
            hold(line.startswith(NAMES[len(case.files)][parsed(case)[0]] + ": "), line)
            due = {str(place), str(5 + 9 * place), "4,096"} if refused in (9, 10) else {str(place)}
            hold(set(re.findall(r"[\d,]*\d", line)) - {str(refused)} <= due, line)
            hold(refused != 10 or f"entry {place} (byte {5 + 9 * place})" in line, line)


def check_reading_on(chance):
    """Behind one damaged field the twin says what it says of the sound file."""
    for _ in range(60):
        data = ref.net_bytes(compare.random_net(chance, 7, 60, 6, 4))
        fields = before(data, len(data) - 3)[1:]
        place = chance.randrange(len(fields))
        damaged = bytearray(data)
        damaged[fields[place][0] + chance.choice((0, 2))] ^= 0x40
        sound, torn = (twin.answer(["text", stored("x", bytes(some))]).decode().splitlines()[1:] for some in (data, damaged))
        hold(len(sound) == len(torn), "\n".join(torn))
        differ = [number for number, rows in enumerate(zip(sound, torn)) if rows[0] != rows[1]]
        hold(differ == [place + 1] and f"node {place + 1}; wrong: " in torn[place + 1], "\n".join(torn))


# ---------------------------------------------------------------- the tools as processes

def run(*words, stdin=b"", closed=(), stdout=subprocess.PIPE, pipe=None):
    given = {"input": stdin} if pipe is None else {"stdin": pipe}
    done = subprocess.run([DESK / words[0], *words[1:]], stdout=stdout, stderr=subprocess.PIPE, timeout=60,
                          preexec_fn=lambda: [os.close(number) for number in closed], **given)
    return done.returncode, done.stdout or b"", done.stderr


def fails(done, *words):
    status, out, err = done
    one = re.fullmatch(rb"mustorgyel: [^\n]+\n", err)
    hold(status == 2 and not out and one and all(word in err for word in words), done, words)


def check_twin_processes(chance):
    folder = pathlib.Path(FOLDER.name)
    for data in (b"", ANY_NET, ANY_NET[:-1], chance.randbytes(100_000), bytes(range(256))):
        status, text, err = run("twin", "text", "-", stdin=data)
        hold((status, err) == (0, b"") and text.startswith(b"# standard input\n"), status, err)
        hold(run("twin", "file", "-", stdin=text) == (0, data, b""), "the way back")
    odd = os.fsencode(folder) + b"/-a\n\\\xff.net"
    pathlib.Path(os.fsdecode(odd)).write_bytes(ANY_NET)
    status, text, _ = run("twin", "text", odd)
    hold(status == 0 and text.startswith(b"# -a\\012\\134\xff.net\n01 00 09"), text)
    hold(run("twin", "file", "-", stdin=text)[1] == ANY_NET, text)
    hold(run("twin", "file", "-", stdin=b"0102 #x\r\n\r\n\t0a0B\r\n# \xff")[1] == b"\1\2\x0a\x0b", "blanks")
    fails(run("twin", "text", folder / "none.net"), b"none.net: no such file")
    fails(run("twin", "text", ""), b"no such file")
    fails(run("twin", "file", folder), b"folder")
    fails(run("twin", "text", "/proc/self/mem"), b"read")
    fails(run("twin", "text", "-", closed=[0]), b"standard input")
    read, write = os.pipe()
    os.set_blocking(read, False)
    os.write(write, ANY_NET[:20])
    fails(run("twin", "text", "-", pipe=read), b"standard input", b"read")
    os.close(read)
    os.close(write)
    fails(run("twin", "text"), b"text FILE")
    for text, place in ((b"01 0", b"line 1, column 4"), (b"# a\n01 0g", b"line 2, column 4"), (b"0\n1", b"line 1, column 1"),
                        (b"01\n\n \xff", b"line 3, column 2"), (b"01 2 3", b"line 1, column 4"), ("0\u0661".encode(), b"line 1, column 1")):
        fails(run("twin", "file", "-", stdin=text), place)


def check_outputs():
    """Standard output that cannot be written: full, closed, its reader gone; and a standard error that is closed."""
    path = stored("a.net", ANY_NET)
    uses = ("twin", "text", path), ("explain", "show", "refused 8 place 0", "", "a.net", path)
    for use in uses:
        with open("/dev/full", "wb") as full:
            fails(run(*use, stdout=full), b"standard output")
        fails(run(*use, closed=[1]), b"standard output")
        read, write = os.pipe()
        os.close(read)
        fails(run(*use, stdout=write), b"standard output")
        os.close(write)
    hold(run("twin", "text", path, closed=[2])[0] == 0, "closed standard error")
    hold(run("twin", "text", "none", closed=[2])[0] == 2, "closed standard error")


def check_explain_processes():
    high = ref.placement_bytes(Placement([1], [7]))
    pairs = "over.place", stored("p", high)
    loads = stored("l", b"wire 1 offset 7 drives 11\nsource drives 9\n")
    net = "a.net", stored("n", ANY_NET)
    words = "explain", "words", "check", "refused 11 place 0"
    line = b"over.place: entry 0 (wire 1 offset 7, byte 5) drives 11, 1 over C_U 10\n"
    hold(run(*words, loads, *net, *pairs) == (0, b"", line), "the design's example")
    margins = stored("m", b"worst wire 1 offset 7 margin -1\nwire 1 offset 7 drives 11 margin -1\nsource drives 9 margin 1\n")
    hold(run(*words, margins, *net, *pairs)[2] == line, "loads with margins")
    for other in ("", stored("o", b"wire 1 offset 6 drives 12\nsource drives 9\n")):
        hold(run(*words, other, *net, *pairs)[2] == b"over.place: entry 0 (wire 1 offset 7, byte 5) drives more than C_U 10\n", other)
    hold(run(*words, "", *net, "-", "")[2].startswith(b"standard input: driver 0 drives more than C_U"), "without bytes")
    device = run("explain", "words", "solve", "refused 1 place 26", "", "a\n.net", "/dev/zero")[2]
    hold(device.startswith(b"a\\012.net: byte 26: "), device)
    hold(run("explain", "words", "check", "legal 1", "", *net, *pairs) == (0, b"", b""), "no refusal")
    status, page, err = run("explain", "show", "refused 11 place 0", loads, *net, *pairs)
    hold((status, err) == (0, b"") and page.startswith(b"refused 11 place 0\n\n" + line[:-1]), page, err)
    nine = run("explain", "words", "solve", "refused 9 place 10240000000", "", *net)[2]
    hold(nine == b"a.net: the answer has 10240000000 entries, more than the 4,096 that it may have\n", nine)
    seven = run("explain", "words", "check", "refused 7 place 0", "", *net)[2]
    hold(seven.startswith(b"a.net: "), seven)
    seen.update((7, 9))
    least = run("explain", "show", "least 1", stored("s", b"least 1\nwire 1 offset 6 drives 10\nsource drives 10\n"), *net)[1]
    hold(b"1 buffer" in least and b"it drives 10, 0 below C_U" in least, least)
    for use in ((), ("words",), ("words", "check", "refused 1 place 0", "", "a.net"), ("show", "legal 1"), ("other", "", "", "")):
        fails(run("explain", *use), b"desk/explain takes")


# ---------------------------------------------------------------- all of it

def check_examples():
    """The stored twins: the same hex; of sound files the same words."""
    files = sorted([*ROOT.glob("examples/*.net"), *ROOT.glob("examples/*.place")])
    for file in files:
        stored_twin = file.with_suffix(".hex") if file.suffix == ".net" else file.with_name(file.name + ".hex")
        rows = [line for line in stored_twin.read_text().splitlines() if not line.startswith("#")]
        title, *said_rows = twin.answer(["text", str(file)]).decode().splitlines()
        sound = refusal_of(file.read_bytes(), file.suffix == ".place")[0] is None
        if not sound:
            rows, said_rows = ([row.partition("#")[0] for row in some] for some in (rows, said_rows))
        hold(title == f"# {file.name}" and rows == said_rows, file.name)
    return len(files)


def check_case(case):
    words = check_words(case)
    if words is None and case.line.split()[0] in ("legal", "least"):
        check_answer(case)
    elif words is not None and case.verb != "finish":
        check_page(case, words)


def check_twins(chance, cases):
    files = {(data, is_placement) for is_placement, data in stored_cases()}
    files |= {(data, place == len(case.files) - 1 > 0) for case in cases for place, data in enumerate(case.files)}
    files = sorted((data, is_placement) for data, is_placement in files if (data[:1] in (b"\x11", b"\x12")) == is_placement)
    for data, is_placement in files:
        check_twin(data, is_placement)
    for _ in range(300):
        data = chance.randbytes(chance.choice((0, 1, 2, 3, 9, 40, 400)))
        hold(twin.answer(["file", stored("t", twin.answer(["text", stored("b", data)]))]) == data, data.hex())
    return len(files) + 300


KINDS = {*range(1, 14), (3, LIMITS, "C_U"), (3, LIMITS, "C_b"), (3, LIMITS, "type"), (3, BRANCH, "wire"), (3, SINK, "wire"),
         (3, SINK, "pin"), (3, SINK, "polarity"), (3, COUNT, "count"), (3, ENTRY, "wire"), (3, ENTRY, "offset"), (5, "node"), (5, "source"),
         (4, "its parent # is no smaller number"), (4, "its parent # is a sink (byte #)"), (4, "its parent # has eight children already"),
         (4, "one node too many: besides the source a net has at most #,#"),
         *((8, what, kind) for what in ("pin", "node", "source") for kind in (0, 1)),
         (10, "no wire"), (10, "past"), (10, "order"), (11, "entry"), (11, "source"), "legal", "least", "described", "strangers' words",
         *((13, words) for words in (
             "C_U fell from # to #", "C_b grew from # to #", "the type changed from buffer to inverter", "its parent changed from # to #",
             "its wire grew from # to #", "its pin grew from # to #", "its polarity changed from plus to minus",
             "a branch point became a sink", "a sink became a branch point", "# nodes besides the source, where the first net has #"))}


def main():
    chance, many = random.Random(SEED), int(sys.argv[1]) if len(sys.argv) > 1 else 80
    examples = check_examples()
    cases = [*file_cases(), *known_cases(), *random_cases(chance, many)]
    for case in cases:
        try:
            check_case(case)
        except Exception as why:
            files = " ".join("-" if data is None else data.hex() or "empty" for data in case.files)
            sys.exit(f"{case.verb}: {case.line}: {type(why).__name__}: {why}\n{files}")
    twins = check_twins(chance, cases)
    check_strangers(chance, chance.sample(cases, 300))
    check_bare()
    check_reading_on(chance)
    check_twin_processes(chance)
    check_outputs()
    check_explain_processes()
    hold(KINDS <= set(seen), "no case of", KINDS - set(seen))
    refusals = sum(seen[refused] for refused in range(1, 14))
    print(f"words: {examples} examples and {twins} files with their twins, {refusals} refusals of {len(cases)} cases in words and bytes")


if __name__ == "__main__":
    main()
