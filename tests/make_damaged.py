"""Makes the stored set of damaged (and some sound) files, and what a reader must answer.

Run without arguments: writes damaged/*.bin, *.expected and *.list, and what crate file_runs reads
and must print, anew (they are stored, and come out the same each time). With --check: makes them
in memory and compares with the stored.

A .bin file holds cases one after another: a length of four bytes, high byte first, then that
many bytes. The .expected file has a line for each case: `read N` (places or entries filled) or
`refused N place P`. The .list file says in words what each case is. The crate reads all sets, each
case after a byte more, 1 for a net file and 2 for a placement file.
"""
import random
import sys
from pathlib import Path

import reference as ref
from reference import BRANCH, COUNT, END, ENTRY, LIMITS, SINK, Limits, Net, Placement

HERE = Path(__file__).parent / "damaged"
CRATE = Path(__file__).parent.parent / "crates/file_runs"
SEED = 20010
WRONG_TAGS = (0x00, 0x01, 0x02, 0x03, 0x04, 0x05, 0x06, 0x10, 0x11, 0x12, 0x13, 0x21,
              0x7E, 0x7F, 0x80, 0x81, 0xFF)


# ---------------------------------------------------------------- pieces of files

def limits(limit=10, pin=2, kind=1):
    return ref.field(LIMITS, (limit, 4), (pin, 4), (kind, 1))


def branch(parent, wire=5):
    return ref.field(BRANCH, (parent, 2), (wire, 4))


def sink(parent, wire=3, pin=4, polarity=0):
    return ref.field(SINK, (parent, 2), (wire, 4), (pin, 4), (polarity, 1))


def count(number):
    return ref.field(COUNT, (number, 2))


def entry(wire, offset):
    return ref.field(ENTRY, (wire, 2), (offset, 4))


END_FIELD = ref.field(END)
NET = [limits(), branch(0), sink(1), sink(1, 2, 1, 1), END_FIELD]      # every kind of field
PLACEMENT = [count(3), entry(1, 0), entry(1, 7), entry(1024, 10_000_000), END_FIELD]
TWO_SINKS = sink(0) + sink(0, 0, 0, 1)


def net_of(*nodes, head=limits()):
    return head + b"".join(nodes) + END_FIELD


def with_field(fields, place, new):
    return b"".join(fields[:place] + [new] + fields[place + 1:])


# ---------------------------------------------------------------- faults that any file can have

def prefixes(fields):
    whole = b"".join(fields)
    for length in range(len(whole) + 1):
        yield f"first {length} of {len(whole)} bytes", whole[:length]


def wrong_tags(fields):
    for place, good in enumerate(fields):
        for tag in WRONG_TAGS:
            new = bytes([tag]) + good[1:]
            yield f"field {place} with tag {tag:02X}", with_field(fields, place, new)


def wrong_lengths(fields):
    for place, good in enumerate(fields):
        right = len(good) - 3
        lengths = {right - 1, right + 1, right + 256, right << 8, 0xFFFF, 0} - {-1, right}
        for length in sorted(lengths):
            new = good[:1] + length.to_bytes(2, "big") + good[3:]
            yield f"field {place} with length {length}", with_field(fields, place, new)
        longer = good[:1] + (right + 1).to_bytes(2, "big") + good[3:] + b"\0"
        yield f"field {place} longer by a byte", with_field(fields, place, longer)
        if right > 0:
            shorter = good[:1] + (right - 1).to_bytes(2, "big") + good[3:-1]
            yield f"field {place} shorter by a byte", with_field(fields, place, shorter)


def fields_left_out_or_doubled(fields):
    for place, good in enumerate(fields):
        yield f"field {place} left out", with_field(fields, place, b"")
        yield f"field {place} twice", with_field(fields, place, good + good)
    yield "fields in reverse", b"".join(reversed(fields))


def bytes_after(fields):
    whole = b"".join(fields)
    for more in (b"\0", b"\x7f", END_FIELD, b"\x02\0", b"\0" * 20, fields[0], whole):
        yield f"{len(more)} bytes after the end", whole + more


def cut_and_wrong(fields):
    """Two faults at one field: a short body, and a tag or length that is wrong."""
    for place, good in enumerate(fields):
        before = b"".join(fields[:place])
        for tag in (0x00, 0x01, 0x02, 0x03, 0x11, 0x12, 0x7F):
            for length in (len(good) - 3, 200):
                cut = bytes([tag]) + length.to_bytes(2, "big")
                yield f"field {place}: only a header {tag:02X} {length}", before + cut
        yield f"field {place}: two bytes of a wrong tag", before + b"\xff\0"


def changed(fields, seed, number):
    """Sound files with one to three bytes changed, left out or put in."""
    chance = random.Random(seed)
    whole = b"".join(fields)
    for case in range(number):
        data = bytearray(whole)
        for _ in range(chance.randint(1, 3)):
            place = chance.randrange(len(data))
            how = chance.randrange(4)
            if how == 0:
                del data[place]
            elif how == 1:
                data.insert(place, chance.randrange(256))
            elif how == 2:
                data[place] = chance.choice((0, 1, 2, 3, 4, 8, 0x7F, 0x80, 0xFF))
            else:
                data[place] ^= 1 << chance.randrange(8)
        yield f"changed by chance, {case}", bytes(data)


def any_file(fields, seed, number):
    for some in (prefixes, wrong_tags, wrong_lengths, fields_left_out_or_doubled, bytes_after,
                 cut_and_wrong):
        yield from some(fields)
    yield from changed(fields, seed, number)


# ---------------------------------------------------------------- net files

def sound_nets():
    yield "the example of the README", net_of(sink(0, 14, 4), head=limits(10, 2, 0))
    yield "the example cut to 28 bytes", net_of(sink(0, 14, 4), head=limits(10, 2, 0))[:28]
    yield "the example and a byte", net_of(sink(0, 14, 4), head=limits(10, 2, 0)) + b"\0"
    yield "eight sinks", net_of(*[sink(0)] * 8)
    yield "eight sinks under a branch", net_of(branch(0), *[sink(1)] * 8)
    yield "a chain of 40", net_of(*[branch(n) for n in range(40)], sink(40))
    yield "a comb", net_of(*[piece for n in range(0, 20, 2) for piece in (branch(max(0, n - 1)),
                                                                         sink(n + 1))])
    yield "pins and wires 0", net_of(sink(0, 0, 0, 0), sink(0, 0, 0, 1))
    yield "children far apart", net_of(branch(0), branch(1), sink(2), sink(0), sink(1), sink(2))


def limit_values():
    for limit in (0, 1, 2, 999_999, 1_000_000, 1_000_001, 0x80000000, 0xFFFFFFFF):
        yield f"C_U {limit}, C_b 0", net_of(TWO_SINKS, head=limits(limit, 0))
    pairs = ((1, 1), (2, 0), (2, 1), (3, 1), (3, 2), (10, 4), (10, 5), (10, 6), (11, 5), (11, 6),
             (1_000_000, 499_999), (1_000_000, 500_000), (1_000_000, 1_000_000),
             (10, 0x80000000), (10, 0x80000001), (10, 0x80000004), (10, 0xFFFFFFFF),
             (10, 0x7FFFFFFF), (0, 0), (0, 5), (1_000_001, 500_000), (0xFFFFFFFF, 1))
    for limit, pin in pairs:
        yield f"C_U {limit}, C_b {pin}", net_of(TWO_SINKS, head=limits(limit, pin))
    for kind in (0, 1, 2, 3, 0x80, 0xFF):
        yield f"type {kind}", net_of(sink(0), head=limits(10, 2, kind))
    yield "C_U with bytes turned round", net_of(sink(0), head=limits(0x0A000000, 2))


def node_values():
    for wire in (0, 9_999_999, 10_000_000, 10_000_001, 0x80000000, 0xFFFFFFFF):
        yield f"branch wire {wire}", net_of(branch(0, wire), sink(1))
        yield f"sink wire {wire}", net_of(branch(0), sink(1, wire))
    for pin in (0, 999_999, 1_000_000, 1_000_001, 0x80000000, 0xFFFFFFFF):
        yield f"pin {pin}", net_of(sink(0, 3, pin))
    for kind in (0, 1):
        for polarity in (0, 1, 2, 0x80, 0xFF):
            head = limits(10, 2, kind)
            yield f"type {kind}, polarity {polarity}", net_of(sink(0, 3, 4, polarity), head=head)
            later = net_of(sink(0), sink(0, 3, 4, polarity), head=head)
            yield f"type {kind}, polarity {polarity} at node 2", later


def parents():
    for parent in (0, 1, 2, 3, 255, 256, 1024, 1025, 0x8000, 0xFFFF):
        yield f"first node, branch with parent {parent}", net_of(branch(parent), sink(1))
        yield f"first node, sink with parent {parent}", net_of(sink(parent))
        yield f"third node, branch with parent {parent}", net_of(
            branch(0), sink(1), branch(parent), sink(3))
        yield f"third node, sink with parent {parent}", net_of(branch(0), sink(1), sink(parent))
    yield "ninth child of the source, a sink", net_of(*[sink(0)] * 9)
    yield "ninth child of the source, a branch", net_of(*[sink(0)] * 8, branch(0), sink(9))
    yield "ninth child of a branch, a sink", net_of(branch(0), *[sink(1)] * 9)
    yield "ninth child of a branch, a branch", net_of(branch(0), *[sink(1)] * 8, branch(1))
    yield "ninth child after others", net_of(branch(0), *[sink(1)] * 8, *[sink(0)] * 7, sink(1))
    yield "eight children twice", net_of(branch(0), *[sink(1)] * 8, *[sink(0)] * 7)
    yield "ninth child of the source, eight of a branch", net_of(
        branch(0), *[sink(1)] * 8, *[sink(0)] * 8)


def childless():
    yield "no node", net_of()
    yield "one branch", net_of(branch(0))
    yield "two branches", net_of(branch(0), branch(0))
    yield "second branch childless", net_of(branch(0), branch(0), sink(1))
    yield "chain without a sink", net_of(*[branch(n) for n in range(5)])
    yield "last branch childless", net_of(sink(0), sink(0), branch(0))
    yield "no node, and bytes after", net_of() + b"\0"
    yield "childless branch, and bytes after", net_of(branch(0)) + END_FIELD
    yield "childless branch, and no end", limits() + branch(0)
    yield "childless branch, and a bad tag", limits() + branch(0) + b"\x04\0\0"


def two_net_faults():
    bad_wire, bad_pin = 10_000_001, 1_000_001
    yield "bad wire and bad parent", net_of(branch(1, bad_wire))
    yield "bad pin and a sink for parent", net_of(sink(0), sink(1, 3, bad_pin))
    yield "bad polarity and ninth child", net_of(*[sink(0)] * 8, sink(0, 3, 4, 2))
    yield "bad wire, then bad limits", net_of(branch(0, bad_wire), limits(0))
    yield "bad limits, bad wire later", net_of(branch(0, bad_wire), head=limits(0))
    yield "bad limits, cut later", net_of(branch(0), head=limits(10, 5))[:20]
    yield "bad limits, bad tag later", limits(10, 2, 2) + b"\x04\0\0"
    yield "bad limits, cut in the limits", limits(0)[:11]
    yield "bad wire, cut in the field", limits() + branch(0, bad_wire)[:8]
    yield "bad parent, cut in the field", limits() + branch(9)[:8]
    yield "bad pin, cut in the polarity", limits() + sink(0, 3, bad_pin)[:13]
    yield "bad parent, bad wire later", net_of(branch(1), branch(0, bad_wire))
    yield "bad wire, bad parent later", net_of(branch(0, bad_wire), branch(5))
    yield "bad parent of node 2, node 1 childless", net_of(branch(0), sink(2))
    yield "bytes after the end look like nodes", net_of(branch(0)) + sink(1) + END_FIELD
    yield "end with length 1 and its byte", limits() + sink(0) + b"\x7f\0\1\0"
    yield "end with length 1, cut", limits() + sink(0) + b"\x7f\0\1"
    yield "sink field with a branch's length", limits() + b"\x03\0\x06" + sink(0)[3:9]
    yield "branch field with a sink's length", limits() + b"\x02\0\x0b" + sink(0)[3:]
    yield "limits twice, the second cut", limits() + limits()[:7]
    yield "limits twice, the second only a header", limits() + limits()[:2]
    yield "an entry in a net, cut", limits() + entry(1, 1)[:5]
    yield "a placement file", b"".join(PLACEMENT)


def net_cases():
    for some in (sound_nets, limit_values, node_values, parents, childless, two_net_faults):
        yield from some()
    yield from any_file(NET, SEED, 150)
    yield from changed([limits(10, 2, 0)] + [branch(0)] + [sink(1)] * 4 + [END_FIELD], SEED + 1, 60)


def full_net(nodes=1024):
    """1,024 nodes, as many sinks as eight children each allow: 127 branch points, 897 sinks."""
    fields = [branch(node // 8, node) for node in range(127)]
    fields += [sink(node // 8, node, node, node % 2) for node in range(127, nodes)]
    return [limits()] + fields


def large_net_cases():
    chain = [limits()] + [branch(n) for n in range(1023)] + [sink(1023)]
    full, after_full = b"".join(full_net()), END_FIELD
    yield "1,024 nodes, the largest net that is one", full + after_full
    yield "the same, its last byte missing", full + after_full[:2]
    yield "the same and a byte", full + after_full + b"\0"
    yield "1,024 sinks, 14,351 bytes: a ninth child", limits() + sink(0) * 1024 + after_full
    yield "a chain of 1,024", b"".join(chain) + after_full
    room_left = b"".join(full_net(1023)) + branch(127)
    yield "node 1,024 a childless branch", b"".join(full_net(1023)) + branch(127) + after_full
    yield "node 1,025, nothing else wrong", room_left + sink(1024) + after_full
    yield "node 1,025, with a bad wire", room_left + sink(1024, 10_000_001) + after_full
    yield "node 1,025, cut in its field", room_left + sink(1024)[:13]
    yield "node 1,025, with a wrong tag", room_left + b"\x04" + sink(1024)[1:] + after_full
    yield "node 1,025, its parent itself", room_left + sink(1025) + after_full


# ---------------------------------------------------------------- placement files

def sound_placements():
    yield "no entry", count(0) + END_FIELD
    yield "one entry", count(1) + entry(1, 6) + END_FIELD
    yield "equal entries", count(2) + entry(3, 6) * 2 + END_FIELD
    yield "out of order: not the reader's question", count(2) + entry(3, 6) + entry(2, 9) + END_FIELD
    yield "256 entries", count(256) + entry(7, 1) * 256 + END_FIELD


def entry_values():
    for wire in (0, 1, 2, 255, 256, 1023, 1024, 1025, 0x8000, 0xFFFF):
        yield f"wire {wire}", count(1) + entry(wire, 5) + END_FIELD
        yield f"second entry on wire {wire}", count(2) + entry(1, 5) + entry(wire, 5) + END_FIELD
    for offset in (0, 1, 9_999_999, 10_000_000, 10_000_001, 0x80000000, 0xFFFFFFFF):
        yield f"offset {offset}", count(1) + entry(5, offset) + END_FIELD
        yield f"second offset {offset}", count(2) + entry(1, 5) + entry(1, offset) + END_FIELD
    yield "wire 0 and offset too large", count(1) + entry(0, 10_000_001) + END_FIELD


def counts():
    for number in (0, 1, 2, 3, 4, 5, 256, 512, 768, 4095, 4096, 4097, 0x8000, 0xFFFF):
        yield f"count {number} over three entries", with_field(PLACEMENT, 0, count(number))
        yield f"count {number} and no entry", count(number) + END_FIELD
        yield f"count {number} and nothing more", count(number)
    yield "count 3 in bytes turned round", with_field(PLACEMENT, 0, count(0x0300))


def two_placement_faults():
    yield "too many entries and a bad one", count(1) + entry(1, 1) + entry(0, 1) + END_FIELD
    yield "too many entries, the last cut", count(1) + entry(1, 1) + entry(1, 1)[:5]
    yield "end too early, cut", count(1) + END_FIELD[:2]
    yield "end too early, bytes after", count(1) + END_FIELD + b"\0"
    yield "count too large, no end", count(4097) + entry(1, 1)
    yield "count too large, cut", count(4097)[:4]
    yield "bad wire, cut in the offset", count(1) + entry(0, 1)[:8]
    yield "bad wire, wrong tag later", count(2) + entry(0, 1) + b"\x13\0\6" + entry(1, 1)[3:]
    yield "end with length 1 and its byte", count(0) + b"\x7f\0\1\0"
    yield "count with length 3", b"\x11\0\3\0\0\0" + END_FIELD
    yield "count with length 3, cut", b"\x11\0\3\0"
    yield "count twice", count(1) + count(1) + END_FIELD
    yield "a net file", b"".join(NET)
    yield "an entry that is a sink", count(1) + sink(0) + END_FIELD


def placement_cases():
    for some in (sound_placements, entry_values, counts, two_placement_faults):
        yield from some()
    yield from any_file(PLACEMENT, SEED + 2, 100)


def large_placement_cases():
    many = count(4096) + b"".join(entry(1 + n // 4, n) for n in range(4096))
    yield "4,096 entries, the largest file", many + END_FIELD
    yield "the same, its last byte missing", many + END_FIELD[:2]
    yield "the same and a byte", many + END_FIELD + b"\0"
    yield "4,096 entries and one more", many + entry(1, 1) + END_FIELD


# ---------------------------------------------------------------- answers, and what must occur

def answer(read, data):
    try:
        result = read(data)
    except ref.Refused as refusal:
        return f"refused {refusal.number} place {refusal.place}"
    return f"read {len(result[-1])}"


def kinds_seen(read, cases):
    """Pairs of a refusal and the kind of its place: the tag there, 'end of file', or node."""
    seen = set()
    for _, data in cases:
        try:
            read(data)
        except ref.Refused as refusal:
            seen.add((refusal.number, kind_of_place(refusal, data)))
    return seen


def kind_of_place(refusal, data):
    if refusal.number == 5:
        return "source" if refusal.place == 0 else "branch"
    if refusal.number == 6:
        return "after"
    return data[refusal.place] if refusal.place < len(data) else "end of file"


NET_KINDS = {(1, LIMITS), (1, BRANCH), (1, SINK), (1, END), (1, "end of file"),
             (2, LIMITS), (2, BRANCH), (2, SINK), (2, END), (2, COUNT), (2, ENTRY), (2, 0xFF),
             (3, LIMITS), (3, BRANCH), (3, SINK), (4, BRANCH), (4, SINK),
             (5, "source"), (5, "branch"), (6, "after")}
PLACEMENT_KINDS = {(1, COUNT), (1, ENTRY), (1, END), (1, "end of file"),
                   (2, COUNT), (2, ENTRY), (2, END), (2, SINK), (2, 0xFF),
                   (3, COUNT), (3, ENTRY), (6, "after")}

SETS = {"net_cases": (net_cases, ref.read_net, NET_KINDS),
        "net_large": (large_net_cases, ref.read_net, {(1, SINK), (2, 0x04), (3, SINK), (4, SINK)}),
        "placement_cases": (placement_cases, ref.read_placement, PLACEMENT_KINDS),
        "placement_large": (large_placement_cases, ref.read_placement, {(1, END), (2, ENTRY)})}


def unlike(cases):
    """Each file once, under its first name."""
    seen = {}
    for name, data in cases:
        seen.setdefault(data, name)
    return [(name, data) for data, name in seen.items()]


def stored_form(make, read, kinds):
    cases = unlike(make())
    missing = kinds - kinds_seen(read, cases)
    assert not missing, f"no case for {missing}"
    packed = [len(data).to_bytes(4, "big") + data for _, data in cases]
    assert len(b"".join(packed)) < 200_000
    expected = "".join(answer(read, data) + "\n" for _, data in cases)
    names = "".join(f"{n}: {name}\n" for n, (name, _) in enumerate(cases))
    return packed, expected.encode(), names.encode()


def store(path, content):
    if "--check" not in sys.argv[1:]:
        path.write_bytes(content)
    elif path.read_bytes() != content:
        sys.exit(f"{path} is not what make_damaged.py makes")


def main():
    HERE.mkdir(exist_ok=True)
    asked, told = b"", b""
    for name, (make, read, kinds) in SETS.items():
        packed, expected, names = stored_form(make, read, kinds)
        content = b"".join(packed)
        store(HERE / (name + ".bin"), content)
        store(HERE / (name + ".expected"), expected)
        store(HERE / (name + ".list"), names)
        kind = b"\x01" if read is ref.read_net else b"\x02"
        asked += b"".join(kind + case for case in packed)
        told += expected
        print(f"{name}: {len(packed)} cases, {len(content)} bytes")
    store(CRATE / "stdin", asked)
    store(CRATE / "stdout", told)


if __name__ == "__main__":
    main()
