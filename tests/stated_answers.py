"""What docs/RULES.md and examples/ say of their own bytes, held to both references.

    python3 stated_answers.py PROGRAM

PROGRAM is compare_references.c compiled with reference.c. From the page: the net file and the placement file that it spells out,
its answers for them, and each change of a byte in its table. From the examples: each placement file, by the net and the answer that its
readable twin names.
"""
import pathlib
import re
import subprocess
import sys

import compare_references as compare
import reference as ref

ROOT = pathlib.Path(__file__).resolve().parent.parent
PAGE = (ROOT / "docs/RULES.md").read_text()


# ---------------------------------------------------------------- the page

def block(name):
    return re.search(rf"^```{name}\n(.*?)^```", PAGE, re.M | re.S).group(1)


def spelled(name):
    """The bytes of a block: each line has the byte where its field begins, the field in hex, and what it says."""
    data = b""
    for line in block(name).splitlines():
        begins, field = re.match(r" *(\d+) +((?:[0-9A-F]{2} +)+)", line).groups()
        assert int(begins) == len(data), line
        data += bytes.fromhex(field)
    return data


def changed(data, change):
    """The bytes after a change in the words of the page's table."""
    data = bytearray(data)
    if change == "without its last byte":
        return bytes(data[:-1])
    if fewer := re.fullmatch(r"without its last (\d+) bytes", change):
        return bytes(data[:-int(fewer.group(1))])
    if more := re.fullmatch(r"one byte ([0-9A-F]{2}) more", change):
        return bytes(data) + bytes.fromhex(more.group(1))
    for part in change.split(", "):
        at, byte = re.fullmatch(r"byte (\d+) is ([0-9A-F]{2})", part).groups()
        data[int(at)] = int(byte, 16)
    return bytes(data)


def changes():
    return re.findall(r"^\| (net|placement) \| (.+?) \| (refused \d+ place \d+) \|$", PAGE, re.M)


# ---------------------------------------------------------------- questions: what is asked, what is stated, Python's answer

def check(net_file, placement_file, stated):
    """A placement file, put to the reader alone where that refuses it, and else to the checker."""
    try:
        placement = ref.read_placement(placement_file)
    except ref.Refused:
        question, python = compare.ask_read("placement", placement_file)
        return question, stated, python
    question, python = compare.ask_check(ref.read_net(net_file), placement)
    if legal := re.fullmatch(r"legal (\d+) source (\d+)", stated):
        drives = python.split()[4:]
        stated = " ".join(["count", legal.group(1), "source", legal.group(2), *drives])
    return question, stated, python


def page_questions():
    net_file, placement_file = spelled("net"), spelled("placement")
    net, placement = ref.read_net(net_file), ref.read_placement(placement_file)
    legal, drives, least = block("answers").splitlines()
    assert least == f"least {ref.least_exhaustive(net)}", least
    yield check(net_file, placement_file, legal)
    question, python = compare.ask_drives(net, placement)
    yield question, " ".join([*python.split()[:4], *drives.split()[1:]]), python
    question, python = compare.ask_least("frontier", net, ref.least_frontier)
    yield question, f"{least.split()[1]} {least.split()[1]}", python
    for file, change, stated in changes():
        if file == "net":
            question, python = compare.ask_read("net", changed(net_file, change))
            yield question, stated, python
        else:
            yield check(net_file, changed(placement_file, change), stated)


def named(twin, word):
    return re.search(rf"^# {word}: (.*)$", twin, re.M).group(1)


def example_questions():
    examples = ROOT / "examples"
    for file in sorted(examples.glob("*.place")):
        twin = (examples / (file.name + ".hex")).read_text()
        yield check((examples / named(twin, "on")).read_bytes(), file.read_bytes(), named(twin, "answer"))


def main():
    page, examples = list(page_questions()), list(example_questions())
    numbers = {stated.split()[1] for _, stated, _ in page + examples if stated.startswith("refused")}
    assert numbers >= set("1 2 3 4 5 6 10 11 12".split()), "a refusal without an example"
    asked = page + examples
    text = "".join(question + "\n" for question, _, _ in asked)
    done = subprocess.run([sys.argv[1]], input=text, capture_output=True, text=True, check=True)
    answers = done.stdout.splitlines()
    assert len(answers) == len(asked), "the program stopped early"
    for (question, stated, python), c in zip(asked, answers):
        if not stated == python == c:
            sys.exit(f"{question}\n  stated: {stated}\n  Python: {python}\n  C:      {c}")
    print(f"as stated: {len(page)} answers of docs/RULES.md, {len(examples)} placement files of examples/")


main()
