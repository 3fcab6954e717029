"""The readable twin of a net or placement file: its bytes in hex, and behind # what each field says and what is wrong with it."""
import re

from net_file import COUNT, ENTRY
from reading import Reading

ROW = 14                                         # bytes on a line: the longest field has as many
BYTES = re.compile(rb"(?:[ \t\r]|[0-9A-Fa-f]{2})*")


class WrongText(Exception):
    """The text is no twin; the message says where."""


def text_of(data, titles):
    """The twin of any bytes. The first tag says which of the two files they are."""
    reading = Reading(data, data[:1] in (bytes([COUNT]), bytes([ENTRY])))
    childless = dict(reading.childless)
    lines = [f"# {title}" for title in titles]
    for field in reading.fields:
        faults = field.faults + [childless[node] for node in [field.number] if node in childless]
        if field is reading.end and 0 in childless:
            faults.append(childless[0]._replace(words="the source has no child"))
        lines += rows(field, said(reading.said(field), faults))
    return "\n".join(lines) + "\n"


def said(what, faults):
    wrong = "wrong: " + "; ".join(fault.words for fault in faults) if faults else ""
    return "; ".join(filter(None, [what, wrong]))


def rows(field, what):
    """The lines of a field: one, or several where bytes stand that are no field."""
    first, *more = [field.data[at:at + ROW] for at in range(0, len(field.data), ROW)] or [b""]
    yield row(first, what)
    for number, data in enumerate(more, 1):
        at = field.at + number * ROW
        yield row(data, f"bytes {at} to {at + len(data) - 1}" if len(data) > 1 else f"byte {at}")


def row(data, what):
    return f"{data.hex(' ').upper():<{3 * ROW}}# {what}"


def bytes_of(text):
    """The bytes that a twin says: hex digits in pairs, blanks between them, comments from # to the end of the line."""
    data = []
    for number, line in enumerate(text.split(b"\n"), 1):
        code = line.partition(b"#")[0]
        end = BYTES.match(code).end()
        if end != len(code):
            raise WrongText(f"line {number}, column {end + 1}: {wrong_sign(code[end:])}")
        data.append(bytes.fromhex(code.decode("ascii")))
    return b"".join(data)


def wrong_sign(code):
    if re.match(rb"[0-9A-Fa-f]", code):
        return "a hex digit without its second"
    sign = chr(code[0])
    return f"{sign} is no hex digit" if "!" <= sign <= "~" else f"byte {code[0]:02X} is no hex digit"
