"""Streams of cases: what scripts write, and programs and other scripts replay.

Every case begins with a line `V` and numbers of six columns, of which `-` is a missing one. Those of the stored vectors and of the generator
have a sheet: the length of the sheet, the length of the text, a space and a label; then the sheet's bytes; then the text's bytes. The text is what
conlist prints, or nothing where nobody has said it yet. (The crate `cases` and tests/oracle/src/stream.rs read the same.) What the other programs
replay, their own `make` says."""
import os
import re

from second_reading import MISSING

VECTORS = os.path.join(os.path.dirname(os.path.abspath(__file__)), "vectors")
STORED = ("accepted.txt", "wild.txt", "damaged.txt")
HEADER = re.compile(rb"V([ 0-9]{5}[0-9])([ 0-9]{5}[0-9]) (.*)\Z", re.DOTALL)


def columns(numbers):
    """Numbers as they stand in a case: of six digits at most, or 4294967295."""
    assert all(number == MISSING or number <= 999999 for number in numbers)
    return b"".join(b"     -" if number == MISSING else b"%6d" % number for number in numbers)


def header(*numbers):
    """How a case begins."""
    return b"V" + columns(numbers)


def case(label, sheet, text=b""):
    return header(len(sheet), len(text)) + b" " + label.encode("latin-1") + b"\n" + sheet + text


def stream(cases):
    """The stream of (label, sheet, text)."""
    return b"".join(case(*one) for one in cases)


def read(stream):
    """(label, sheet, text) of each case of a stream."""
    at = 0
    while at < len(stream):
        end = stream.find(b"\n", at)
        found = HEADER.match(stream[at:end]) if end >= 0 else None
        if not found:
            raise ValueError("no header line at byte %d of the stream" % at)
        text_at = end + 1 + int(found.group(1))
        next_at = text_at + int(found.group(2))
        if next_at > len(stream):
            raise ValueError("the stream ends inside its last case")
        yield found.group(3).decode("latin-1"), stream[end + 1:text_at], stream[text_at:next_at]
        at = next_at


def stored(*names):
    """(label, sheet, text) of the stored vectors in these files, or in all."""
    for name in names or STORED:
        with open(os.path.join(VECTORS, name), "rb") as file:
            yield from read(file.read())
