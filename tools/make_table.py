#!/usr/bin/env python3
"""Makes a service table of a text listing, so that tables can be written by hand.

    tools/make_table.py LISTING OUTPUT

A line of the listing is one of these; blank lines and lines that begin with `#` are skipped:

    hls              the dialect, which is HLS where no line says
    dash
    steering URI     an entry of kind 0
    pathway ID       an entry of kind 1
    member URI       an entry of kind 2

The entries stand in the table in the order of their lines. Nothing is checked but that each line is understood and each
number fits two bytes, so that tables which are to be refused can be made too.

The table is the bytes `S`, `T`, 1 and the dialect (0 HLS, 1 DASH); the number of entries; for each entry its kind (one
byte), the place of its body in the file and the body's length; then the bodies in the same order, without gaps. Number,
place and length have two bytes, the high one first.
"""

import struct
import sys

DIALECTS = {b"hls": 0, b"dash": 1}
KINDS = {b"steering": 0, b"pathway": 1, b"member": 2}
HEADER_BYTES = 6
ENTRY_BYTES = 5


class Trouble(Exception):
    """Why no table is made."""


def read_listing(listing):
    """The dialect and the entries (kind, body) of a listing."""
    dialect, entries = 0, []
    for number, line in enumerate(listing.split(b"\n"), 1):
        words = line.split()
        if not words or words[0].startswith(b"#"):
            continue
        if len(words) == 1 and words[0] in DIALECTS:
            dialect = DIALECTS[words[0]]
        elif len(words) == 2 and words[0] in KINDS:
            entries.append((KINDS[words[0]], words[1]))
        else:
            raise Trouble(f"line {number} is not understood: {line.decode(errors='replace')}")
    return dialect, entries


def two_bytes(number, what):
    """A number in two bytes."""
    if number > 0xFFFF:
        raise Trouble(f"{what} is {number}, which does not fit two bytes")
    return struct.pack(">H", number)


def make_table(dialect, entries):
    """The bytes of the table."""
    table = b"ST" + bytes([1, dialect]) + two_bytes(len(entries), "the number of entries")
    place = HEADER_BYTES + ENTRY_BYTES * len(entries)
    for number, (kind, body) in enumerate(entries):
        table += bytes([kind])
        table += two_bytes(place, f"the place of entry {number}")
        table += two_bytes(len(body), f"the length of entry {number}")
        place += len(body)
    return table + b"".join(body for _, body in entries)


def main(words):
    if len(words) != 2:
        print("usage: tools/make_table.py LISTING OUTPUT", file=sys.stderr)
        return 1
    listing, output = words
    try:
        with open(listing, "rb") as file:
            table = make_table(*read_listing(file.read()))
        with open(output, "wb") as file:
            file.write(table)
    except (OSError, Trouble) as trouble:
        print(f"make_table.py: {trouble}", file=sys.stderr)
        return 1
    return 0


if __name__ == "__main__":
    sys.exit(main(sys.argv[1:]))
