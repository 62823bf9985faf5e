#!/usr/bin/env python3
"""Writes what the program `table_tests` reads and what it has to print, by a reader of service tables that shares no
code with it.

    python3 tools/table_reference.py            writes crates/table_tests/stdin and crates/table_tests/stdout
    python3 tools/table_reference.py --check    writes nothing; status 1 where one of them is not what would be written

The cases stand in tools/table_cases.txt. A line there is a case, a comment that begins with `#`, or empty. A case is a
name and then words, all parted by single spaces. Words that build the table come first:

    hls, dash        the dialect byte, 0 or 1; the last of these words counts
    KIND:TEXT        an entry of that kind (0 to 255), with TEXT as its body
    N*KIND:TEXT      N such entries
    ids*N            N pathways p1, p2, .., each with one member https://c.example/p1, ..
    example          dash 0:https://s.example/a 1:a 2:https://c.example/

Places, lengths and the count are filled in to match, in 16 bits. Patches on the bytes follow, done from left to right:

    cut=N            keep the first N bytes
    add=TEXT         append TEXT
    put@N=TEXT       overwrite the bytes from place N on
    count=V          set the count of entries
    place@I=V        set the place of entry I, numbered from 0
    length@I=V       set the length of entry I

V is a number, or +N or -N for a change of what stands there. In TEXT, `\\hh` is a byte by two small hex digits,
`{TEXT*N}` is TEXT repeated N times (without braces inside), and `{#}` is the number of the entry within `N*KIND:TEXT`,
from 1. The characters `\\`, `{` and `}` stand for themselves in no text: they are written in hex.

The program reads a line for each case: the name, and behind a space the bytes of the table in words parted by single
spaces. A word is bytes in small hex digits, or `N*HH`, which is one byte N times. A table without bytes is `0*00`.

Of each case it prints this, and at the end the number of cases:

    NAME accepted DIALECT STEERING-URI ID:MEMBERS ..
    NAME refused NUMBER PLACE description example

Below an accepted table stands a line for each member URI, or, for more than four, their number and a digest. `example`
says that the reader gives the description of the table `example` in place of one that is refused.
"""

import itertools
import re
import struct
import sys
from pathlib import Path

ROOT = Path(__file__).resolve().parent.parent
CASES = ROOT / "tools/table_cases.txt"
CRATES = ROOT / "crates"


class Unreadable(Exception):
    """The line is no case."""


# ---- the case language ----

TOKEN = re.compile(r"\\(?P<hex>[0-9a-f]{2})|(?P<turn>\{#\})|\{(?P<run>[^{}]*)\*(?P<times>[0-9]+)\}|(?P<plain>[^\\{}]+)")
ENTRY = re.compile(r"(?:(?P<times>[0-9]+)\*)?(?P<kind>[0-9]+):(?P<text>.*)")
PATCH = re.compile(r"(?P<name>[a-z]+)(?:@(?P<at>[0-9]+))?=(?P<value>.*)")
NUMBER = re.compile(r"(?P<sign>[+-]?)(?P<digits>[0-9]+)")


def expand(text, turn=0):
    """The bytes that a text of the case language stands for."""
    out = b""
    at = 0
    while at < len(text):
        token = TOKEN.match(text, at)
        if not token:
            raise Unreadable
        if token["hex"]:
            out += bytes.fromhex(token["hex"])
        elif token["turn"]:
            out += str(turn).encode()
        elif token["times"]:
            out += expand(token["run"]) * int(token["times"])
        else:
            out += token["plain"].encode()
        at = token.end()
    return out


def entries_of(word):
    """The entries (kind, body) that a word adds."""
    if word == "example":
        return [(0, b"https://s.example/a"), (1, b"a"), (2, b"https://c.example/")]
    if word.startswith("ids*"):
        many = range(1, int(word[4:]) + 1)
        return [entry for i in many for entry in ((1, b"p%d" % i), (2, b"https://c.example/p%d" % i))]
    entry = ENTRY.fullmatch(word)
    if not entry or int(entry["kind"]) > 255:
        raise Unreadable
    turns = range(1, int(entry["times"] or 1) + 1)
    return [(int(entry["kind"]), expand(entry["text"], turn)) for turn in turns]


def lay_out(dialect, entries):
    """The file with these entries."""
    place = 6 + 5 * len(entries)
    contents = b""
    for kind, body in entries:
        contents += struct.pack(">BHH", kind, place & 0xFFFF, len(body) & 0xFFFF)
        place += len(body)
    return b"ST\x01" + bytes([dialect]) + struct.pack(">H", len(entries)) + contents + b"".join(b for _, b in entries)


def patched(file, patch):
    """The file after one patch."""
    name, value = patch["name"], patch["value"]
    at = int(patch["at"] or 0)
    if name == "cut" and int(value) <= len(file):
        return file[: int(value)]
    if name == "add":
        return file + expand(value)
    if name == "put":
        new = expand(value)
    else:
        at = {"count": 4, "place": 7 + 5 * at, "length": 9 + 5 * at}.get(name)
        number = NUMBER.fullmatch(value)
        if at is None or not number or at + 2 > len(file):
            raise Unreadable
        (old,) = struct.unpack_from(">H", file, at)
        n = int(number["digits"])
        new = struct.pack(">H", {"": n, "+": old + n, "-": old - n}[number["sign"]] & 0xFFFF)
    if at + len(new) > len(file):
        raise Unreadable
    return file[:at] + new + file[at + len(new) :]


def built(words):
    """The file that the words of a case make."""
    dialect, entries, patches = 0, [], []
    for word in words:
        patch = PATCH.fullmatch(word)
        if patch:
            patches.append(patch)
            continue
        if word in ("hls", "dash", "example"):
            dialect = 0 if word == "hls" else 1
        if word not in ("hls", "dash"):
            entries += entries_of(word)
    file = lay_out(dialect, entries)
    for patch in patches:
        file = patched(file, patch)
    return file


# ---- the reader ----

STEERING, ID, MEMBER = 0, 1, 2
NAME_BYTES = rb"[A-Za-z0-9._-]"
LEGAL_ID = re.compile(NAME_BYTES + rb"{1,32}")
# pchar, query and fragment as in RFC 3986
PCHAR = rb"(?:[A-Za-z0-9._~!$&'()*+,;=:@-]|%[0-9A-Fa-f]{2})"
LEGAL_URI = re.compile(
    rb"(?i:https?)://"
    + NAME_BYTES
    + rb"{1,128}"
    + rb"(?::(?P<port>[0-9]{1,5}))?"
    + rb"(?:/(?:%s|/)*)?" % PCHAR
    + rb"(?:\?(?:%s|[/?])*)?" % PCHAR
    + rb"(?:#(?:%s|[/?])*)?" % PCHAR
)


def is_uri(text):
    uri = LEGAL_URI.fullmatch(text)
    return bool(uri) and len(text) <= 512 and int(uri["port"] or 0) <= 65535


def contents_of(file):
    """The entries as (kind, place, length)."""
    (count,) = struct.unpack_from(">H", file, 4)
    return [struct.unpack_from(">BHH", file, entry_place(i)) for i in range(count)]


def entry_place(i):
    return 6 + 5 * i


def body(file, entry):
    _, place, length = entry
    return file[place : place + length]


def lengths_fault(file):
    if not 1 <= len(file) <= 65535:
        return 10, 0


def header_fault(file):
    if file[:4] not in (b"ST\x01\x00", b"ST\x01\x01"):
        return 11, 0


def structure_fault(file):
    if len(file) < 6:
        return 12, len(file)
    (count,) = struct.unpack_from(">H", file, 4)
    if entry_place(count) > len(file):
        return 12, 4
    entries = contents_of(file)
    due = list(itertools.accumulate((length for _, _, length in entries), initial=entry_place(count)))
    for i, (_, place, _) in enumerate(entries):
        if place != due[i]:
            return 12, entry_place(i)
    for i, (_, place, length) in enumerate(entries):
        if place + length > len(file):
            return 12, entry_place(i)
    if due[-1] < len(file):
        return 12, 4


def order_fault(file):
    kinds = [kind for kind, _, _ in contents_of(file)]
    for i, kind in enumerate(kinds):
        if kind > MEMBER:
            return 13, entry_place(i)
    if not kinds:
        return 13, 4
    for i, kind in enumerate(kinds):
        if (kind == STEERING) != (i == 0) or (kind == MEMBER and ID not in kinds[:i]):
            return 13, entry_place(i)


def id_fault(file):
    ids = [(body(file, entry), entry[1]) for entry in contents_of(file) if entry[0] == ID]
    for name, place in ids:
        if not LEGAL_ID.fullmatch(name):
            return 15, place
    for i, (name, place) in enumerate(ids):
        if any(name == earlier for earlier, _ in ids[:i]):
            return 15, place


def uri_fault(file):
    for entry in contents_of(file):
        if entry[0] != ID and not is_uri(body(file, entry)):
            return 16, entry[1]


def count_fault(file):
    kinds = [kind for kind, _, _ in contents_of(file)]
    if ID not in kinds:
        return 17, 4
    pathways = members = 0
    for i, kind in enumerate(kinds):
        if kind == ID:
            pathways += 1
            members = 0
            if pathways > 16 or kinds[i + 1 : i + 2] != [MEMBER]:
                return 17, entry_place(i)
        elif kind == MEMBER:
            members += 1
            if members > 32:
                return 17, entry_place(i)


CHECKS = (lengths_fault, header_fault, structure_fault, order_fault, id_fault, uri_fault, count_fault)


def fault(file):
    """The number and place of the refusal, or None for a legal table."""
    for check in CHECKS:
        found = check(file)
        if found:
            return found
    return None


def description(file):
    """Dialect, steering URI and pathways of a legal table."""
    steering, pathways = b"", []
    for entry in contents_of(file):
        text = body(file, entry)
        if entry[0] == STEERING:
            steering = text.partition(b"#")[0]
        elif entry[0] == ID:
            pathways.append((text, []))
        else:
            pathways[-1][1].append(text)
    return ("hls", "dash")[file[3]], steering, pathways


# ---- what is printed ----


def digest(members):
    """All members, each behind a line feed, as digits to base 31, in 32 bits."""
    total = 0
    for byte in b"".join(b"\n" + uri for uri in members):
        total = (total * 31 + byte) % 2**32
    return total


def told(name, refusal, meaning):
    """The lines of one case, by its refusal if there is one, else by the dialect, steering URI and pathways."""
    if refusal:
        return ["%s refused %d %d description example" % (name, *refusal)]
    dialect, steering, pathways = meaning
    counts = ["%s:%d" % (id.decode(), len(members)) for id, members in pathways]
    lines = [" ".join([name, "accepted", dialect, steering.decode()] + counts)]
    members = [uri for _, uris in pathways for uri in uris]
    if len(members) <= 4:
        return lines + ["  " + uri.decode() for uri in members]
    return lines + ["  %d members, digest %d" % (len(members), digest(members))]


def report(name, file):
    """The lines of one table."""
    refusal = fault(file)
    return told(name, refusal, None if refusal else description(file))


# ---- the two files ----

# So many equal bytes in a row, and more, are written as a run.
RUN = re.compile(rb"(.)\1{7,}", re.DOTALL)


def words_of(file):
    """The bytes of a table as the program reads them."""
    words, at = [], 0
    for run in RUN.finditer(file):
        words += [file[at : run.start()].hex(), "%d*%s" % (len(run[0]), run[1].hex())]
        at = run.end()
    words.append(file[at:].hex())
    return " ".join(word for word in words if word) or "0*00"


def cases():
    """The names and tables of all cases."""
    for number, line in enumerate(CASES.read_text().splitlines(), 1):
        if not line or line.startswith("#"):
            continue
        name, *words = line.split(" ")
        try:
            if not words:
                raise Unreadable
            yield name, built(words)
        except (Unreadable, ValueError):
            sys.exit("%s: line %d is no case: %s" % (CASES, number, line))


def lines(kind=None):
    """What a program reads of all tables, the kind behind the name where it reads more kinds, and what it has to print."""
    given, expected = [], []
    for name, file in cases():
        given.append(" ".join([name] + [kind] * bool(kind) + [words_of(file)]))
        expected += report(name, file)
    return given, expected


def store(crate, given, expected, tool, checking):
    """Writes the input and the output of a test program; where it only checks, ends with status 1 if they differ."""
    for name, content in (("stdin", given), ("stdout", expected + ["%d cases" % len(given)])):
        path = CRATES / crate / name
        text = "".join(line + "\n" for line in content)
        if not checking:
            path.write_text(text)
        elif not path.exists() or path.read_text() != text:
            sys.exit("%s is not what tools/%s writes" % (path, tool))


def is_checking(words, tool):
    """Whether the words of the command line ask to check alone."""
    if words not in ([], ["--check"]):
        sys.exit("usage: python3 tools/%s [--check]" % tool)
    return words == ["--check"]


def main(words):
    tool = Path(__file__).name
    store("table_tests", *lines(), tool, is_checking(words, tool))


if __name__ == "__main__":
    main(sys.argv[1:])
