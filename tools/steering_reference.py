#!/usr/bin/env python3
"""Writes what the programs `uri_tests` and `description_tests` read and what they have to print, by readers of URIs,
references and playlists that share no code with them.

    python3 tools/steering_reference.py            writes stdin and stdout of the two crates
    python3 tools/steering_reference.py --check    writes nothing; status 1 where one is not what would be written

The cases stand in tools/uri_cases.txt, tools/playlist_cases.txt and tools/table_cases.txt (read by table_reference.py).
Behind them comes a sample by samples.py, made from a fixed seed. A line of a case file is a case, a comment that begins
with `#`, or empty. A case is a name and then words, all parted by single spaces, and may end in ` => ` and words that
say what is expected of it; this script ends with a message where the answer is another. In TEXT, `\\hh` is a byte by
two small hex digits and `{TEXT*N}` is TEXT repeated N times (without braces inside). The characters `\\`, `{` and `}`
stand for themselves in no text: they are written in hex.

URIs. A case is one of these, each argument a TEXT, or `-` where it is empty; `=> TEXT` or `=> none` may follow:

    NAME resolve BASE REFERENCE
    NAME set URI PARAMETER VALUE
    NAME host URI HOST

The program reads the same with the arguments in hex, and prints `NAME TEXT` or `NAME none`, and at the end the number
of cases.

Playlists. The words of a case add to the text from left to right:

    own=TEXT         the playlist's own URI, which is https://o.example/a/main.m3u8 without this word
    crlf, lf         how the lines behind this word end; without it, by LF
    line:TEXT        a line
    m3u              the line `#EXTM3U`
    steer:LIST       a steering tag, which is the line `#EXT-X-CONTENT-STEERING:LIST`
    stream:LIST      a stream tag, which is the line `#EXT-X-STREAM-INF:LIST`
    media:LIST       a stream tag, and behind it the line `v1.m3u8`
    start            m3u steer:SERVER-URI="s"
    N*WORD           the word N times; `{#}` in it, and the 1 in `v1.m3u8`, is the number of the turn, from 1
    add=TEXT         bytes without a line end
    upto=N           a comment `#xx..` without a line end, which brings the text to N bytes
    chop=N           drops the last N bytes

LIST is a TEXT. What may be expected is a refusal as `NUMBER@PLACE`, where PLACE is `L` for the first byte of line L,
`L:TEXT` for the first place of TEXT in line L, or `end` for the text's length; or an acceptance by any of `s=TEXT` for
the steering URI, `ID:MEMBERS` for each pathway in order, and `m=TEXT` for each member in order.

The program reads `NAME playlist OWN` and the bytes of the text, in words as table_reference.py has them, and prints the
same lines as for a table.
"""

import re
import sys
from pathlib import Path

import samples
import table_reference
from table_reference import LEGAL_ID, PCHAR, Unreadable, expand, is_checking, is_uri, store, told, words_of

TOOLS = Path(__file__).resolve().parent

# ---- URIs ----

# The expression of RFC 3986, appendix B, which holds of every text.
PARTS = re.compile(
    rb"(?:(?P<scheme>[^:/?#]+):)?(?://(?P<authority>[^/?#]*))?(?P<path>[^?#]*)"
    rb"(?:\?(?P<query>[^#]*))?(?:#(?P<fragment>.*))?",
    re.DOTALL,
)

# The grammar of RFC 3986, appendix A. Of a host in brackets only the bytes are looked at: it is no part of a legal URI.
SEGMENT = rb"(?:%s)*" % PCHAR
SEGMENT_NZ = rb"(?:%s)+" % PCHAR
SEGMENT_NZ_NC = rb"(?:[A-Za-z0-9._~!$&'()*+,;=@-]|%[0-9A-Fa-f]{2})+"
REG_NAME = rb"(?:[A-Za-z0-9._~!$&'()*+,;=-]|%[0-9A-Fa-f]{2})*"
USER = rb"(?:[A-Za-z0-9._~!$&'()*+,;=:-]|%[0-9A-Fa-f]{2})*"
AUTHORITY = rb"(?:" + USER + rb"@)?(?:\[[A-Za-z0-9._~!$&'()*+,;=:-]+\]|" + REG_NAME + rb")(?::[0-9]*)?"
MORE = rb"(?:/" + SEGMENT + rb")*"
WITH_AUTHORITY = rb"//" + AUTHORITY + MORE
PATH_ABSOLUTE = rb"/(?:" + SEGMENT_NZ + MORE + rb")?"
TAIL = rb"(?:%s|[/?])*" % PCHAR
REFERENCE = re.compile(
    rb"(?:[A-Za-z][A-Za-z0-9+.-]*:(?:"
    + rb"|".join([WITH_AUTHORITY, PATH_ABSOLUTE, SEGMENT_NZ + MORE, rb""])
    + rb")|(?:"
    + rb"|".join([WITH_AUTHORITY, PATH_ABSOLUTE, SEGMENT_NZ_NC + MORE, rb""])
    + rb"))(?:\?"
    + TAIL
    + rb")?(?:#"
    + TAIL
    + rb")?"
)


def is_reference(text):
    return len(text) <= 512 and bool(REFERENCE.fullmatch(text))


def without_last_segment(path):
    """The path up to its last slash, which goes too."""
    return path[: max(path.rfind(b"/"), 0)]


def without_dots(path):
    """The loop of RFC 3986, section 5.2.4."""
    out = b""
    while path:
        if path.startswith(b"../"):
            path = path[3:]
        elif path.startswith(b"./"):
            path = path[2:]
        elif path.startswith(b"/./"):
            path = path[2:]
        elif path == b"/.":
            path = b"/"
        elif path.startswith(b"/../"):
            path, out = path[3:], without_last_segment(out)
        elif path == b"/..":
            path, out = b"/", without_last_segment(out)
        elif path in (b".", b".."):
            path = b""
        else:
            end = path.find(b"/", 1)
            end = len(path) if end < 0 else end
            out, path = out + path[:end], path[end:]
    return out


def merged(base, path):
    """Section 5.2.3."""
    if base["authority"] is not None and not base["path"]:
        return b"/" + path
    return base["path"][: base["path"].rfind(b"/") + 1] + path


def recomposed(scheme, authority, path, query, fragment):
    """Section 5.3."""
    text = b"" if scheme is None else scheme + b":"
    text += b"" if authority is None else b"//" + authority
    text += path
    text += b"" if query is None else b"?" + query
    return text + (b"" if fragment is None else b"#" + fragment)


def resolve(base, reference):
    """The URI that a reference stands for, or None; by section 5.2.2, strictly."""
    if not is_uri(base) or not is_reference(reference):
        return None
    b, r = PARTS.fullmatch(base), PARTS.fullmatch(reference)
    scheme, authority, path, query = b["scheme"], b["authority"], b["path"], r["query"]
    if r["scheme"] is not None:
        scheme, authority, path = r["scheme"], r["authority"], without_dots(r["path"])
    elif r["authority"] is not None:
        authority, path = r["authority"], without_dots(r["path"])
    elif not r["path"]:
        query = b["query"] if query is None else query
    elif r["path"].startswith(b"/"):
        path = without_dots(r["path"])
    else:
        path = without_dots(merged(b, r["path"]))
    if authority is None:
        return None
    target = recomposed(scheme, authority, path, query, r["fragment"])
    return target if is_uri(target) else None


def set_parameter(uri, name, value):
    """The URI with the parameter set, or None where that has more than 512 bytes."""
    whole, mark, fragment = uri.partition(b"#")
    front, _, query = whole.partition(b"?")
    parts, done = [], False
    for part in query.split(b"&") if query else []:
        if part.split(b"=")[0] != name:
            parts.append(part)
        elif not done:
            parts.append(name + b"=" + value)
            done = True
    if not done:
        parts.append(name + b"=" + value)
    text = front + b"?" + b"&".join(parts) + mark + fragment
    return text if len(text) <= 512 else None


def replace_host(uri, host):
    """The URI with another host, or None where that has more than 512 bytes."""
    parts = PARTS.fullmatch(uri)
    text = uri
    if parts["authority"] is not None:
        start = parts.start("authority")
        end = start + len(parts["authority"].split(b":")[0])
        text = uri[:start] + host + uri[end:]
    return text if len(text) <= 512 else None


# ---- playlists ----

STEERING = b"#EXT-X-CONTENT-STEERING:"
STREAM = b"#EXT-X-STREAM-INF:"
ATTRIBUTE = re.compile(rb'([A-Z0-9-]+)=(?:(?P<quoted>"[^"\r\n]*")|(?P<plain>[!#-+\--~\x80-\xff]+))(?P<comma>,)?')


def lines_of(text):
    """The lines as (place, text)."""
    *ended, last = text.split(b"\n")
    lines, place = [], 0
    for line in ended:
        lines.append((place, line[:-1] if line.endswith(b"\r") else line))
        place += len(line) + 1
    return lines + [(place, last)] if last else lines


def attributes_of(text, place):
    """The attributes as (name, value with its quotes, place of the value), or None where the list is broken."""
    attributes, at, more = [], 0, True
    while more:
        found = ATTRIBUTE.match(text, at)
        if not found:
            return None
        kind = "quoted" if found["quoted"] is not None else "plain"
        attributes.append((found[1], found[kind], place + found.start(kind)))
        at, more = found.end(), found["comma"]
    return attributes if at == len(text) else None


class Tag:
    """A steering tag, or a stream tag with the line that gives its URI."""

    def __init__(self, mark, line, below):
        self.mark = mark
        self.place, text = line
        self.list = text[len(mark) :]
        self.attributes = attributes_of(self.list, self.place + len(mark))
        self.uri_line = None
        if mark == STREAM:
            for other in below:
                if other[1].startswith(STREAM):
                    break
                if other[1] and not other[1].startswith(b"#"):
                    self.uri_line = other
                    break

    def get(self, name):
        """The value with its quotes, and its place; (None, None) where the name is absent."""
        for found, value, place in self.attributes:
            if found == name:
                return value, place
        return None, None

    def pathway(self):
        value, _ = self.get(b"PATHWAY-ID")
        return b"." if value is None else value[1:-1]


class Playlist:
    def __init__(self, own, text):
        self.own = own
        self.text = text
        self.lines = lines_of(text)
        self.tags = [
            Tag(mark, line, self.lines[i + 1 :])
            for i, line in enumerate(self.lines)
            for mark in (STEERING, STREAM)
            if line[1].startswith(mark)
        ]
        self.steering = [tag for tag in self.tags if tag.mark == STEERING]
        self.streams = [tag for tag in self.tags if tag.mark == STREAM]


def own_fault(playlist):
    return None if is_uri(playlist.own) else 0


def length_fault(playlist):
    return None if 1 <= len(playlist.text) <= 65535 else 0


def header_fault(playlist):
    return None if playlist.lines[0][1] == b"#EXTM3U" else 0


def absent_list_fault(playlist):
    for tag in playlist.tags:
        if not tag.list:
            return tag.place


def broken_list_fault(playlist):
    for tag in playlist.tags:
        if tag.attributes is None:
            return tag.place


def repeated_name_fault(playlist):
    for tag in playlist.tags:
        names = [name for name, _, _ in tag.attributes]
        if len(set(names)) < len(names):
            return tag.place


def no_steering_fault(playlist):
    return None if playlist.steering else len(playlist.text)


def second_steering_fault(playlist):
    for tag in playlist.steering[1:]:
        return tag.place


def server_fault(playlist):
    value, _ = playlist.steering[0].get(b"SERVER-URI")
    if value is None or not value.startswith(b'"'):
        return playlist.steering[0].place


def uri_line_fault(playlist):
    for tag in playlist.streams:
        if tag.uri_line is None:
            return tag.place


def id_fault(playlist):
    for tag in playlist.tags:
        value, place = tag.get(b"PATHWAY-ID")
        if value is not None and value.startswith(b'"') and not LEGAL_ID.fullmatch(value[1:-1]):
            return place


def unquoted_id_fault(playlist):
    for tag in playlist.tags:
        value, place = tag.get(b"PATHWAY-ID")
        if value is not None and not value.startswith(b'"'):
            return place


def uri_fault(playlist):
    """The references stand in the order of their lines, whichever tag a line belongs to."""
    value, place = playlist.steering[0].get(b"SERVER-URI")
    references = [(place, value[1:-1])] + [tag.uri_line for tag in playlist.streams]
    for place, reference in sorted(references):
        if resolve(playlist.own, reference) is None:
            return place


def count_fault(playlist):
    if not playlist.streams:
        return len(playlist.text)
    counts = {}
    for tag in playlist.streams:
        counts[tag.pathway()] = counts.get(tag.pathway(), 0) + 1
        if len(counts) > 16 or counts[tag.pathway()] > 32:
            return tag.place


def unserved_fault(playlist):
    tag = playlist.steering[0]
    if tag.get(b"PATHWAY-ID")[0] is not None and all(tag.pathway() != stream.pathway() for stream in playlist.streams):
        return tag.place


RULES = (
    (9, own_fault),
    (10, length_fault),
    (11, header_fault),
    (12, absent_list_fault),
    (12, broken_list_fault),
    (12, repeated_name_fault),
    (13, no_steering_fault),
    (13, second_steering_fault),
    (13, server_fault),
    (14, uri_line_fault),
    (15, id_fault),
    (15, unquoted_id_fault),
    (16, uri_fault),
    (17, count_fault),
    (17, unserved_fault),
)


def meaning(playlist):
    """Dialect, steering URI and pathways of a legal playlist."""
    tag = playlist.steering[0]
    value, _ = tag.get(b"SERVER-URI")
    pathways = {tag.pathway(): []} if tag.get(b"PATHWAY-ID")[0] is not None else {}
    for stream in playlist.streams:
        pathways.setdefault(stream.pathway(), []).append(resolve(playlist.own, stream.uri_line[1]))
    return "hls", resolve(playlist.own, value[1:-1]).partition(b"#")[0], list(pathways.items())


def judged(own, text):
    """The refusal (number, place) and the meaning of a playlist, of which one is None."""
    playlist = Playlist(own, text)
    for number, rule in RULES:
        place = rule(playlist)
        if place is not None:
            return (number, place), None
    return None, meaning(playlist)


# ---- the case language of URIs ----

ARGUMENTS = {"resolve": (2, resolve), "set": (3, set_parameter), "host": (2, replace_host)}


def text_of(word):
    return b"" if word == "-" else expand(word)


def uri_case(words):
    """The kind and arguments of a case."""
    kind, *texts = words
    if kind not in ARGUMENTS or len(texts) != ARGUMENTS[kind][0]:
        raise Unreadable
    return kind, [text_of(text) for text in texts]


def uri_answer(kind, arguments):
    return ARGUMENTS[kind][1](*arguments)


def uri_given(name, kind, arguments):
    """A case as the program reads it."""
    return " ".join([name, kind] + [argument.hex() or "-" for argument in arguments])


def uri_expected(name, answer):
    return "%s %s" % (name, "none" if answer is None else answer.decode("ascii"))


def agrees_uri(answer, expectation):
    (text,) = expectation
    return answer == (None if text == "none" else text_of(text))


# ---- the case language of playlists ----

TIMES = re.compile(r"(?:(?P<times>[0-9]+)\*)?(?P<word>[a-z0-9]+)(?:(?P<sign>[:=])(?P<text>.*))?")
SERVER = rb'SERVER-URI="s"'


def lines_by(word, text, turn):
    """The lines that a word adds."""
    lines = {
        "line": [text],
        "m3u": [b"#EXTM3U"],
        "steer": [STEERING + text],
        "stream": [STREAM + text],
        "media": [STREAM + text, b"v%d.m3u8" % turn],
        "start": [b"#EXTM3U", STEERING + SERVER],
    }
    if word not in lines:
        raise Unreadable
    return lines[word]


def playlist_case(words):
    """The own URI and the text that the words of a case make."""
    own, text, end = samples.OWN, b"", b"\n"
    for word in words:
        found = TIMES.fullmatch(word)
        if not found:
            raise Unreadable
        value = found["text"] or ""
        name = found["word"] + (found["sign"] or "")
        if name == "own=":
            own = expand(value)
        elif name in ("crlf", "lf"):
            end = {"crlf": b"\r\n", "lf": b"\n"}[name]
        elif name == "add=":
            text += expand(value)
        elif name == "upto=":
            text += b"#" + b"x" * (int(value) - len(text) - 1)
        elif name == "chop=":
            text = text[: len(text) - int(value)]
        elif (found["sign"] == ":") == (found["word"] in ("line", "steer", "stream", "media")):
            for turn in range(1, int(found["times"] or 1) + 1):
                text += b"".join(line + end for line in lines_by(found["word"], expand(value, turn), turn))
        else:
            raise Unreadable
    return own, text


def place_of(text, words):
    """The place that an expectation names, or None where the text has no such line or part."""
    if words == "end":
        return len(text)
    number, _, part = words.partition(":")
    if not number.isdigit():
        return None
    lines = text.split(b"\n")
    before, behind = lines[: int(number) - 1], lines[int(number) - 1 :]
    if not behind or expand(part) not in behind[0]:
        return None
    return sum(len(line) + 1 for line in before) + behind[0].index(expand(part))


def agrees_playlist(text, refusal, meant, expectation):
    if "@" in expectation[0]:
        number, _, place = expectation[0].partition("@")
        return len(expectation) == 1 and refusal == (int(number), place_of(text, place))
    if refusal:
        return False
    _, steering, pathways = meant
    answers = {
        "s=": [steering],
        "m=": [uri for _, uris in pathways for uri in uris],
        "": [b"%s:%d" % (id, len(uris)) for id, uris in pathways],
    }
    stated = {mark: [] for mark in answers}
    for word in expectation:
        mark = word[:2] if word[:2] in stated else ""
        stated[mark].append(expand(word[len(mark) :]))
    return all(stated[mark] in ([], answers[mark]) for mark in answers)


def playlist_given(name, own, text):
    """A case as the program reads it."""
    return "%s playlist %s %s" % (name, own.hex() or "0*00", words_of(text))


# ---- the files ----

# The stored sample.
SEED = 1
STORED = {"resolve": 80, "set": 50, "host": 30, "playlist": 140}


def cases_in(path, read):
    """The names, cases and expectations of a file."""
    names = set()
    for number, line in enumerate(path.read_text().splitlines(), 1):
        if not line or line.startswith("#"):
            continue
        words, _, expectation = line.partition(" => ")
        name, *words = words.split(" ")
        try:
            if not words or name in names:
                raise Unreadable
            yield name, read(words), expectation.split(" ") if expectation else None, "%s: line %d" % (path, number)
        except (Unreadable, ValueError):
            sys.exit("%s: line %d is no case, or one of an earlier name: %s" % (path, number, line))
        names.add(name)


def uri_lines():
    given, expected = [], []
    for name, (kind, arguments), expectation, place in cases_in(TOOLS / "uri_cases.txt", uri_case):
        answer = uri_answer(kind, arguments)
        if expectation and not agrees_uri(answer, expectation):
            sys.exit("%s: the answer is %s" % (place, uri_expected(name, answer)))
        given.append(uri_given(name, kind, arguments))
        expected.append(uri_expected(name, answer))
    for kind in ARGUMENTS:
        for number, arguments in enumerate(samples.sample(kind, STORED[kind], SEED), 1):
            name = "sample-%s-%d" % (kind, number)
            given.append(uri_given(name, kind, arguments))
            expected.append(uri_expected(name, uri_answer(kind, arguments)))
    return given, expected


def playlist_lines():
    given, expected = [], []
    for name, (own, text), expectation, place in cases_in(TOOLS / "playlist_cases.txt", playlist_case):
        answer = judged(own, text)
        if expectation and not agrees_playlist(text, *answer, expectation):
            sys.exit("%s: the answer is %s" % (place, "\n".join(told(name, *answer))))
        given.append(playlist_given(name, own, text))
        expected += told(name, *answer)
    for number, (own, text) in enumerate(samples.sample("playlist", STORED["playlist"], SEED), 1):
        name = "sample-playlist-%d" % number
        given.append(playlist_given(name, own, text))
        expected += told(name, *judged(own, text))
    return given, expected


def description_lines():
    given, expected = table_reference.lines("table")
    more_given, more_expected = playlist_lines()
    return given + more_given, expected + more_expected


def main(words):
    tool = Path(__file__).name
    checking = is_checking(words, tool)
    for crate, lines in (("uri_tests", uri_lines), ("description_tests", description_lines)):
        store(crate, *lines(), tool, checking)


if __name__ == "__main__":
    main(sys.argv[1:])
