"""Inputs made at random from a seed: references, parameters, hosts and playlists, good ones and damaged ones.

`sample(kind, count, seed)` gives the arguments of that many cases. It draws from `random.random` alone, so that a seed
gives the same cases under every Python 3.
"""

import random

OWN = b"https://o.example/a/main.m3u8"


class Dice:
    def __init__(self, seed):
        self.draw = random.Random(seed).random

    def below(self, count):
        """A number from 0 up to count, without it."""
        return int(self.draw() * count)

    def chance(self, share):
        return self.draw() < share

    def pick(self, choices):
        return choices[self.below(len(choices))]

    def some(self, choices, most, joint=b""):
        """Up to `most` of them, joined."""
        return joint.join(self.pick(choices) for _ in range(self.below(most + 1)))


# ---- texts and their damage ----

ODD = [
    b"%", b"%4", b"%zz", b"\x80", b"\xff", b"\x00", b" ", b'"', b"\\", b"[", b"\r", b"\n", b"#", b"?", b"/",
    b":", b"//", b"..", b"&", b"=", b",",
]


def damaged(dice, text, odd=ODD):
    """The text with one to three small changes."""
    for _ in range(1 + dice.below(3)):
        at = dice.below(len(text) + 1)
        to = at + dice.below(4)
        change = dice.below(4)
        if change == 0:
            text = text[:at] + dice.pick(odd) + text[at:]
        elif change == 1:
            text = text[:at] + dice.pick(odd) + text[at + 1 :]
        elif change == 2:
            text = text[:at] + text[to:]
        else:
            text = text[:at] + text[at:to] + text[at:]
    return text


# ---- URIs ----

SCHEMES = [b"http", b"https", b"https", b"HTTP", b"hTTps"]
HOSTS = [b"a", b"o.example", b"c-1.example", b"A_b.9", b"h" * 128]
BAD_AUTHORITIES = [b"", b"u@a", b"a:", b"a:65536", b"a:000080", b"[::1]", b"h" * 129, b"a%41"]
PORTS = [b"", b"", b"", b":0", b":80", b":65535", b":00443"]
SEGMENTS = [
    b".", b"..", b"", b"a", b"b", b"c.m3u8", b"%41", b"%2e", b"..a", b".b", b"...", b"d;p=1", b"e:f", b"@",
    b"~!$&'()*+,=",
]
QUERIES = [b"", b"q", b"k=1", b"x=1&k=2", b"a/../b?c", b"%20", b":@"]


def path(dice):
    return b"".join(b"/" + dice.pick(SEGMENTS) for _ in range(dice.below(6)))


def tail(dice):
    """A query and a fragment, each perhaps."""
    text = b"?" + dice.pick(QUERIES) if dice.chance(0.3) else b""
    return text + (b"#" + dice.pick(QUERIES) if dice.chance(0.2) else b"")


def authority(dice):
    return dice.pick(HOSTS) + dice.pick(PORTS)


def uri(dice):
    return dice.pick(SCHEMES) + b"://" + authority(dice) + path(dice) + tail(dice)


def filled(dice, text):
    """The text with one byte repeated in its middle, so that it has about 512 bytes."""
    at = text.rfind(b"/") + 1
    return text[:at] + b"x" * max(508 + dice.below(9) - len(text), 0) + text[at:]


def relative(dice):
    """A reference without authority, mostly a legal one."""
    text = path(dice)
    if dice.chance(0.7):
        text = text.lstrip(b"/")
    return text + tail(dice)


def reference(dice):
    form = dice.below(20)
    if form < 12:
        text = relative(dice)
    elif form < 15:
        text = b"//" + authority(dice) + path(dice) + tail(dice)
    elif form < 17:
        text = uri(dice)
    elif form < 18:
        text = dice.pick([b"ftp", b"http", b"urn", b"1x"]) + b":" + dice.pick([b"", b"//", b"//a"]) + path(dice)
    elif form < 19:
        text = b"//" + dice.pick(BAD_AUTHORITIES) + path(dice)
    else:
        text = dice.some([b"../", b"./"], 200) + b"g" * dice.below(6)
    return text


def resolve(dice):
    base, text = uri(dice), reference(dice)
    change = dice.below(20)
    if change < 3:
        base = filled(dice, base)
    elif change < 6:
        text = filled(dice, text)
    elif change < 9:
        # The target has about 512 bytes.
        base = b"http://a" + b"/b" * dice.below(100)
        text = b"g" * max(508 - len(base) + dice.below(9), 0) + tail(dice)
    elif change < 11:
        base = damaged(dice, base)
    elif change < 15:
        text = damaged(dice, text)
    return [base, text]


NAMES = [b"k", b"k", b"key", b"K", b"", b"x", b"_HLS_pathway"]
VALUES = [b"", b"5", b"a.b", b"5=6", b"%26"]
ASCII = [b"&", b"=", b"?", b"#", b"/", b":", b"//", b"k", b"k=", b"&k", b"%"]


def any_text(dice):
    """A URI with a query of several parts, or a damaged one, of ASCII characters."""
    parts = [dice.pick(NAMES) + dice.pick([b"", b"=", b"=1", b"=1=2"]) for _ in range(dice.below(6))]
    text = dice.pick(SCHEMES) + b"://" + authority(dice) + path(dice)
    if dice.chance(0.8):
        text += b"?" + b"&".join(parts)
    if dice.chance(0.3):
        text += b"#" + dice.pick([b"", b"f", b"f?k=1&x", b"//a:1"])
    if dice.chance(0.2):
        text = filled(dice, text)
    return damaged(dice, text, ASCII) if dice.chance(0.4) else text


def set_parameter(dice):
    return [any_text(dice), dice.pick(NAMES), dice.pick(VALUES)]


def replace_host(dice):
    text = any_text(dice)
    if dice.chance(0.3):
        text = text[dice.below(12) :]
    return [text, dice.pick([b"h", b"h.example", b"h" * 128, b"h" * 100, b""])]


# ---- playlists ----

IDS = [b"a", b"b", b"A", b".", b"cdn-1", b"cdn-2", b"i" * 32, b"ab"]
BAD_IDS = [b'""', b'"' + b"i" * 33 + b'"', b'"a~"', b'"a b"', b'"\x80"', b'"a/"', b"a", b".", b"/"]
ATTRIBUTES = [
    b"BANDWIDTH=1", b"CODECS=\"avc1,mp4a\"", b"RESOLUTION=1x2", b"AUDIO=\"\"", b"X-A=\xff", b"NAME=\"a b\"",
    b"SCORE=1.5", b"Z===",
]
BROKEN = [
    b"B", b"B=", b"=1", b"b=1", b"B=1 ", b" B=1", b"B=\"1", b"B=\"1\"2", b"B=1\x7f", b"", b"B=1\"",
    b"B=\"a\rb\"",
]
SKIPPED = [
    b"", b"", b"#", b"# x", b"#EXT-X-VERSION:7", b"#EXT-X-MEDIA:TYPE=AUDIO", b"#EXT-X-STREAM-INF",
    b"#ext-x-stream-inf:",
]
STRAYS = [b"stray", b"\x80", b" "]
MEMBERS = [
    b"v.m3u8", b"../w", b"/x/./y", b"//m.example/z", b"https://c.example/", b"?q=1", b"d/e#f", b"HTTP://c",
    b"g;h=1",
]
BAD_MEMBERS = [
    b":", b"a b", b"%", b"ftp://c/", b"http:g", b"//", b"x" * 493, b"https://c.example/" + b"x" * 495,
    b"\x80", b"a\r", b"a:b",
]
SERVERS = [b"s", b"", b"/s?x=1#f", b"https://s.example", b"//s", b"../s"]
STEERING = b"#EXT-X-CONTENT-STEERING:"
STREAM = b"#EXT-X-STREAM-INF:"


class Draft:
    """A playlist as lists of attributes, before it is written."""

    def __init__(self, dice):
        self.dice = dice
        self.own = OWN if dice.chance(0.7) else uri(dice)
        self.head = b"#EXTM3U"
        self.server = [b'SERVER-URI="' + dice.pick(SERVERS) + b'"']
        many = dice.pick([1, 2, 3, 5, 8, 20])
        names = [dice.pick(IDS + [None]) for _ in range(1 + dice.below(4))]
        self.streams = [self.stream(dice.pick(names)) for _ in range(many)]
        if dice.chance(0.4):
            self.server.insert(dice.below(2), b'PATHWAY-ID="' + (self.name(dice.pick(self.streams)) or b".") + b'"')
        if dice.chance(0.2):
            self.server.append(b"X-B=2")
        self.skips = dice.pick([0, 0, 0.3])
        self.end = dice.pick([b"\n", b"\n", b"\r\n"])
        self.place = dice.pick([0, 0, dice.below(2 * many + 1)])
        self.last = dice.chance(0.8)

    def name(self, stream):
        for attribute in stream[0]:
            if attribute.startswith(b'PATHWAY-ID="'):
                return attribute[12:-1]
        return None

    def stream(self, name):
        """Attributes and URI lines of a stream."""
        dice = self.dice
        start = dice.below(len(ATTRIBUTES))
        attributes = [ATTRIBUTES[(start + i) % len(ATTRIBUTES)] for i in range(dice.below(4))]
        if name is not None:
            attributes.insert(dice.below(len(attributes) + 1), b'PATHWAY-ID="' + name + b'"')
        return [attributes or [b"B=1"], [dice.pick(MEMBERS)]]

    def lines(self):
        lines = []
        for attributes, uris in self.streams:
            lines.append(STREAM + b",".join(attributes))
            lines += uris
        if self.server is not None:
            lines.insert(min(self.place, len(lines)), STEERING + b",".join(self.server))
        return [self.head] + lines

    def text(self):
        dice, lines = self.dice, []
        for line in self.lines():
            lines.append(line)
            while dice.chance(self.skips):
                # A line that is not empty and no comment would be read as a URI behind a stream tag.
                lines.append(dice.pick(SKIPPED if line.startswith(STREAM) else SKIPPED + STRAYS))
        text = b"".join(line + self.end for line in lines)
        return text if self.last else text[: -len(self.end)]


def set_attribute(attributes, name, value):
    """Puts a value in place of the one that the name has, or behind the others."""
    for i, attribute in enumerate(attributes):
        if attribute.startswith(name + b"="):
            attributes[i] = name + b"=" + value
            return
    attributes.append(name + b"=" + value)


def any_list(dice, draft):
    return draft.server if dice.chance(0.3) and draft.server else dice.pick(draft.streams)[0]


def spoil_own(dice, draft):
    draft.own = dice.pick([b"", b"/a", b"ftp://o/", OWN + b"\x80", OWN + b"x" * 484, b"https://o:65536/", OWN + b"%"])


def spoil_head(dice, draft):
    draft.head = dice.pick([b"#EXTM3U8", b"#extm3u", b"", b" #EXTM3U", b"#EXTM3U\r", b"\xef\xbb\xbf#EXTM3U", b"#EXTM3"])


def spoil_list(dice, draft):
    attributes = any_list(dice, draft)
    form = dice.below(4)
    if form == 0:
        del attributes[:]
    elif form == 1:
        attributes.insert(dice.below(len(attributes) + 1), dice.pick(BROKEN))
    elif form == 2 and attributes:
        attributes.append(dice.pick(attributes))
    else:
        attributes.append(b"BANDWIDTH=1")
        attributes.append(b"BANDWIDTH=\"2\"")


def spoil_steering(dice, draft):
    form = dice.below(4)
    if form == 0:
        draft.server = None
    elif form == 1:
        second = [[b"B=1"], [dice.pick(MEMBERS), STEERING + b'SERVER-URI="t"']]
        draft.streams.insert(dice.below(len(draft.streams) + 1), second)
    elif form == 2:
        set_attribute(draft.server or [], b"SERVER-URI", b"s")
    else:
        others = [attribute for attribute in draft.server or [] if not attribute.startswith(b"SERVER")]
        draft.server = [b"X-A=1"] + others


def spoil_uri_line(dice, draft):
    dice.pick(draft.streams)[1] = dice.pick([[], [b"#c"], [b""], [b"", b"# x"]])
    draft.skips = 0


def spoil_id(dice, draft):
    for _ in range(1 + dice.below(2)):
        set_attribute(any_list(dice, draft), b"PATHWAY-ID", dice.pick(BAD_IDS))


def spoil_reference(dice, draft):
    for _ in range(1 + dice.below(2)):
        if dice.chance(0.3):
            set_attribute(draft.server or [], b"SERVER-URI", b'"' + dice.pick(BAD_MEMBERS) + b'"')
        else:
            dice.pick(draft.streams)[1] = [dice.pick(BAD_MEMBERS)]


def spoil_counts(dice, draft):
    form = dice.below(5)
    if form == 0:
        draft.streams = []
    elif form == 1:
        set_attribute(draft.server or [], b"PATHWAY-ID", b'"nowhere"')
    elif form == 2:
        draft.streams += [draft.stream(b"p%d" % i) for i in range(12 + dice.below(6))]
    else:
        name = dice.pick(IDS + [None])
        draft.streams += [draft.stream(name) for _ in range(dice.pick([30, 31, 32, 33]))]
    if form == 4:
        draft.streams += [draft.stream(b"p%d" % i) for i in range(12 + dice.below(6))]


# In the order in which two of them are done: the last one may leave no stream.
SPOILING = [
    spoil_own,
    spoil_head,
    spoil_list,
    spoil_list,
    spoil_steering,
    spoil_steering,
    spoil_uri_line,
    spoil_id,
    spoil_id,
    spoil_reference,
    spoil_reference,
    spoil_counts,
    spoil_counts,
    spoil_counts,
]


def about_the_limit(dice, text):
    """The text with skipped lines behind it, so that it has about 65,535 bytes; or no text."""
    if dice.chance(0.2):
        return b""
    text = text.rstrip(b"\r\n") + b"\n#"
    return text + dice.pick([b"x", b"\n", b"#"]) * max(65531 + dice.below(9) - len(text), 0)


def damaged_lines(dice, text):
    """The text with lines swapped, repeated, dropped or parted."""
    lines = text.split(b"\n")
    for _ in range(1 + dice.below(3)):
        a, b = dice.below(len(lines)), dice.below(len(lines))
        form = dice.below(4)
        if form == 0:
            lines[a], lines[b] = lines[b], lines[a]
        elif form == 1:
            lines.insert(a, lines[b])
        elif form == 2 and len(lines) > 1:
            del lines[a]
        else:
            at = dice.below(len(lines[a]) + 1)
            lines[a : a + 1] = [lines[a][:at], lines[a][at:]]
    return b"\n".join(lines)


def playlist(dice):
    draft = Draft(dice)
    form = dice.below(100)
    if 30 <= form < 85:
        chosen = [dice.below(len(SPOILING)) for _ in range(2 if form < 42 else 1)]
        for number in sorted(chosen):
            SPOILING[number](dice, draft)
    text = draft.text()
    if 80 <= form < 86:
        text = about_the_limit(dice, text)
    elif 86 <= form < 93:
        text = damaged(dice, text)
    elif form >= 93:
        text = damaged_lines(dice, text)
    return [draft.own, text]


KINDS = {"resolve": resolve, "set": set_parameter, "host": replace_host, "playlist": playlist}


def sample(kind, count, seed):
    """The arguments of that many cases."""
    # Each kind has draws of its own, so that the number of cases of one leaves the others as they are.
    dice = Dice(seed * len(KINDS) + list(KINDS).index(kind))
    return [KINDS[kind](dice) for _ in range(count)]
