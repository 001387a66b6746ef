#!/usr/bin/env python3
"""A second reader of Binary HTTP: corpus/second_reader.py canon|check|show [--part N] [--section N] [--interims N] [--input N] < INPUT

It answers as `bhttp` does: output, one line on standard error, and a status. It was written from docs/FORMAT.md and
docs/COMMAND.md alone, takes Python 3 and nothing else, and shares no code with the program, nor with the one that computed the
answers of bhttp.json. It is plain and slow: it holds the whole input, and is for comparing (corpus/mutate).
"""

import re
import sys
from dataclasses import dataclass, field
from functools import lru_cache

DONE, REFUSED, USAGE, NOT_UTF8 = 0, 1, 2, 8
USAGE_LINE = "usage: bhttp COMMAND [OPTIONS]\n"
GREATEST = 2**62 - 1
CHUNK = 8192
LISTED = 32


# Words (COMMAND.md, Words and Limits)


@dataclass(frozen=True)
class Limits:
    part: int = 8192
    section: int = 65536
    interims: int = 16
    input: int = 2**40


RANGES = {"part": (16, 65535), "section": (16, 2**20), "interims": (0, 255), "input": (1, 2**40)}


def limits_of(words):
    """The limits that the words behind the command's name say, or nothing where a word isn't taken."""
    found = {}
    rest = list(words)
    while rest:
        name, has_value, value = rest.pop(0).partition("=")
        if not has_value:
            value = rest.pop(0) if rest else ""
        key = name[2:] if name.startswith("--") else None
        if key not in RANGES or key in found or not re.fullmatch("[0-9]{1,13}", value):
            return None
        low, high = RANGES[key]
        if not low <= int(value) <= high:
            return None
        found[key] = int(value)
    return Limits(**found)


# Bytes (FORMAT.md, Bytes)

UPPER = frozenset(b"ABCDEFGHIJKLMNOPQRSTUVWXYZ")
LETTERS = UPPER | frozenset(b"abcdefghijklmnopqrstuvwxyz")
DIGITS = frozenset(b"0123456789")
TOKEN = LETTERS | DIGITS | frozenset(b"!#$%&'*+-.^_`|~")
SCHEME = LETTERS | DIGITS | frozenset(b"+-.")
AUTHORITY = LETTERS | DIGITS | frozenset(b"-._~!$&'()*+,;=%:[]")
PATH = LETTERS | DIGITS | frozenset(b"-._~!$&'()*+,;=%:@/?")
VALUE = frozenset(range(256)) - frozenset(b"\0\n\r")
BLANKS = frozenset(b" \t")
QUOTED = frozenset(range(0x20, 0x7F)) - frozenset(b'"\\')
CONTROL_NAMES = frozenset((b":method", b":scheme", b":authority", b":path", b":status"))


# Integers (FORMAT.md, Integers)


def integer(number, width=0):
    """The number in the width, or in the least one that holds it where that is more."""
    width = next(w for w in (1, 2, 4, 8) if w >= width and number < 2 ** (8 * w - 2))
    tag = (1, 2, 4, 8).index(width)
    return (number | tag << (8 * width - 2)).to_bytes(width, "big")


def meets(low, high, ranges):
    """Whether one of the numbers from low to high lies in one of the ranges."""
    return any(max(low, first) <= min(high, last) for first, last in ranges)


def up_to(top, ranges):
    return [(low, min(high, top)) for low, high in ranges]


# The message, as far as it was read


@dataclass
class Message:
    is_response: bool = False
    control: tuple = ()
    interims: list = field(default_factory=list)
    status: int = 0
    # Fields and trailers are nothing, and not empty, as long as their section isn't whole.
    fields: list = None
    content: bytearray = field(default_factory=bytearray)
    trailers: list = None
    padding: int = 0
    omitted: str = "none"


class Refused(Exception):
    def __init__(self, kind, at, part=None):
        super().__init__(f"refused {kind} at={at}" + (f" part={part}" if part else "") + "\n")


class Reader:
    """Reads one message, and raises Refused at the first byte with which none goes on (FORMAT.md, The answer for an input)."""

    def __init__(self, data, limits):
        self.data = data[: limits.input]
        self.is_longer = len(data) > limits.input
        self.limits = limits
        self.at = 0
        self.message = Message()

    def is_at_end(self):
        return self.at == len(self.data)

    def missing(self, part):
        """Why there is no byte here."""
        return Refused("too-long", self.at) if self.is_longer else Refused("ended", self.at, part)

    def byte(self, part):
        if self.is_at_end():
            raise self.missing(part)
        return self.data[self.at]

    def number(self, part, free, within=None):
        """A number, one of `free(width)`, and within the limits of `within(width)`: lists of ranges."""
        within = within or free
        width = 1 << (self.byte(part) >> 6)
        front = 0
        for left in reversed(range(width)):
            byte = self.byte(part)
            front = front << 8 | (byte & 0x3F if left == width - 1 else byte)
            low, high = front << 8 * left, ((front + 1) << 8 * left) - 1
            if not meets(low, high, within(width)):
                raise Refused("limit" if meets(low, high, free(width)) else "dead", self.at, part)
            self.at += 1
        return front

    def length(self, part, least):
        """The length of a string of control data."""
        ranges = [(least, GREATEST)]
        return self.number(part, lambda width: ranges, lambda width: up_to(self.limits.part, ranges))

    def string(self, part, length, allowed):
        """So many bytes, that numbered i one of `allowed(i)`."""
        start = self.at
        for index in range(length):
            if self.byte(part) not in allowed(index):
                raise Refused("dead", self.at, part)
            self.at += 1
        return self.data[start : self.at]

    def bulk(self, part, length):
        """So many bytes of any kind; they are content."""
        piece = self.data[self.at : self.at + length]
        self.message.content += piece
        self.at += len(piece)
        if len(piece) < length:
            raise self.missing(part)

    # Control data and statuses (FORMAT.md, Messages and their validity)

    def control(self):
        method = self.string("method", self.length("method-length", 1), lambda index: TOKEN)
        length = self.length("scheme-length", 1)
        scheme = self.string("scheme", length, lambda index: SCHEME if index else LETTERS).lower()
        authority = self.string("authority", self.length("authority-length", 0), lambda index: AUTHORITY)
        return method, scheme, authority, self.path(method, scheme in (b"http", b"https"))

    def path(self, method, is_http):
        length = self.length("path-length", 1 if is_http else 0)
        first = PATH
        if is_http:
            first = frozenset(b"/*" if method == b"OPTIONS" and length == 1 else b"/")
        return self.string("path", length, lambda index: PATH if index else first)

    def status(self):
        is_full = len(self.message.interims) >= self.limits.interims
        return self.number("status", lambda width: [(100, 599)], lambda width: [(200 if is_full else 100, 599)])

    # Sections (FORMAT.md, Sections)

    def section(self, is_known, is_trailer=False):
        fields = []
        if is_known:
            self.known_section(fields, is_trailer)
        else:
            self.ended_section(fields, is_trailer)
        return fields

    def known_section(self, fields, is_trailer):
        # The shortest line has 3 bytes, so nothing, or at least 3 bytes, can be left behind a line.
        top, part = self.limits.section, self.limits.part
        lengths = [(0, 0), (3, GREATEST)]
        length = self.number("section-length", lambda width: lengths, lambda width: up_to(top, lengths))
        end = self.at + length

        def names(width):
            return [(1, end - line - width - 1)]

        def values(width):
            return [(0, end - behind - width - 3), (end - behind - width, end - behind - width)]

        while self.at < end:
            line = self.at
            length = self.number("name-length", names, lambda width: up_to(part, names(width)))
            name = self.name(length, fields, is_trailer)
            behind = self.at
            length = self.number("value-length", values, lambda width: up_to(part, values(width)))
            fields.append((name, self.value(length)))

    def ended_section(self, fields, is_trailer):
        start, top, part = self.at, self.limits.section, self.limits.part

        def left(width):
            """The bytes that the limit leaves behind a number at this place."""
            return start + top - line - width

        while True:
            line = self.at
            numbers = [(0, GREATEST)]
            length = self.number("name-length", lambda width: numbers, lambda width: [(0, 0), (1, min(part, left(width) - 1))])
            if length == 0:
                return
            name = self.name(length, fields, is_trailer)
            line = self.at
            length = self.number("value-length", lambda width: numbers, lambda width: [(0, min(part, left(width)))])
            fields.append((name, self.value(length)))

    def name(self, length, fields, is_trailer):
        start = self.at
        may_be_pseudo = not is_trailer and length > 1 and all(name.startswith(b":") for name, _ in fields)

        def allowed(index):
            if index == 0:
                return TOKEN | frozenset(b":") if may_be_pseudo else TOKEN
            if index < length - 1:
                return TOKEN
            front = self.data[start : self.at].lower()
            return frozenset(byte for byte in TOKEN if front + bytes([byte]).lower() not in CONTROL_NAMES)

        return self.string("name", length, allowed).lower()

    def value(self, length):
        ends = (0, length - 1)
        return self.string("value", length, lambda index: VALUE - BLANKS if index in ends else VALUE)

    # The whole (FORMAT.md, Messages as bytes; Content, trailer section, padding)

    def read(self):
        message = self.message
        framing = self.number("framing", lambda width: [(0, 3)])
        is_known, message.is_response = framing < 2, framing % 2 == 1
        if message.is_response:
            while (status := self.status()) < 200:
                message.interims.append((status, self.section(is_known)))
            message.status = status
        else:
            message.control = self.control()
        message.fields = self.section(is_known)
        self.tail(is_known)
        if self.is_longer:
            raise Refused("too-long", self.at)

    def tail(self, is_known):
        message = self.message
        if self.is_at_end():
            message.omitted = "both"
            return
        if is_known:
            self.bulk("content", self.number("content-length", lambda width: [(0, GREATEST)]))
        else:
            while length := self.number("chunk-length", lambda width: [(0, GREATEST)]):
                self.bulk("content", length)
        if self.is_at_end():
            message.omitted = "trailers"
            return
        message.trailers = self.section(is_known, is_trailer=True)
        rest = self.data[self.at :]
        message.padding = len(rest) - len(rest.lstrip(b"\0"))
        self.at += message.padding
        if not self.is_at_end():
            raise Refused("dead", self.at, "padding")


# What is written (FORMAT.md, The two texts, The listing; COMMAND.md, canon and show). Of an input that is refused it is what goes out
# while the input is still coming: with the last byte of a trailer section all is, whatever stands behind it.


def section_text(fields):
    return b"".join(integer(len(text)) + text for line in fields for text in line) + b"\0"


def chunks(content, size):
    return [content[start : start + size] for start in range(0, len(content), size)]


def is_whole(message, is_done):
    return is_done or message.trailers is not None


def canonical(message, is_done):
    text = integer(3 if message.is_response else 2)
    for status, fields in message.interims:
        text += integer(status) + section_text(fields)
    if message.fields is None:
        return text if message.interims else b""
    text += integer(message.status) if message.is_response else b"".join(integer(len(one)) + one for one in message.control)
    text += section_text(message.fields)
    for chunk in chunks(message.content, CHUNK):
        if is_whole(message, is_done) or len(chunk) == CHUNK:
            text += integer(len(chunk)) + chunk
    return text + b"\0" + section_text(message.trailers or []) if is_whole(message, is_done) else text


def listed(value):
    return b'"' + value + b'"' if QUOTED.issuperset(value) else b"hex:" + value.hex().encode()


def listed_fields(word, fields):
    return [b"%s %s %s" % (word, name, listed(value)) for name, value in fields]


def head_lines(message):
    if message.is_response:
        lines = [b"status %d" % message.status]
    else:
        method, scheme, authority, path = message.control
        lines = [b"request", b"method " + method, b"scheme " + scheme, b"authority " + listed(authority), b"path " + listed(path)]
    return lines + listed_fields(b"field", message.fields)


def listing(message, is_done):
    lines = [b"response"] if message.is_response and (message.interims or message.fields is not None) else []
    for status, fields in message.interims:
        lines += [b"interim %d" % status, *listed_fields(b"field", fields)]
    if message.fields is not None:
        lines += head_lines(message)
    for line in chunks(message.content, LISTED):
        if is_whole(message, is_done) or len(line) == LISTED:
            lines.append(b"content " + line.hex().encode())
    if is_whole(message, is_done):
        lines += [*listed_fields(b"trailer", message.trailers or []), b"end"]
    return b"".join(line + b"\n" for line in lines)


OUTPUTS = {"canon": canonical, "check": lambda message, is_done: b"", "show": listing}


def summary(message, size):
    kind = "response" if message.is_response else "request"
    sections = [*(fields for _, fields in message.interims), message.fields, message.trailers or []]
    lines = sum(len(fields) for fields in sections)
    counts = f"bytes={size} lines={lines} content={len(message.content)} padding={message.padding}"
    return f"done kind={kind} {counts} omitted={message.omitted}\n"


@lru_cache(maxsize=1)
def read(data, limits):
    """The message as far as it was read, whether it is whole, and the report."""
    reader = Reader(data, limits)
    try:
        reader.read()
    except Refused as refused:
        return reader.message, False, str(refused)
    return reader.message, True, summary(reader.message, len(data))


def is_utf8(word):
    try:
        word.encode()
    except UnicodeEncodeError:
        return False
    return True


def answer(words, data):
    """The status, the output and the report of a call."""
    if not all(is_utf8(word) for word in words):
        return NOT_UTF8, b"", ""
    limits = limits_of(words[1:]) if words and words[0] in OUTPUTS else None
    if limits is None:
        return USAGE, b"", USAGE_LINE
    message, is_done, report = read(data, limits)
    return DONE if is_done else REFUSED, OUTPUTS[words[0]](message, is_done), report


def main():
    is_taken = answer(sys.argv[1:], b"")[0] in (DONE, REFUSED)
    status, output, report = answer(sys.argv[1:], sys.stdin.buffer.read() if is_taken else b"")
    sys.stdout.buffer.write(output)
    sys.stderr.write(report)
    return status


if __name__ == "__main__":
    sys.exit(main())
