"""A small reader of the protocol, written apart from the library: what the tests compare it with."""
from __future__ import annotations

import re
from typing import Any, NamedTuple

DEPTH, LENGTH, LINE = 128, 512 << 20, 64 << 10
DOUBLE = re.compile(rb"[+-]?[0-9]+(\.[0-9]+)?([eE][+-]?[0-9]+)?|-?inf|-?nan")
BIG = re.compile(rb"[+-]?[0-9]+")
NUMBER = re.compile(rb"[+-]?[0-9]+")


class Short(Exception):
    """The bytes end too early."""


class Refused(Exception):
    """The bytes are no reply, however they go on."""


class OtherShape(Exception):
    """The value has another shape."""


class Failure(NamedTuple):
    """An error of the server."""

    text: bytes


class Pairs(NamedTuple):
    """The pairs of a map."""

    pairs: list[tuple[Any, Any]]


class Bulk(bytes):
    """A bulk string: the one form in which servers send names, ids and values."""


class Reader:
    """Reads values from the left."""

    def __init__(self, data: bytes) -> None:
        self.data, self.at = data, 0

    def end(self, at: int) -> None:
        found = self.data[at : at + 2]
        if found in (b"", b"\r"):
            raise Short
        if found != b"\r\n":
            raise Refused
        self.at = at + 2

    def line(self) -> bytes:
        stop = re.compile(rb"[\r\n]").search(self.data, self.at)
        end = stop.start() if stop else len(self.data)
        if end - self.at > LINE:
            raise Refused
        text = self.data[self.at : end]
        self.end(end)
        return text

    def length(self) -> int | None:
        text = self.line()
        if text == b"-1":
            return None
        if not text.isdigit() or not NUMBER.fullmatch(text) or int(text) > LENGTH:
            raise Refused
        return int(text)

    def bulk(self, size: int) -> bytes:
        if len(self.data) - self.at < size:
            raise Short
        text = self.data[self.at : self.at + size]
        self.end(self.at + size)
        return text

    def value(self, depth: int = DEPTH) -> Any:
        if depth == 0:
            raise Refused
        kind = self.data[self.at : self.at + 1]
        if not kind:
            raise Short
        self.at += 1
        if kind in b"+-:_#,(":
            return self.scalar(kind, self.line())
        if kind in b"$!=":
            return self.text(kind)
        if kind in b"*~%|":
            return self.group(kind, depth)
        raise Refused

    def scalar(self, kind: bytes, text: bytes) -> Any:
        if kind == b":":
            if not NUMBER.fullmatch(text) or not -(1 << 63) <= int(text) < 1 << 63:
                raise Refused
            return int(text)
        if kind == b"_" and text or kind == b"#" and text not in (b"t", b"f"):
            raise Refused
        if kind in b",(":
            if not (DOUBLE if kind == b"," else BIG).fullmatch(text):
                raise Refused
            return float(text) if kind == b"," else int(text)
        return {b"_": None, b"#": text == b"t", b"-": Failure(text), b"+": text}[kind]

    def text(self, kind: bytes) -> Any:
        size = self.length()
        if size is None:
            if kind == b"$":
                return None
            raise Refused
        text = self.bulk(size)
        if kind == b"=":
            if text[3:4] != b":":
                raise Refused
            return text[4:]
        return Failure(text) if kind == b"!" else Bulk(text)

    def group(self, kind: bytes, depth: int) -> Any:
        size = self.length()
        if size is None:
            if kind == b"*":
                return None
            raise Refused
        count = {b"%": 2 * size, b"|": 2 * size + 1}.get(kind, size)
        members = []
        for _ in range(count):
            members.append(self.value(depth - 1))
        if kind == b"|":
            return members[-1]
        return Pairs(list(zip(members[::2], members[1::2]))) if kind == b"%" else members

    def reply(self) -> Any:
        """A value, or a message that the server pushes: its kind is a text."""
        if self.data[:1] != b">":
            return self.value()
        self.at = 1
        size = self.length()
        if not size:
            raise Refused
        first = self.data[self.at : self.at + 1]
        if not first:
            raise Short
        if first not in b"+$":
            raise Refused
        kind = self.value()
        try:
            str(kind, "utf-8")
        except (UnicodeDecodeError, TypeError):
            raise Refused from None
        return [kind] + [self.value(DEPTH - 1) for _ in range(size - 1)]


def shaped(condition: bool) -> None:
    if not condition:
        raise OtherShape


class Shapes(Reader):
    """Reads the replies of streams, in the form in which servers send them."""

    def head(self, kind: bytes) -> int:
        shaped(self.data[self.at : self.at + 1] == kind)
        self.at += 1
        size = self.length()
        shaped(size is not None)
        return size

    def bytes(self) -> bytes:
        return self.bulk(self.head(b"$"))

    def name(self) -> bytes:
        text = self.bytes()
        try:
            text.decode()
        except UnicodeDecodeError:
            raise OtherShape from None
        return text

    def nil(self) -> bool:
        begun = self.at
        if self.data[begun : begun + 1] in (b"*", b"$", b"_"):
            self.at += 1
            if (self.line() == b"") if self.data[begun : begun + 1] == b"_" else self.length() is None:
                return True
        self.at = begun
        return False

    def entry(self) -> Any:
        shaped(self.head(b"*") == 2)
        own, fields = self.name(), None
        if not self.nil():
            size = self.head(b"*")
            shaped(size % 2 == 0)
            fields = [(self.bytes(), self.bytes()) for _ in range(size // 2)]
        return own, fields

    def entries(self) -> Any:
        return [self.entry() for _ in range(self.head(b"*"))]

    def ids(self) -> list[bytes]:
        return [self.name() for _ in range(self.head(b"*"))]

    def streams(self) -> Any:
        if self.nil():
            return []
        in_map = self.data[:1] == b"%"
        found = []
        for _ in range(self.head(b"%" if in_map else b"*")):
            shaped(in_map or self.head(b"*") == 2)
            found.append((self.name(), self.entries()))
        return found

    def claim(self, justid: bool) -> Any:
        size = self.head(b"*")
        shaped(size in (2, 3))
        following = self.name()
        claimed = self.ids() if justid else self.entries()
        return following, claimed, self.ids() if size == 3 else []


READINGS = {
    "streams": Shapes.streams, "range": Shapes.entries, "autoclaim": lambda reader: reader.claim(False),
    "justid": lambda reader: reader.claim(True),
}


def outcome(kind: str, data: bytes) -> tuple[Any, ...]:
    """What is at the head of the bytes: found, error, other, refused, or not yet."""
    reader: Reader
    try:
        if kind in READINGS:
            reader = Shapes(data)
            return ("found", READINGS[kind](reader), reader.at)
    except (OtherShape, Short, Refused):
        pass
    reader = Reader(data)
    try:
        value = reader.reply()
    except Short:
        return ("not yet",)
    except Refused:
        return ("refused",)
    if isinstance(value, Failure):
        return ("error", value.text, reader.at)
    return ("found", value, reader.at) if kind == "value" else ("other", reader.at)
