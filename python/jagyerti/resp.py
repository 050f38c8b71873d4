"""The wire format of Redis: commands as bytes, and replies of RESP2 and RESP3 as plain data."""
from __future__ import annotations

import re
import socket
from typing import Any, Iterable, List, Optional, Protocol, Sequence, Union

Word = Union[str, bytes, int]
# None, bool, int, float, bytes, a list or a dict of these; inside a list or a dict also a ReplyError.
Reply = Any

LONGEST_LINE = 65536
NOT_RESP = "the server does not speak the protocol"


class ReplyError(Exception):
    """The server replied with an error. `code` is its first word."""

    @property
    def code(self) -> str:
        """The first word of the error, as in WRONGTYPE."""
        return str(self).partition(" ")[0]


class ProtocolError(Exception):
    """What came is no reply."""


class Encoded(bytes):
    """A reply, or a part of one, that is written as it is sent: encode_reply does not change it."""


class Reader(Protocol):
    """What replies are read from: a file that is open for binary reading."""

    def readline(self, __limit: int) -> bytes:
        """Reads up to a line feed."""

    def read(self, __size: int) -> Optional[bytes]:
        """Reads at most this many bytes."""


def to_bytes(word: Word) -> bytes:
    """Returns a word of a command as it is sent: text is UTF-8, and bytes of the command line stay as they are."""
    return word if isinstance(word, bytes) else str(word).encode("utf-8", "surrogateescape")


def encode(words: Iterable[Word]) -> bytes:
    """Returns a command as an array of bulk strings."""
    texts = [to_bytes(word) for word in words]
    return b"*%d\r\n" % len(texts) + b"".join(b"$%d\r\n%s\r\n" % (len(text), text) for text in texts)


def encode_reply(value: Any, protocol: int = 3) -> bytes:
    """Returns a reply as a server sends it: what a script of a server is made of.

    Bytes and str are bulk strings, and a ReplyError is an error. Nil, bool, float and dict have types of their own in
    RESP3. In RESP2 they are a null bulk string, an integer, a bulk string, and an array of keys and values.
    """
    if isinstance(value, Encoded):
        return value
    if value is None:
        return b"_\r\n" if protocol == 3 else b"$-1\r\n"
    if isinstance(value, ReplyError):
        return b"-%s\r\n" % to_bytes(str(value))
    if isinstance(value, bool):
        return (b"#t\r\n" if value else b"#f\r\n") if protocol == 3 else b":%d\r\n" % value
    if isinstance(value, int):
        return b":%d\r\n" % value
    if isinstance(value, float) and protocol == 3:
        return b",%s\r\n" % to_bytes(repr(value))
    if isinstance(value, dict):
        parts = [encode_reply(part, protocol) for pair in value.items() for part in pair]
        return (b"%%%d\r\n" % len(value) if protocol == 3 else b"*%d\r\n" % len(parts)) + b"".join(parts)
    if isinstance(value, list):
        return b"*%d\r\n" % len(value) + b"".join(encode_reply(part, protocol) for part in value)
    text = to_bytes(repr(value) if isinstance(value, float) else value)
    return b"$%d\r\n%s\r\n" % (len(text), text)


def read_reply(reader: Reader) -> Reply:
    """Reads one reply. Raises ReplyError if it is an error, and ConnectionError if the connection ends before it is whole.

    Strings of each kind are bytes, a map is a dict, a set and a push are lists, and nil is None.
    """
    try:
        reply = _read(reader)
    except RecursionError:
        raise ProtocolError(NOT_RESP) from None
    if isinstance(reply, ReplyError):
        raise reply
    return reply


def ask(connection: socket.socket, *words: Word) -> Reply:
    """Sends a command and reads its reply. No byte after the reply is taken from the connection."""
    connection.sendall(encode(words))
    with connection.makefile("rb", buffering=0) as reader:
        return read_reply(reader)


def ask_all(connection: socket.socket, commands: Iterable[Sequence[Word]], at_once: int = 1000) -> List[Reply]:
    """Sends commands, this many before it reads their replies, and returns all replies.

    Nothing else may come over the connection meanwhile. Raises ReplyError at the first reply that is an error.
    """
    replies: List[Reply] = []
    left = list(commands)
    with connection.makefile("rb") as reader:
        for first in range(0, len(left), at_once):
            part = left[first:first + at_once]
            connection.sendall(b"".join(map(encode, part)))
            replies += [read_reply(reader) for _ in part]
    return replies


def _read(reader: Reader) -> Reply:
    line = _read_line(reader)
    kind, rest = line[:1], line[1:]
    try:
        if kind in b"$=!*~>%|" and kind:
            return _read_sized(reader, kind, _number(rest))
        return _simple(kind, rest)
    except (ValueError, KeyError):
        raise ProtocolError(NOT_RESP) from None


def _simple(kind: bytes, rest: bytes) -> Reply:
    """Returns a reply of one line."""
    if kind == b"+":
        return rest
    if kind == b"-":
        return ReplyError(rest.decode("utf-8", "replace"))
    if kind in (b":", b"("):
        return _number(rest)
    if kind == b",":
        return float(rest)
    if kind == b"#":
        return {b"t": True, b"f": False}[rest]
    if kind == b"_" and not rest:
        return None
    raise ProtocolError(NOT_RESP)


def _number(text: bytes) -> int:
    if not re.fullmatch(rb"[+-]?[0-9]+", text):
        raise ProtocolError(NOT_RESP)
    return int(text)


def _read_sized(reader: Reader, kind: bytes, size: int) -> Reply:
    """Reads what follows a line that has a size: a string, or other replies."""
    if size < 0:
        if size == -1 and kind in b"$*":
            return None
        raise ProtocolError(NOT_RESP)
    if kind in b"$=!":
        text = _read_text(reader, size)
        if kind == b"!":
            return ReplyError(text.decode("utf-8", "replace"))
        return text[4:] if kind == b"=" else text
    if kind in b"%|":
        pairs = [(_key(_read(reader)), _read(reader)) for _ in range(size)]
        return dict(pairs) if kind == b"%" else _read(reader)
    return [_read(reader) for _ in range(size)]


def _key(reply: Reply) -> Reply:
    return tuple(reply) if isinstance(reply, list) else reply


def _read_line(reader: Reader) -> bytes:
    line = reader.readline(LONGEST_LINE)
    if line.endswith(b"\r\n"):
        return line[:-2]
    if not line.endswith(b"\n") and len(line or b"") < LONGEST_LINE:
        raise ConnectionError("the server closed the connection")
    raise ProtocolError(NOT_RESP)


def _read_text(reader: Reader, size: int) -> bytes:
    left, pieces = size + 2, []
    while left:
        piece = reader.read(left)
        if not piece:
            raise ConnectionError("the server closed the connection")
        pieces.append(piece)
        left -= len(piece)
    text = b"".join(pieces)
    if not text.endswith(b"\r\n"):
        raise ProtocolError(NOT_RESP)
    return text[:-2]
