"""Replies that are read in place: nothing is copied before it is asked for."""
from __future__ import annotations

import ctypes
import struct
import threading
from typing import Any, Callable, Iterator, NamedTuple, Sequence, TypeVar, Union

from . import library as c
from .commands import Text, _bytes
from .errors import INCOMPLETE, OK, OTHER, ROOM, SERVER_ERROR, OtherReply, ServerError, error_of

_FIELD = struct.Struct("@NNNN")
_ENTRY = struct.Struct("@NNNN??QQ")
_STREAM = struct.Struct("@NNNN")
_NODE = struct.Struct("@BNNQN")
_DIGITS = 4300  # Python makes no number of more; a longer one stays a text


class Entry:
    """An entry of a stream, in the bytes of its reply.

    It yields its fields in their order, each a name and a value as memoryviews of the reply. `deleted` says that the
    entry is deleted, so that it has no fields.
    """

    __slots__ = ("_bytes", "_fields", "_row")

    def __init__(self, reply: bytes, fields: bytes, row: tuple[Any, ...]) -> None:
        self._bytes, self._fields, self._row = reply, fields, row

    @property
    def id(self) -> bytes:
        start, size = self._row[:2]
        return self._bytes[start : start + size]

    @property
    def deleted(self) -> bool:
        return bool(self._row[4])

    def __iter__(self) -> Iterator[tuple[memoryview, memoryview]]:
        whole = memoryview(self._bytes)
        return ((whole[name : name + name_len], whole[value : value + value_len])
                for name, name_len, value, value_len in self._places())

    def items(self) -> list[tuple[bytes, bytes]]:
        """The names and values as bytes, in their order; a name may be there twice."""
        whole = self._bytes
        return [(whole[name : name + name_len], whole[value : value + value_len])
                for name, name_len, value, value_len in self._places()]

    def to_dict(self) -> dict[bytes, bytes]:
        """The fields as a dict, in which the last of two fields of one name counts."""
        whole = self._bytes
        return {whole[name : name + name_len]: whole[value : value + value_len]
                for name, name_len, value, value_len in self._places()}

    def get(self, name: Text) -> memoryview | None:
        """The value of the last field of this name, None if there is none. A str is taken as UTF-8."""
        found, wanted = None, _bytes(name)
        for own, value in self:
            if own == wanted:
                found = value
        return found

    def _places(self) -> Iterator[tuple[int, ...]]:
        return _FIELD.iter_unpack(self._fields[self._row[2] * _FIELD.size : self._row[3] * _FIELD.size])

    def __repr__(self) -> str:
        return f"Entry(id={self.id!r}, fields={self.items()!r}{', deleted' if self.deleted else ''})"


class Entries(Sequence[Entry]):
    """Entries of a reply, in its order."""

    __slots__ = ("_bytes", "_rows", "_fields")

    def __init__(self, reply: bytes, rows: bytes, fields: bytes) -> None:
        self._bytes, self._rows, self._fields = reply, rows, fields

    def __len__(self) -> int:
        return len(self._rows) // _ENTRY.size

    def __iter__(self) -> Iterator[Entry]:
        reply, fields = self._bytes, self._fields
        return (Entry(reply, fields, row) for row in _ENTRY.iter_unpack(self._rows))

    def __getitem__(self, index: Any) -> Any:
        if isinstance(index, slice):
            return [self[at] for at in range(*index.indices(len(self)))]
        at = range(len(self))[index]
        return Entry(self._bytes, self._fields, _ENTRY.unpack_from(self._rows, at * _ENTRY.size))

    def ids(self) -> list[bytes]:
        """The ids of all of these entries."""
        reply = self._bytes
        return [reply[row[0] : row[0] + row[1]] for row in _ENTRY.iter_unpack(self._rows)]

    def __repr__(self) -> str:
        return f"Entries({list(self)!r})"


class Stream(NamedTuple):
    """A stream of a reply: its name, and its entries."""

    name: bytes
    entries: Entries


class Streams(Sequence[Stream]):
    """The reply of XREAD or XREADGROUP: its streams, in the order of the reply. None at all if it was nil."""

    __slots__ = ("_bytes", "_streams", "_entries", "_fields")

    def __init__(self, reply: bytes, streams: bytes, entries: bytes, fields: bytes) -> None:
        self._bytes, self._streams, self._entries, self._fields = reply, streams, entries, fields

    def __len__(self) -> int:
        return len(self._streams) // _STREAM.size

    def __getitem__(self, index: Any) -> Any:
        if isinstance(index, slice):
            return [self[at] for at in range(*index.indices(len(self)))]
        start, size, first, end = _STREAM.unpack_from(self._streams, range(len(self))[index] * _STREAM.size)
        rows = self._entries[first * _ENTRY.size : end * _ENTRY.size]
        return Stream(self._bytes[start : start + size], Entries(self._bytes, rows, self._fields))

    @property
    def entries(self) -> Entries:
        """The entries of all streams."""
        return Entries(self._bytes, self._entries, self._fields)

    def __repr__(self) -> str:
        return f"Streams({list(self)!r})"


class Claimed(NamedTuple):
    """The reply of XAUTOCLAIM: the id from which the next one goes on, 0-0 at the end; the entries that were claimed; and
    the ids that were pending and are no longer in the stream."""

    next_id: bytes
    entries: Entries
    deleted_ids: list[bytes]


class ClaimedIds(NamedTuple):
    """The same with JUSTID, of which only the ids of the entries are there."""

    next_id: bytes
    ids: list[bytes]
    deleted_ids: list[bytes]


Value = Union[None, bool, int, float, bytes, ServerError, "list[Value]", "dict[Any, Value]"]
Finding = Callable[["Tables", Any, int], "tuple[int, int]"]
T = TypeVar("T")


class Tables:
    """Tables of places, which grow to what a reply wants, and what the last call found. They serve one thread."""

    def __init__(self) -> None:
        self.found, self.claim = c.Found(), c.Claim()
        self.length, self.count = c.SIZE(), c.SIZE()
        self.tables: list[Any] = [(c.Stream * 8)(), (c.Entry * 64)(), (c.Field * 512)()]
        self.nodes: Any = (c.Node * 64)()

    def grow(self) -> None:
        """Makes room for what the last call wants."""
        wanted = (self.found.streams, self.found.entries, self.found.fields)
        self.tables = [table if count <= len(table) else (table._type_ * count)()
                       for table, count in zip(self.tables, wanted)]

    def take(self) -> tuple[bytes, bytes, bytes]:
        """The rows of streams, entries and fields that were found."""
        found, (streams, entries, fields) = self.found, self.tables
        return (ctypes.string_at(streams, found.streams * _STREAM.size),
                ctypes.string_at(entries, found.entries * _ENTRY.size),
                ctypes.string_at(fields, found.fields * _FIELD.size))


def is_short(tables: Tables, address: Any, size: int) -> bool:
    """Whether the bytes end before their first reply does, whatever it is. It is cheaper than a reading that fails."""
    length, count = ctypes.byref(tables.length), ctypes.byref(tables.count)
    return bool(c.library().redis_find_nodes(address, size, tables.nodes, 0, length, count) == INCOMPLETE)


def raise_error(status: int, reply: Callable[[], bytes], error: c.Span) -> None:
    """Raises the error of a status, if it is one: OK is none, and neither is that the bytes end too early."""
    if status == SERVER_ERROR:
        raise ServerError(reply()[error.start : error.start + error.len])
    if status == OTHER:
        raise OtherReply(reply())
    if status not in (OK, INCOMPLETE):
        raise error_of(status)


def streams_of(tables: Tables, address: Any, size: int) -> tuple[int, int]:
    """Returns the status of a reply of XREAD, and how many bytes it has. The tables grow if they have to."""
    call, found = c.library().redis_find_streams, tables.found
    status = ROOM
    while status == ROOM:
        streams, entries, fields = tables.tables
        status = call(address, size, streams, len(streams), entries, len(entries), fields, len(fields), ctypes.byref(found))
        if status == ROOM:
            tables.grow()
    return status, found.len


def range_of(tables: Tables, address: Any, size: int) -> tuple[int, int]:
    return _entries_of(c.library().redis_find_range, tables, address, size, [])


def autoclaim_of(tables: Tables, address: Any, size: int) -> tuple[int, int]:
    return _entries_of(c.library().redis_find_autoclaim, tables, address, size, [ctypes.byref(tables.claim)])


def _entries_of(call: Callable[..., int], tables: Tables, address: Any, size: int, more: list[Any]) -> tuple[int, int]:
    found = tables.found
    status = ROOM
    while status == ROOM:
        _, entries, fields = tables.tables
        status = call(address, size, entries, len(entries), fields, len(fields), *more, ctypes.byref(found))
        if status == ROOM:
            tables.grow()
    return status, found.len


def justid_of(tables: Tables, address: Any, size: int) -> tuple[int, int]:
    call, found, claim = c.library().redis_find_justid, tables.found, tables.claim
    status = ROOM
    while status == ROOM:
        _, entries, _ = tables.tables
        status = call(address, size, entries, len(entries), ctypes.byref(claim), ctypes.byref(found))
        if status == ROOM:
            tables.grow()
    return status, found.len


def make_streams(tables: Tables, reply: bytes) -> Streams:
    return Streams(reply, *tables.take())


def make_range(tables: Tables, reply: bytes) -> Entries:
    _, rows, fields = tables.take()
    return Entries(reply, rows, fields)


def make_claimed(tables: Tables, reply: bytes) -> Claimed:
    _, rows, fields = tables.take()
    claim = tables.claim
    cut = claim.claimed * _ENTRY.size
    following = reply[claim.next.start : claim.next.start + claim.next.len]
    return Claimed(following, Entries(reply, rows[:cut], fields), Entries(reply, rows[cut:], fields).ids())


def make_claimed_ids(tables: Tables, reply: bytes) -> ClaimedIds:
    following, entries, deleted = make_claimed(tables, reply)
    return ClaimedIds(following, entries.ids(), deleted)


def nodes_of(tables: Tables, address: Any, size: int) -> tuple[int, int]:
    call, length, count = c.library().redis_find_nodes, tables.length, tables.count
    status = ROOM
    while status == ROOM:
        status = call(address, size, tables.nodes, len(tables.nodes), ctypes.byref(length), ctypes.byref(count))
        if status == ROOM:
            tables.nodes = (c.Node * count.value)()
    return status, length.value


def make_value(tables: Tables, reply: bytes) -> Value:
    rows = list(_NODE.iter_unpack(ctypes.string_at(tables.nodes, tables.count.value * _NODE.size)))
    value, _ = _value_at(rows, 0, reply)
    if isinstance(value, ServerError):
        raise value
    return value


def _value_at(nodes: list[tuple[int, ...]], at: int, reply: bytes) -> tuple[Value, int]:
    """The value of a node with its members, and the index of the node after these."""
    kind, start, size, _, end = nodes[at]
    if kind not in b"*~>%|":
        return _scalar(kind, reply[start : start + size]), end
    members: list[Value] = []
    at += 1
    while at < end:
        member, at = _value_at(nodes, at, reply)
        members.append(member)
    return _group(kind, members), end


def _scalar(kind: int, text: bytes) -> Value:
    if kind in b":(":
        return int(text) if len(text) <= _DIGITS else text
    if kind == ord(","):
        return float(text)
    if kind == ord("#"):
        return text == b"t"
    if kind == ord("_"):
        return None
    if kind in b"-!":
        return ServerError(text)
    return text[4:] if kind == ord("=") else text


def _group(kind: int, members: list[Value]) -> Value:
    if kind == ord("|"):
        return members[-1]  # attributes say something of the value after them
    if kind != ord("%"):
        return members
    pairs = list(zip(members[::2], members[1::2]))
    try:
        return dict(pairs)
    except TypeError:
        return [list(pair) for pair in pairs]


_own = threading.local()


def _tables() -> Tables:
    """The tables of this thread."""
    tables: Tables | None = getattr(_own, "tables", None)
    if tables is None:
        tables = _own.tables = Tables()
    return tables


def _find(finding: Finding, making: Callable[[Tables, bytes], T], data: bytes) -> tuple[T, int] | None:
    """What is at the head of bytes, and how many bytes it has: None if they end too early."""
    data = bytes(data)
    tables = _tables()
    status, length = finding(tables, data, len(data))
    raise_error(status, lambda: data[:length], tables.found.error)
    return (making(tables, data), length) if status == OK else None


def find_streams(data: bytes) -> tuple[Streams, int] | None:
    """The streams of the reply of XREAD or XREADGROUP at the head of the bytes, and how many bytes it has.

    None says that the bytes end before the reply does. Raises ServerError, OtherReply or a ProtocolError.
    """
    return _find(streams_of, make_streams, data)


def find_range(data: bytes) -> tuple[Entries, int] | None:
    """The same of the reply of XRANGE, XREVRANGE or XCLAIM."""
    return _find(range_of, make_range, data)


def find_autoclaim(data: bytes) -> tuple[Claimed, int] | None:
    """The same of the reply of XAUTOCLAIM."""
    return _find(autoclaim_of, make_claimed, data)


def find_justid(data: bytes) -> tuple[ClaimedIds, int] | None:
    """The same of the reply of XAUTOCLAIM with JUSTID."""
    return _find(justid_of, make_claimed_ids, data)


def find_value(data: bytes) -> tuple[Value, int] | None:
    """The same of any reply: texts are bytes, and an error among the members of a group is a ServerError there."""
    return _find(nodes_of, make_value, data)
