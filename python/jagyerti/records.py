"""Groups, and what is pending, as plain records."""
from __future__ import annotations

import ctypes
from typing import Any, NamedTuple

from . import library as c
from .errors import OK, ROOM
from .replies import raise_error


class Group(NamedTuple):
    """A group of a stream, as XINFO GROUPS shows it. None is what the server does not say."""

    name: bytes
    consumers: int
    pending: int
    last_delivered_id: bytes
    entries_read: int | None
    lag: int | None


class PendingEntry(NamedTuple):
    """A pending entry, as XPENDING with a range shows it."""

    id: bytes
    consumer: bytes
    last_delivered_ms: int
    times_delivered: int


class PendingSummary(NamedTuple):
    """What is pending for a group, as XPENDING without a range shows it, and how much for each consumer."""

    count: int  # type: ignore[assignment]
    start_id: bytes
    end_id: bytes
    consumers: list[tuple[bytes, int]]


def read_groups(data: bytes) -> tuple[list[Group], int] | None:
    """The groups of the reply of XINFO GROUPS at the head of the bytes, and how many bytes it has.

    None says that the bytes end before the reply does. Raises ServerError, OtherReply or a ProtocolError.
    """
    read = _read("redis_xinfo_groups_reply", c.Group, data)
    if read is None:
        return None
    rows, texts, length = read
    return [Group(_at(texts, row.name), row.consumers, row.pending, _at(texts, row.last_delivered_id),
                  row.entries_read if row.has_entries_read else None, row.lag if row.has_lag else None)
            for row in rows], length


def read_pending(data: bytes) -> tuple[list[PendingEntry], int] | None:
    """The same of the pending entries of the reply of XPENDING with a range."""
    read = _read("redis_xpending_reply", c.PendingEntry, data)
    if read is None:
        return None
    rows, texts, length = read
    return [PendingEntry(_at(texts, row.id), _at(texts, row.consumer), row.last_delivered_ms, row.times_delivered)
            for row in rows], length


def read_pending_summary(data: bytes) -> tuple[PendingSummary, int] | None:
    """The same of the reply of XPENDING without a range. If nothing is pending the ids are empty."""
    summary = c.PendingSummary()
    read = _read("redis_xpending_summary_reply", c.PendingConsumer, data, ctypes.byref(summary))
    if read is None:
        return None
    rows, texts, length = read
    consumers = [(_at(texts, row.name), row.pending) for row in rows]
    return PendingSummary(summary.count, _at(texts, summary.start_id), _at(texts, summary.end_id), consumers), length


def _at(texts: bytes, span: c.Span) -> bytes:
    return texts[span.start : span.start + span.len]


def _read(name: str, row: Any, data: bytes, *more: Any) -> tuple[list[Any], bytes, int] | None:
    """The rows that a call reads, their texts, and how many bytes the reply has. The tables grow if they have to."""
    data = bytes(data)
    call, found = getattr(c.library(), name), c.RecordsFound(records=16, text=1024)
    status = ROOM
    while status == ROOM:
        room, text_room = found.records, found.text
        rows, texts = (row * max(room, 1))(), ctypes.create_string_buffer(max(text_room, 1))
        status = call(data, len(data), *more, rows, room, texts, text_room, ctypes.byref(found))
    raise_error(status, lambda: data[: found.len], found.error)
    return (rows[: found.records], texts.raw[: found.text], found.len) if status == OK else None
