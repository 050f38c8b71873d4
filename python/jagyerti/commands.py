"""Commands, as the bytes that a server reads.

Each call returns a `Command`: bytes to send, whose `arguments` are the words of the command. Texts are bytes or str,
which is sent as UTF-8. Times are milliseconds.
"""
from __future__ import annotations

import ctypes
from typing import Any, Callable, Iterable, Mapping, Union

from . import library as c
from . import resp
from .errors import OK, ROOM, BadSettings, error_of

Text = Union[bytes, str]
Texts = Union[Mapping[str, Text], Mapping[bytes, Text], Mapping[Text, Text]]
Fields = Union[Texts, Iterable["tuple[Text, Text]"]]
Ids = Union[Text, Iterable[Text]]
_POLICIES = {None: 0, "KEEPREF": 1, "DELREF": 2, "ACKED": 3}


class Command(bytes):
    """The bytes of a command."""

    @property
    def arguments(self) -> list[bytes]:
        """The words of the command, for a client that packs them itself."""
        words: list[bytes] = []
        at = self.index(b"\r\n") + 2
        while at < len(self):
            end = self.index(b"\r\n", at)
            size = int(self[at + 1 : end])
            words.append(bytes(self[end + 2 : end + 2 + size]))
            at = end + size + 4
        return words


def pack(*words: Text | int) -> Command:
    """A command of any words, for what no call here writes."""
    return Command(resp.encode(word if isinstance(word, int) else _bytes(word) for word in words))


def xadd(key: Text, fields: Fields, id: Text = b"*", *, nomkstream: bool = False, maxlen: int | None = None,
         minid: Text | None = None, approximate: bool = False, limit: int | None = None, policy: str | None = None,
         idmp: tuple[Text, Text] | None = None, idmpauto: Text | None = None) -> Command:
    """XADD: `idmp` is the producer and the id that it gives the entry, `idmpauto` the producer."""
    texts = _Texts()
    settings = c.AddSettings(nomkstream=nomkstream, trim=_trimming(texts, maxlen, minid, approximate, limit, policy))
    if idmp is not None and idmpauto is not None:
        raise BadSettings("idmp and idmpauto exclude one another")
    if idmp is not None:
        settings.idempotency, settings.producer, settings.idempotent_id = 1, texts.add(idmp[0]), texts.add(idmp[1])
    elif idmpauto is not None:
        settings.idempotency, settings.producer = 2, texts.add(idmpauto)
    table = _fields(texts, fields.items() if isinstance(fields, Mapping) else fields)
    return _packed("redis_xadd_options", *_text(key), *_text(id), ctypes.byref(settings), *texts.joined(), *table)


def xtrim(key: Text, *, maxlen: int | None = None, minid: Text | None = None, approximate: bool = False,
          limit: int | None = None, policy: str | None = None) -> Command:
    """XTRIM by `maxlen` or by `minid`."""
    texts = _Texts()
    settings = _trimming(texts, maxlen, minid, approximate, limit, policy)
    return _packed("redis_xtrim_options", *_text(key), ctypes.byref(settings), *texts.joined())


def xread(streams: Texts, *, count: int | None = None, block: int | None = None) -> Command:
    """XREAD of streams, each with the id after which it is read; with `block` 0 it waits without end."""
    texts = _Texts()
    settings = _reading(count, block)
    table = _fields(texts, streams.items())
    return _packed("redis_xread_streams", ctypes.byref(settings), *texts.joined(), *table)


def xreadgroup(group: Text, consumer: Text, streams: Texts, *, count: int | None = None,
               block: int | None = None, noack: bool = False, claim: int | None = None) -> Command:
    """XREADGROUP of streams, each with an id: `>` for entries that no consumer was given yet.

    `claim`, of Redis 8.4, takes over entries that are idle for this long. Its reply has four values an entry, and
    `find_value` reads it, not `find_streams`.
    """
    texts = _Texts()
    settings = _reading(count, block, noack, claim)
    table = _fields(texts, streams.items())
    return _packed("redis_xreadgroup_streams", ctypes.byref(settings), *_text(group), *_text(consumer), *texts.joined(),
                   *table)


def xack(key: Text, group: Text, ids: Ids) -> Command:
    """XACK of one id or of several."""
    texts = _Texts()
    table = _ids(texts, ids)
    return _packed("redis_xack_entries", *_text(key), *_text(group), *texts.joined(), *table)


def xclaim(key: Text, group: Text, consumer: Text, min_idle: int, ids: Ids, *, idle: int | None = None,
           time: int | None = None, retrycount: int | None = None, force: bool = False, justid: bool = False,
           lastid: Text | None = None) -> Command:
    """XCLAIM of ids that are idle for at least `min_idle`."""
    texts = _Texts()
    settings = c.ClaimSettings(force=force, justid=justid)
    settings.has_idle, settings.idle = _given(idle)
    settings.has_time, settings.time = _given(time)
    settings.has_retry, settings.retry = _given(retrycount)
    if lastid is not None:
        settings.has_lastid, settings.lastid = True, texts.add(lastid)
    table = _ids(texts, ids)
    return _packed("redis_xclaim_options", *_text(key), *_text(group), *_text(consumer), _number(min_idle),
                   ctypes.byref(settings), *texts.joined(), *table)


def xautoclaim(key: Text, group: Text, consumer: Text, min_idle: int, start: Text = b"0-0", *, count: int | None = None,
               justid: bool = False) -> Command:
    """XAUTOCLAIM from the id `start` on; with `justid`, `find_justid` reads the reply."""
    settings = c.AutoclaimSettings(justid=justid)
    settings.has_count, settings.count = _given(count)
    return _packed("redis_xautoclaim_options", *_text(key), *_text(group), *_text(consumer), _number(min_idle),
                   *_text(start), ctypes.byref(settings))


def xpending(key: Text, group: Text, count: int, start: Text = b"-", end: Text = b"+", *, idle: int | None = None,
             consumer: Text | None = None) -> Command:
    """XPENDING with a range: `read_pending` reads the reply."""
    settings = c.PendingSettings(has_consumer=consumer is not None)
    settings.has_idle, settings.idle = _given(idle)
    own = b"" if consumer is None else consumer
    return _packed("redis_xpending_options", *_text(key), *_text(group), ctypes.byref(settings), *_text(start), *_text(end),
                   _number(count), *_text(own))


def xpending_summary(key: Text, group: Text) -> Command:
    """XPENDING without a range: `read_pending_summary` reads the reply."""
    return _packed("redis_xpending_summary", *_text(key), *_text(group))


def xlen(key: Text) -> Command:
    """XLEN: how many entries there are."""
    return _packed("redis_xlen", *_text(key))


def xrange(key: Text, start: Text = b"-", end: Text = b"+", *, count: int | None = None) -> Command:
    """XRANGE from `start` to `end`, both included: `find_range` reads the reply."""
    if count is None:
        return _packed("redis_xrange", *_text(key), *_text(start), *_text(end))
    return _packed("redis_xrange_count", *_text(key), *_text(start), *_text(end), _number(count))


def xrevrange(key: Text, end: Text = b"+", start: Text = b"-", *, count: int | None = None) -> Command:
    """XREVRANGE from `end` back to `start`, both included: `find_range` reads the reply."""
    if count is None:
        return _packed("redis_xrevrange", *_text(key), *_text(end), *_text(start))
    return _packed("redis_xrevrange_count", *_text(key), *_text(end), *_text(start), _number(count))


def xdel(key: Text, ids: Ids) -> Command:
    """XDEL of one id or of several."""
    texts = _Texts()
    table = _ids(texts, ids)
    return _packed("redis_xdel_entries", *_text(key), *texts.joined(), *table)


def xgroup_create(key: Text, group: Text, id: Text = b"$", *, mkstream: bool = False) -> Command:
    """XGROUP CREATE: the group is given the entries after `id`, by default those that are added from now on."""
    return _packed("redis_xgroup_create", *_text(key), *_text(group), *_text(id), mkstream)


def xgroup_setid(key: Text, group: Text, id: Text) -> Command:
    """XGROUP SETID: from now on the group is given the entries after `id`."""
    return _packed("redis_xgroup_setid", *_text(key), *_text(group), *_text(id))


def xgroup_destroy(key: Text, group: Text) -> Command:
    """XGROUP DESTROY: removes the group, and what is pending for it."""
    return _packed("redis_xgroup_destroy", *_text(key), *_text(group))


def xinfo_stream(key: Text) -> Command:
    """XINFO STREAM: `find_value` reads the reply."""
    return _packed("redis_xinfo_stream", *_text(key))


def xinfo_groups(key: Text) -> Command:
    """XINFO GROUPS: `read_groups` reads the reply."""
    return _packed("redis_xinfo_groups", *_text(key))


def xinfo_consumers(key: Text, group: Text) -> Command:
    """XINFO CONSUMERS: `find_value` reads the reply."""
    return _packed("redis_xinfo_consumers", *_text(key), *_text(group))


class _Texts:
    """Texts one after the other, each at a place."""

    def __init__(self) -> None:
        self.texts: list[bytes] = []
        self.size = 0

    def add(self, text: Text) -> c.Span:
        own = _bytes(text)
        span = c.Span(self.size, len(own))
        self.texts.append(own)
        self.size += len(own)
        return span

    def joined(self) -> tuple[bytes, int]:
        return b"".join(self.texts), self.size


def _bytes(text: Text) -> bytes:
    return text.encode() if isinstance(text, str) else bytes(memoryview(text))


def _text(text: Text) -> tuple[bytes, int]:
    own = _bytes(text)
    return own, len(own)


def _number(number: int) -> int:
    if not 0 <= number < 1 << 64:
        raise BadSettings(f"{number} is no number from 0 to 2**64 - 1")
    return number


def _given(number: int | None) -> tuple[bool, int]:
    """Whether an option is asked for, and its number."""
    return (False, 0) if number is None else (True, _number(number))


def _reading(count: int | None, block: int | None, noack: bool = False, claim: int | None = None) -> c.ReadSettings:
    settings = c.ReadSettings(noack=noack)
    settings.has_count, settings.count = _given(count)
    settings.has_block, settings.block = _given(block)
    settings.has_claim, settings.claim = _given(claim)
    return settings


def _trimming(texts: _Texts, maxlen: int | None, minid: Text | None, approximate: bool, limit: int | None,
              policy: str | None) -> c.TrimSettings:
    if policy not in _POLICIES:
        raise BadSettings(f"policy is KEEPREF, DELREF or ACKED, and not {policy}")
    if maxlen is not None and minid is not None:
        raise BadSettings("maxlen and minid exclude one another")
    settings = c.TrimSettings(approximate=approximate, policy=_POLICIES[policy])
    settings.has_limit, settings.limit = _given(limit)
    if maxlen is not None:
        settings.bound, settings.maxlen = 1, _number(maxlen)
    elif minid is not None:
        settings.bound, settings.minid = 2, texts.add(minid)
    elif approximate or limit is not None:
        raise BadSettings("approximate and limit want maxlen or minid beside them")
    return settings


def _fields(texts: _Texts, pairs: Iterable[tuple[Text, Text]]) -> tuple[Any, int]:
    rows = [c.Field(texts.add(name), texts.add(value)) for name, value in pairs]
    return (c.Field * max(len(rows), 1))(*rows), len(rows)


def _ids(texts: _Texts, ids: Ids) -> tuple[Any, int]:
    rows = [c.Entry(texts.add(id)) for id in ([ids] if isinstance(ids, (bytes, str)) else ids)]
    return (c.Entry * max(len(rows), 1))(*rows), len(rows)


def _packed(name: str, *arguments: Any) -> Command:
    """The command that a call writes."""
    return Command(_written(name, *arguments))


def _written(name: str, *arguments: Any) -> bytes:
    """The bytes that a call writes. If the room is too little, the call says how much it needs."""
    call: Callable[..., int] = getattr(c.library(), name)
    room, length = 256, c.SIZE()
    while True:
        out = ctypes.create_string_buffer(room)
        status = call(*arguments, out, room, ctypes.byref(length))
        if status == OK:
            return out.raw[: length.value]
        if status != ROOM:
            raise error_of(status)
        room = length.value
