"""Dead letters: entries that a worker gave up, as `stream_drain --dead` adds them to a stream of their own.

A letter is an entry with the fields `entry` and `deliveries` first: the id of the entry that was given up, and how often
it was delivered. After them are the fields of that entry, in their order. A job that was replied `dead TEXT` has a letter
with the field `reason` before these, which is the text.
"""
from __future__ import annotations

import dataclasses
import re
import socket
from typing import Iterator, List, Optional, Tuple

from . import resp

PAGE = 100  # letters that are read at once
ID = re.compile(r"[0-9]{1,20}(-[0-9]{1,20})?")
# Adds the entry before it deletes the letter: if the addition is refused, nothing has changed.
REPLAY = """
local found = redis.call('XRANGE', KEYS[1], ARGV[1], ARGV[1])
if #found == 0 then return false end
local fields = found[1][2]
local at = fields[1] == 'reason' and 3 or 1
if fields[at] ~= 'entry' or fields[at + 2] ~= 'deliveries' or #fields < at + 5 then
  return redis.error_reply('NOLETTER the entry is no dead letter')
end
local id = redis.call('XADD', KEYS[2], 'NOMKSTREAM', '*', unpack(fields, at + 4))
if not id then return redis.error_reply('NOSTREAM the stream to add to does not exist') end
redis.call('XDEL', KEYS[1], ARGV[1])
return id
"""

Fields = List[Tuple[bytes, bytes]]


@dataclasses.dataclass(frozen=True)
class Letter:
    """A dead letter: its id, the id and the deliveries of the entry that was given up, and the fields of that entry.

    `entry` and `deliveries` are None if this entry of the stream is no letter. Then all of its fields are in `fields`.
    `why` is the field `reason` of the letter itself, None if it has none.
    """

    id: str
    entry: Optional[str]
    deliveries: Optional[int]
    fields: Fields
    why: Optional[bytes] = None

    @property
    def reason(self) -> Optional[bytes]:
        """Why the entry was given up: `why`, or else the first field of the entry if its name is `reason`."""
        if self.why is None and self.entry is not None and self.fields[:1] and self.fields[0][0] == b"reason":
            return self.fields[0][1]
        return self.why

    @property
    def times(self) -> str:
        """How often the entry was delivered, in words."""
        return "1 delivery" if self.deliveries == 1 else f"{self.deliveries} deliveries"


def complete_id(text: str) -> str:
    """Returns the id of an entry in full, as in 5-0 for 5. Raises ValueError if the text is no id."""
    if not ID.fullmatch(text) or any(int(part) >= 1 << 64 for part in text.split("-")):
        raise ValueError(f"{text!r} is no id of an entry, as in 1526919030474-0")
    return "-".join(str(int(part)) for part in (text if "-" in text else f"{text}-0").split("-"))


def read_letters(connection: socket.socket, stream: str) -> Iterator[Letter]:
    """Reads the letters of a stream in the order of their ids, a page at a time.

    Letters may be dropped or replayed while they are read. Raises resp.ReplyError, such as WRONGTYPE.
    """
    start = "-"
    while True:
        rows = resp.ask(connection, "XRANGE", stream, start, "+", "COUNT", PAGE)
        for row in rows:
            yield letter_of(row)
        if len(rows) < PAGE:
            return
        start = _following(rows[-1][0].decode())


def find_letter(connection: socket.socket, stream: str, id: str) -> Optional[Letter]:
    """Returns the letter of this id, None if it is not in the stream."""
    rows = resp.ask(connection, "XRANGE", stream, id, id)
    return letter_of(rows[0]) if rows else None


def replay_letter(connection: socket.socket, stream: str, id: str, onto: str) -> Optional[str]:
    """Adds the entry of a letter to the stream `onto`, and deletes the letter, in one step of the server.

    Returns the id of the new entry, None if the letter is not there: so no letter is replayed twice, however often this
    is called. Raises resp.ReplyError, and then nothing has changed: NOLETTER if the entry is no letter, NOSTREAM if there
    is no stream `onto`, CROSSSLOT if a cluster keeps the two in different slots.
    """
    added = resp.ask(connection, "EVAL", REPLAY, 2, stream, onto, id)
    return None if added is None else str(added.decode())


def drop_letter(connection: socket.socket, stream: str, id: str) -> bool:
    """Deletes a letter. Returns whether it was there."""
    return bool(resp.ask(connection, "XDEL", stream, id))


def letter_of(row: resp.Reply) -> Letter:
    """Returns an entry of the stream as a letter, with or without a reason before its other fields."""
    id, flat = row
    fields: Fields = list(zip(flat[::2], flat[1::2]))
    why = fields[0][1] if fields[:1] and fields[0][0] == b"reason" else None
    head, rest = (fields[:2], fields[2:]) if why is None else (fields[1:3], fields[3:])
    if [name for name, _ in head] == [b"entry", b"deliveries"] and head[1][1].isdigit():
        return Letter(id.decode(), head[0][1].decode(errors="backslashreplace"), int(head[1][1]), rest, why)
    return Letter(id.decode(), None, None, fields)


def _following(id: str) -> str:
    """Returns the least id above this one."""
    time, _, number = id.partition("-")
    if int(number) < (1 << 64) - 1:
        return f"{time}-{int(number) + 1}"
    return f"{int(time) + 1}-0"
