"""A consumer of a group: at least once."""
from __future__ import annotations

from typing import Any, Callable

from . import commands
from .commands import Text
from .connection import Connection, SocketLike
from .errors import Error
from .replies import Entries, Entry

Handler = Callable[[Entry], Any]


class LeavePending(Exception):
    """A handler raises it for an entry that is not to be acknowledged; the consumer goes on with the next one."""


class Consumer:
    """Reads entries of a stream as a consumer of a group, and passes them to a handler.

    **At least once**: an entry is acknowledged after the handler returned for it, and never before. If the process ends
    between the two, or the connection does, the entry comes again, so a handler has to bear that. Each run begins with
    the entries that this consumer was given and did not acknowledge. Entries that another consumer left pending are
    not taken over here: XAUTOCLAIM does that, whose entries `handle` takes.
    """

    def __init__(self, socket: SocketLike | Connection, key: Text, group: Text, name: Text, *, count: int = 100,
                 block: int | None = 5000) -> None:
        """At most `count` entries are read at once, and each read waits up to `block` milliseconds, 0 without end.

        If the socket has a timeout, it has to be longer than that."""
        self.connection = socket if isinstance(socket, Connection) else Connection(socket)
        self.key, self.group, self.name = key, group, name
        self.count, self.block = count, block
        self._stopped = False

    def run(self, handler: Handler, *, until_empty: bool = False) -> int:
        """Passes entries to the handler until `stop` is called, or with `until_empty` until a read finds nothing new.

        Returns how many entries the handler returned for. What the handler raises comes out of here, but LeavePending;
        before that, the entries that it returned for are acknowledged.
        """
        self._stopped = False
        done, after = 0, b"0-0"
        while not self._stopped:
            entries = self.read_pending(after)
            if not entries:
                break
            after = entries[-1].id
            done += self.handle(entries, handler)
        while not self._stopped:
            entries = self.read_new()
            if not entries and until_empty:
                break
            done += self.handle(entries, handler)
        return done

    def stop(self) -> None:
        """Lets `run` end after the entries that it read; a handler may call it, or another thread."""
        self._stopped = True

    def read_pending(self, after: Text = b"0-0") -> Entries:
        """The entries after an id that this consumer was given and did not acknowledge."""
        return self._read(commands.xreadgroup(self.group, self.name, {self.key: after}, count=self.count))

    def read_new(self) -> Entries:
        """Entries that no consumer was given yet; none if nothing came in time."""
        return self._read(commands.xreadgroup(self.group, self.name, {self.key: b">"}, count=self.count,
                                              block=self.block))

    def handle(self, entries: Entries, handler: Handler) -> int:
        """Passes entries to the handler, and acknowledges those for which it returned, and those that are deleted."""
        ids: list[bytes] = []
        done = 0
        try:
            for entry in entries:
                if not entry.deleted:
                    try:
                        handler(entry)
                    except LeavePending:
                        continue
                    done += 1
                ids.append(entry.id)
        finally:
            self.acknowledge(ids)
        return done

    def acknowledge(self, ids: list[bytes]) -> int:
        """Acknowledges entries by their ids. Returns how many of them were pending."""
        if not ids:
            return 0
        count = self.connection.value_of(commands.xack(self.key, self.group, ids))
        if not isinstance(count, int):
            raise Error(f"the reply to XACK is {count!r}")
        return count

    def _read(self, command: commands.Command) -> Entries:
        return self.connection.streams_of(command).entries
