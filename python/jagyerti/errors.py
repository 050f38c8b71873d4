"""What goes wrong, by name. All of it is an `Error`."""
from __future__ import annotations

from .retry import may_pass


class Error(Exception):
    """An error of the library, or of a connection."""

    @property
    def is_transient(self) -> bool:
        """Whether the same may succeed later: close the connection, pause, and try again over another one."""
        return False


class LibraryNotFound(Error, ImportError):
    """The shared library is not there, or is not this library."""


class NotConnected(Error, ConnectionError):
    """There is no connection: the server is not there, says nothing, or takes no login."""

    @property
    def is_transient(self) -> bool:
        return True


class ConnectionClosed(Error, ConnectionError):
    """The server closed the connection while a reply was waited for."""

    @property
    def is_transient(self) -> bool:
        return True


class ServerError(Error):
    """The server's own error: `text` is what it says, and `code` its first word, such as NOGROUP."""

    def __init__(self, text: bytes) -> None:
        super().__init__(text.decode("utf-8", "backslashreplace"))
        self.text = text

    @property
    def code(self) -> str:
        return self.text.partition(b" ")[0].decode("utf-8", "backslashreplace")

    @property
    def is_transient(self) -> bool:
        """True if the server starts, became a replica, lacks memory, disk or replicas, or has too many clients."""
        return may_pass(str(self))


class OtherReply(Error):
    """A reply of another shape than was asked for: `reply` is its bytes, which `find_value` reads."""

    def __init__(self, reply: bytes) -> None:
        super().__init__(f"a reply of another shape, of {len(reply)} bytes")
        self.reply = reply


class OutOfMemory(Error, MemoryError):
    """Out of memory; it says nothing of the bytes."""

    @property
    def is_transient(self) -> bool:
        return True


class ArgumentTooLarge(Error, ValueError):
    """An argument of 2**32 bytes or more."""


class NothingGiven(Error, ValueError):
    """No id, field or stream was given, and the server wants one."""


class BadSettings(Error, ValueError):
    """Settings that name nothing, such as an id that is no UTF-8."""


class NoPartition(Error, ValueError):
    """There are 0 partitions or more than 65,535, or the number of one is above 65,535."""


class ProtocolError(Error):
    """The bytes are no reply, however they go on: nothing more can be read from their connection."""


class UnknownType(ProtocolError):
    """The first byte of a value names no type of the protocol."""


class StreamedValue(ProtocolError):
    """A value with no length in front of it."""


class BadEnd(ProtocolError):
    """A line or a bulk string does not end in CR LF."""


class BadLength(ProtocolError):
    """Not a length."""


class TooLong(ProtocolError):
    """A length over 512 MiB."""


class LongLine(ProtocolError):
    """A line over 64 KiB."""


class TooDeep(ProtocolError):
    """More than 128 levels of values."""


class BadNumber(ProtocolError):
    """Not a number of 64 bits."""


class BadNull(ProtocolError):
    """A null with bytes of its own."""


class BadBoolean(ProtocolError):
    """Neither `t` nor `f`."""


class NotUtf8(ProtocolError):
    """A text that has to be UTF-8 and is not."""


class BadVerbatim(ProtocolError):
    """Not a verbatim string."""


class BadPush(ProtocolError):
    """Not a push."""


class Overfull(ProtocolError):
    """No call of this library returns it."""


class TooMany(ProtocolError):
    """More than 16,777,216 values, in a reply of another shape."""


OK, ROOM, INCOMPLETE, SERVER_ERROR, OTHER = range(5)
_NAMED: dict[int, type[Error]] = {
    5: OutOfMemory, 6: ArgumentTooLarge, 8: NothingGiven, 9: BadSettings, 11: NoPartition, 16: UnknownType,
    17: StreamedValue, 18: BadEnd, 19: BadLength, 20: TooLong, 21: LongLine, 22: TooDeep, 23: BadNumber, 24: BadNull,
    25: BadBoolean, 26: NotUtf8, 27: BadVerbatim, 28: BadPush, 29: Overfull, 30: TooMany,
}


def error_of(status: int) -> Error:
    """Returns the error for a status of the library."""
    kind = _NAMED.get(status)
    return kind(kind.__doc__) if kind else Error(f"the library returned {status}")
