"""Redis streams: replies read in place, and commands, by the C library redis_c.

`find_streams` and its like read the reply at the head of bytes; a `Decoder` reads replies from pieces of bytes, and a
`Connection` from a socket. `commands` has the commands, `errors` what goes wrong. A `Consumer` reads for a group and
acknowledges what its handler returned for, at least once. `partition_of` spreads records over partitions.

A `Worker` does the same with reconnects, claims and dead letters, by the program stream_run; `handler` makes a function
the handler of a program that `jagyerti run` starts.
"""
from . import commands, errors, slots
from .commands import Command, pack
from .connection import Connection, Decoder, SocketLike
from .consumer import Consumer, LeavePending
from .errors import (ArgumentTooLarge, BadSettings, ConnectionClosed, Error, LibraryNotFound, NoPartition, NotConnected,
                     NothingGiven, OtherReply, OutOfMemory, ProtocolError, ServerError)
from .jobs import Dead, Handler, Job, Later, Stop, handler
from .records import Group, PendingEntry, PendingSummary, read_groups, read_pending, read_pending_summary
from .replies import (Claimed, ClaimedIds, Entries, Entry, Stream, Streams, Value, find_autoclaim, find_justid,
                      find_range, find_streams, find_value)
from .slots import key_slot, partition_name, partition_of
from .worker import Worker
from .version import VERSION as __version__

__all__ = [
    "ArgumentTooLarge", "BadSettings", "Claimed", "ClaimedIds", "Command", "Connection", "ConnectionClosed", "Consumer",
    "Dead", "Decoder", "Entries", "Entry", "Error", "Group", "Handler", "Job", "Later", "LeavePending",
    "LibraryNotFound", "NoPartition", "NotConnected", "NothingGiven", "OtherReply", "OutOfMemory", "PendingEntry",
    "PendingSummary", "ProtocolError", "ServerError", "SocketLike", "Stop", "Stream", "Streams", "Value", "Worker",
    "__version__", "commands", "errors", "find_autoclaim", "find_justid", "find_range", "find_streams", "find_value",
    "handler", "key_slot", "pack", "partition_name", "partition_of", "read_groups", "read_pending",
    "read_pending_summary", "slots",
]
