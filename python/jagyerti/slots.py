"""What a client of Redis Cluster computes by itself: the slot of a key, and the partitions of a stream.

Keys and names are bytes or str, which is taken as UTF-8.
"""
from __future__ import annotations

import ctypes

from . import library as c
from .commands import Text, _text, _written
from .errors import OK, NoPartition, error_of


def key_slot(key: Text) -> int:
    """The slot of a key, from 0 to 16,383."""
    slot: int = c.library().redis_key_slot(*_text(key))
    return slot


def partition_of(record_key: Text, number: int) -> int:
    """The partition of a record, for a number of partitions from 1 to 65,535.

    A record stays where it is only as long as that number does.
    """
    partition = c.SIZE()
    status = c.library().redis_partition_of(*_text(record_key), _size(number), ctypes.byref(partition))
    if status != OK:
        raise error_of(status)
    return partition.value


def partition_name(name: Text, partition: int) -> bytes:
    """The key of a partition of a stream, such as `orders:{3}`."""
    return _written("redis_partition_name", *_text(name), _size(partition))


def _size(number: int) -> int:
    """Returns the number, if a call can take it."""
    if not 0 <= number < 1 << 64:
        raise NoPartition(f"{number} is no number from 0 to 65,535")
    return number
