"""The shared library, and its records as the header redis_streams.h lays them out."""
from __future__ import annotations

import ctypes
import functools
import os

from .errors import LibraryNotFound

VARIABLE = "REDIS_C_LIBRARY"
NAME = "libredis_c.so"
HERE = os.path.dirname(os.path.realpath(__file__))
SIZE, BOOL, LONG = ctypes.c_size_t, ctypes.c_bool, ctypes.c_uint64


class Span(ctypes.Structure):
    _fields_ = [("start", SIZE), ("len", SIZE)]


class Field(ctypes.Structure):
    _fields_ = [("name", Span), ("value", Span)]


class Entry(ctypes.Structure):
    _fields_ = [("id", Span), ("first", SIZE), ("end", SIZE), ("deleted", BOOL), ("delivered", BOOL),
                ("elapsed", LONG), ("count", LONG)]


class Stream(ctypes.Structure):
    _fields_ = [("name", Span), ("first", SIZE), ("end", SIZE)]


class Found(ctypes.Structure):
    _fields_ = [("len", SIZE), ("streams", SIZE), ("entries", SIZE), ("fields", SIZE), ("error", Span)]


class Claim(ctypes.Structure):
    _fields_ = [("next", Span), ("claimed", SIZE), ("len", SIZE)]


class Node(ctypes.Structure):
    _fields_ = [("kind", ctypes.c_uint8), ("text", Span), ("members", LONG), ("end", SIZE)]


class ReadSettings(ctypes.Structure):
    _fields_ = [("has_count", BOOL), ("has_block", BOOL), ("noack", BOOL), ("has_claim", BOOL),
                ("count", SIZE), ("block", SIZE), ("claim", SIZE)]


class TrimSettings(ctypes.Structure):
    _fields_ = [("bound", ctypes.c_uint32), ("policy", ctypes.c_uint32), ("approximate", BOOL), ("has_limit", BOOL),
                ("maxlen", SIZE), ("minid", Span), ("limit", SIZE)]


class AddSettings(ctypes.Structure):
    _fields_ = [("nomkstream", BOOL), ("idempotency", ctypes.c_uint32), ("producer", Span), ("idempotent_id", Span),
                ("trim", TrimSettings)]


class ClaimSettings(ctypes.Structure):
    _fields_ = [("has_idle", BOOL), ("has_time", BOOL), ("has_retry", BOOL), ("force", BOOL), ("justid", BOOL),
                ("has_lastid", BOOL), ("idle", SIZE), ("time", SIZE), ("retry", SIZE), ("lastid", Span)]


class AutoclaimSettings(ctypes.Structure):
    _fields_ = [("has_count", BOOL), ("justid", BOOL), ("count", SIZE)]


class PendingSettings(ctypes.Structure):
    _fields_ = [("has_idle", BOOL), ("has_consumer", BOOL), ("idle", SIZE)]


class RecordsFound(ctypes.Structure):
    _fields_ = [("len", SIZE), ("records", SIZE), ("text", SIZE), ("error", Span)]


class Group(ctypes.Structure):
    _fields_ = [("name", Span), ("last_delivered_id", Span), ("consumers", SIZE), ("pending", SIZE),
                ("has_entries_read", BOOL), ("has_lag", BOOL), ("entries_read", SIZE), ("lag", SIZE)]


class PendingEntry(ctypes.Structure):
    _fields_ = [("id", Span), ("consumer", Span), ("last_delivered_ms", SIZE), ("times_delivered", SIZE)]


class PendingConsumer(ctypes.Structure):
    _fields_ = [("name", Span), ("pending", SIZE)]


class PendingSummary(ctypes.Structure):
    _fields_ = [("count", SIZE), ("start_id", Span), ("end_id", Span)]


# The arguments of each call: B bytes and their number, T a table and its room or number, N a number, F a flag,
# P a pointer to one record. The calls that write a command take a buffer, its room and a place for the length at the end.
_READINGS = {
    "redis_find_streams": "BTTTP", "redis_find_range": "BTTP", "redis_find_autoclaim": "BTTPP",
    "redis_find_justid": "BTPP", "redis_find_nodes": "BTPP", "redis_xinfo_groups_reply": "BTTP",
    "redis_xpending_reply": "BTTP", "redis_xpending_summary_reply": "BPTTP",
}
_COMMANDS = {
    "redis_xack_entries": "BBBT", "redis_xadd_options": "BBPBT", "redis_xtrim_options": "BPB",
    "redis_xclaim_options": "BBBNPBT", "redis_xautoclaim_options": "BBBNBP", "redis_xread_streams": "PBT",
    "redis_xreadgroup_streams": "PBBBT", "redis_xpending_options": "BBPBBNB",
    "redis_xlen": "B", "redis_xrange": "BBB", "redis_xrange_count": "BBBN", "redis_xrevrange": "BBB",
    "redis_xrevrange_count": "BBBN", "redis_xdel_entries": "BBT", "redis_xgroup_create": "BBBF",
    "redis_xgroup_setid": "BBB", "redis_xgroup_destroy": "BB", "redis_xinfo_stream": "B", "redis_xinfo_groups": "B",
    "redis_xinfo_consumers": "BB", "redis_xpending_summary": "BB",
}
_PARTITIONS = {"redis_key_slot": "B", "redis_partition_of": "BNP", "redis_partition_name": "BNTP"}
_TYPES: dict[str, list[type]] = {
    "B": [ctypes.c_char_p, SIZE], "T": [ctypes.c_void_p, SIZE], "N": [SIZE], "F": [BOOL], "P": [ctypes.c_void_p],
}


def _declare(library: ctypes.CDLL) -> None:
    commands = {name: letters + "TP" for name, letters in _COMMANDS.items()}
    for name, letters in {**_READINGS, **commands, **_PARTITIONS}.items():
        call = getattr(library, name)
        call.restype = ctypes.c_uint32
        call.argtypes = [kind for letter in letters for kind in _TYPES[letter]]
    # Bytes that are read may be a bytearray, too, which is passed by its address.
    for name in _READINGS:
        call = getattr(library, name)
        call.argtypes = [ctypes.c_void_p, *call.argtypes[1:]]


def library_paths() -> list[str]:
    """Returns where the library is looked for, the first place first.

    If the variable is set, that is its path alone. Else it is the package, the folders of an installation, and the
    folder build/ of a checkout, where tools/install keeps it.
    """
    named = os.environ.get(VARIABLE)
    if named:
        return [named]
    above = os.path.dirname(HERE)
    root = os.path.dirname(above)
    folders = (os.path.join(HERE, "lib"), above, os.path.join(root, "lib"), os.path.join(root, "build"))
    # (in an installation two of them are the same)
    return [os.path.join(folder, NAME) for folder in dict.fromkeys(folders)]


@functools.lru_cache(maxsize=None)
def library() -> ctypes.CDLL:
    """The library, which is loaded by the first call of it."""
    paths = library_paths()
    path = next((path for path in paths if os.path.isfile(path)), None)
    if path is None:
        raise LibraryNotFound(f"no {NAME} at {' or '.join(paths)}: set {VARIABLE} to its path. In a checkout "
                              "'tools/install --unproved' makes it")
    try:
        loaded = ctypes.CDLL(path)
        _declare(loaded)
    except (OSError, AttributeError) as error:
        text = str(error)  # (which begins with the path, for most errors)
        raise LibraryNotFound(text if text.startswith(path) else f"{path}: {text}") from None
    return loaded
