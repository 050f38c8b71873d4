"""Reads the entries of stored replies in place, by the static library made a shared one.

usage: streams.py LIBRARY <REPLIES     LIBRARY: lib/libredis_c.so of an installation, or what `cc -shared` makes of libredis_c.a

Prints a line for each entry: the stream, the id, then each field as name=value. At the end it prints the XAUTOCLAIM that
takes over the ids of at most a hundred entries that are pending for a minute.
"""
import ctypes
import sys


class Span(ctypes.Structure):
    _fields_ = [("start", ctypes.c_size_t), ("len", ctypes.c_size_t)]


class Field(ctypes.Structure):
    _fields_ = [("name", Span), ("value", Span)]


class Entry(ctypes.Structure):
    _fields_ = [
        ("id", Span), ("start", ctypes.c_size_t), ("end", ctypes.c_size_t), ("deleted", ctypes.c_bool),
        ("delivered", ctypes.c_bool), ("elapsed", ctypes.c_uint64), ("count", ctypes.c_uint64),
    ]


class Stream(ctypes.Structure):
    _fields_ = [("name", Span), ("start", ctypes.c_size_t), ("end", ctypes.c_size_t)]


class Found(ctypes.Structure):
    _fields_ = [
        ("len", ctypes.c_size_t), ("streams", ctypes.c_size_t), ("entries", ctypes.c_size_t),
        ("fields", ctypes.c_size_t), ("error", Span),
    ]


class AutoClaimSettings(ctypes.Structure):
    _fields_ = [("has_count", ctypes.c_bool), ("justid", ctypes.c_bool), ("count", ctypes.c_size_t)]


OK, ROOM = 0, 1


def find_streams(library, data):
    """The number that the library tells, what it found, and its tables of streams, entries and fields."""
    found = Found()
    while True:
        counts = found.streams, found.entries, found.fields
        tables = [kind * max(count, 1) for kind, count in zip((Stream, Entry, Field), counts)]
        tables = [table() for table in tables]
        rooms = [ctypes.c_size_t(count) for count in counts]
        room = [word for pair in zip(tables, rooms) for word in pair]
        told = library.redis_find_streams(data, ctypes.c_size_t(len(data)), *room, ctypes.byref(found))
        if told != ROOM:
            return told, found, tables


def autoclaim(library, key, group, consumer, min_idle, start, settings):
    """The bytes of the command."""
    texts = [[text, ctypes.c_size_t(len(text))] for text in (key, group, consumer, start)]
    texts = [word for pair in texts for word in pair]
    size = ctypes.c_size_t(0)
    while True:
        out = (ctypes.c_uint8 * max(size.value, 1))()
        room = ctypes.c_size_t(size.value)
        told = library.redis_xautoclaim_options(*texts[:6], ctypes.c_size_t(min_idle), *texts[6:],
                                                ctypes.byref(settings), out, room, ctypes.byref(size))
        if told == OK:
            return bytes(out[: size.value])
        if told != ROOM:
            raise ValueError(f"told {told}")


def main():
    library = ctypes.CDLL(sys.argv[1])
    library.redis_find_streams.restype = ctypes.c_uint32
    library.redis_xautoclaim_options.restype = ctypes.c_uint32
    data = sys.stdin.buffer.read()
    while data:
        told, found, (streams, entries, fields) = find_streams(library, data)
        if told != OK:
            print(f"told {told}")
            return

        def text(span):
            return data[span.start : span.start + span.len].decode(errors="backslashreplace")

        for stream in streams[: found.streams]:
            for entry in entries[stream.start : stream.end]:
                own = "".join(f" {text(field.name)}={text(field.value)}" for field in fields[entry.start : entry.end])
                print(text(stream.name), text(entry.id) + own + (" deleted" if entry.deleted else ""))
        data = data[found.len :]
    settings = AutoClaimSettings(has_count=True, justid=True, count=100)
    print(autoclaim(library, b"orders", b"g1", b"ann", 60000, b"0-0", settings).decode().replace("\r\n", " "))


if __name__ == "__main__":
    main()
