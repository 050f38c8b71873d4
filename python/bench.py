#!/usr/bin/env python3
"""Reads one reply of XREADGROUP by this package and by the parsers of redis-py, and prints entries a second.

usage: bench.py [ENTRIES ..]     how many entries the reply has: 100 and 10,000 if nothing is said

redis-py and hiredis (Debian's python3-redis and python3-hiredis) are left out if they are not there. Each row is the best
of three runs, in processor time, over the same bytes, in the same process and in turn. Every row but the first of each
library makes its entries; 'a dict for each' is what redis-py returns to its caller. The bytes come whole, or from a
socket that hands out 64 KiB at a time.
"""
from __future__ import annotations

import gc
import os
import sys
import time
from typing import Any, Callable

sys.path.insert(0, os.path.dirname(os.path.abspath(__file__)))
import jagyerti  # noqa: E402
from jagyerti import resp  # noqa: E402

RUNS = 3
SECONDS = 0.3  # so long each run takes at least
PIECE = 65536


def reply_of(entries: int) -> bytes:
    """A reply in RESP2: entries of four fields."""
    rows: list[Any] = []
    for at in range(entries):
        fields = ["customer", f"c{at % 977:05}", "item", f"tea-{at % 13:03}", "cups", str(at % 9), "paid", f"{at % 4000 / 100:.2f}"]
        rows.append([f"{1526919030474 + at}-0", fields])
    return resp.encode_reply([["orders", rows]])


class Pieces:
    """A socket that has the bytes, and hands out no more than a piece at a time."""

    def __init__(self, data: bytes) -> None:
        self.view, self.at = memoryview(data), 0

    def recv(self, size: int) -> bytes:
        piece = self.view[self.at : self.at + min(size, PIECE)]
        self.at += len(piece)
        return bytes(piece)

    def recv_into(self, buffer: Any) -> int:
        piece = self.recv(len(buffer))
        buffer[: len(piece)] = piece
        return len(piece)

    def sendall(self, data: bytes) -> None:
        pass

    def settimeout(self, timeout: float | None) -> None:
        pass


def found(data: bytes) -> jagyerti.Streams:
    whole = jagyerti.find_streams(data)
    assert whole is not None
    return whole[0]


def as_views(data: bytes) -> int:
    count = 0
    for entry in found(data).entries:
        for _name, _value in entry:
            count += 1
    return count


def as_dicts(streams: jagyerti.Streams) -> list[Any]:
    return [(stream.name, [(entry.id, entry.to_dict()) for entry in stream.entries]) for stream in streams]


COMMAND = jagyerti.pack("PING")
OURS: dict[str, Callable[[bytes], Any]] = {
    "jagyerti, where all is": found,
    "jagyerti, all fields as memoryviews": as_views,
    "jagyerti, all fields as bytes": lambda data: [(it.id, it.items()) for it in found(data).entries],
    "jagyerti, a dict for each": lambda data: as_dicts(found(data)),
    "jagyerti, a dict for each, from a socket": lambda data: as_dicts(
        jagyerti.Connection(Pieces(data)).streams_of(COMMAND)),
}


def of_hiredis() -> dict[str, Callable[[bytes], Any]]:
    try:
        import hiredis
    except ImportError:
        return {}

    def whole(data: bytes) -> Any:
        reader = hiredis.Reader()
        reader.feed(data)
        return reader.gets()

    return {f"hiredis {hiredis.__version__}, lists of bytes": whole}


def of_redis() -> dict[str, Callable[[bytes], Any]]:
    try:
        import redis
        from redis.client import parse_xread
        from redis.connection import Encoder, HiredisParser, PythonParser
    except ImportError:
        return {}

    class Connected:
        socket_timeout = None
        encoder = Encoder("utf-8", "strict", False)

        def __init__(self, data: bytes) -> None:
            self._sock = Pieces(data)

    def read(kind: Any, data: bytes) -> Any:
        parser = kind(socket_read_size=PIECE)
        parser.on_connect(Connected(data))
        return parse_xread(parser.read_response())

    kinds = {"its own parser": PythonParser} | ({"the parser over hiredis": HiredisParser} if of_hiredis() else {})
    return {f"redis-py {redis.__version__}, {name}, a dict for each, from a socket":
            lambda data, kind=kind: read(kind, data) for name, kind in kinds.items()}


def a_second(call: Callable[[bytes], Any], data: bytes, entries: int) -> float:
    """How many entries a second, in the best run."""
    begun = time.process_time()
    call(data)
    passes = max(1, int(SECONDS / max(time.process_time() - begun, 1e-6)))
    begun = time.process_time()
    for _ in range(passes):
        call(data)
    return entries * passes / (time.process_time() - begun)


def main() -> None:
    ways = OURS | of_hiredis() | of_redis()
    for words in sys.argv[1:] or ["100", "10000"]:
        entries = int(words)
        data = reply_of(entries)
        dicts = [call(data) for name, call in ways.items() if "dict" in name]
        assert all([tuple(stream) for stream in one] == dicts[0] for one in dicts), "the readings differ"
        best = dict.fromkeys(ways, 0.0)
        for _ in range(RUNS):
            for name, call in ways.items():
                gc.collect()
                best[name] = max(best[name], a_second(call, data, entries))
        print(f"\nentries a second, a reply of {entries:,} entries, {len(data):,} bytes, Python {sys.version.split()[0]}\n")
        print("| Reading | Entries a second |\n|---|---|")
        for name, speed in best.items():
            print(f"| {name} | {speed:,.0f} |")


if __name__ == "__main__":
    main()
