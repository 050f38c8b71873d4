"""Replies as servers send them, and changes of them."""
from __future__ import annotations

import random


def bulk(text: bytes) -> bytes:
    return b"$%d\r\n%b\r\n" % (len(text), text)


def group(*members: bytes, kind: bytes = b"*") -> bytes:
    return b"%b%d\r\n" % (kind, len(members)) + b"".join(members)


def entry(own: bytes, *fields: bytes, tail: bytes = b"") -> bytes:
    row = bulk(own) + group(*map(bulk, fields)) + tail
    return (b"*4\r\n" if tail else b"*2\r\n") + row


ROWS = group(
    entry(b"1-0", b"item", b"tea", b"cups", b"2"),
    entry(b"2-0", b"item", b"\r\nmilk"),
    b"*2\r\n" + bulk(b"3-0") + b"*-1\r\n",
    entry(b"4-1", b"\xff", b"v", b"n", b"\xfe", b"\xff", b""),
    entry(b"1526919030474-55", "naïve".encode(), bytes(range(40)), b"", b"", b"item", b"1", b"item", b"2"),
)
CLAIMED = group(entry(b"1-0", b"item", b"tea", tail=b":60000\r\n:3\r\n"), b"*4\r\n" + bulk(b"2-0") + b"_\r\n:0\r\n:1\r\n")
IDS = group(bulk(b"4-0"), bulk(b"4-1"))
REPLIES = {
    "streams": [
        group(group(bulk(b"orders"), ROWS)),
        group(group(bulk(b"orders"), ROWS), group(bulk(b"returns"), b"*0\r\n"), group(bulk(b"more"), ROWS)),
        b"%2\r\n" + bulk(b"orders") + ROWS + bulk(b"more") + ROWS,
        b"*-1\r\n", b"_\r\n", b"-NOGROUP no such group\r\n",
    ],
    "range": [ROWS, b"*0\r\n"],
    "autoclaim": [group(bulk(b"5-0"), ROWS, IDS), group(bulk(b"0-0"), ROWS)],
    "justid": [group(bulk(b"5-0"), IDS, IDS), group(bulk(b"0-0"), b"*0\r\n", b"*0\r\n")],
    "value": [
        group(group(bulk(b"orders"), CLAIMED)), b"%1\r\n" + bulk(b"orders") + CLAIMED,
        b"+OK\r\n", b":12\r\n", b"#t\r\n", b",1.5e3\r\n", b"(12345678901234567890\r\n", b"=7\r\ntxt:abc\r\n",
        b"!5\r\nERR x\r\n", b"~2\r\n:1\r\n:2\r\n", b"%2\r\n+first\r\n*3\r\n:1\r\n$2\r\nab\r\n*-1\r\n+last\r\n-ERR no\r\n",
        b"|1\r\n+ttl\r\n:5\r\n$2\r\nok\r\n", b">2\r\n+message\r\n$2\r\nhi\r\n",
    ],
}


def mutated(chosen: random.Random, data: bytes) -> bytes:
    """Bytes in which one to three changes were made at random."""
    changed = bytearray(data)
    for _ in range(chosen.choice((1, 1, 1, 2, 3))):
        at, what = chosen.randrange(len(changed) + 1), chosen.randrange(6)
        if what == 0 and at < len(changed):
            changed[at] = chosen.randrange(256)
        elif what == 1 and at < len(changed):
            changed[at] = chosen.choice(b"0123456789-+$*:%~>|#_,(!=\r\n?")
        elif what == 2:
            del changed[at : at + chosen.randrange(1, 4)]
        elif what == 3:
            changed[at:at] = bytes([chosen.choice(b"0123456789-+$*:%~>|#_,(!=\r\n")])
        elif what == 4:
            del changed[at:]
        else:
            changed[at:at] = changed[: chosen.randrange(1, 9)]
    return bytes(changed)
