"""A consumer over a scripted socket."""
from __future__ import annotations

import unittest

import jagyerti
from jagyerti import Consumer, LeavePending, commands

from .stored import bulk, entry, group

NIL = b"*-1\r\n"
DELETED = b"*2\r\n" + bulk(b"9-0") + b"*-1\r\n"


def reply_of(*rows: bytes) -> bytes:
    return group(group(bulk(b"orders"), group(*rows)))


def row(number: int) -> bytes:
    return entry(b"%d-0" % number, b"item", b"tea")


class Scripted:
    """A socket that replies to each command with the next reply, a few bytes at a time, and keeps what was sent."""

    def __init__(self, *replies: bytes) -> None:
        self.replies, self.left = list(replies), b""
        self.sent: list[str] = []

    def sendall(self, data: bytes) -> None:
        self.sent.append(" ".join(word.decode() for word in jagyerti.Command(data).arguments))
        self.left += self.replies.pop(0) if self.replies else b""

    def recv(self, size: int) -> bytes:
        piece, self.left = self.left[: min(size, 5)], self.left[min(size, 5) :]
        return piece


def consumer(socket: Scripted) -> Consumer:
    return Consumer(socket, "orders", "g", "ann", count=2, block=9)


PENDING = "XREADGROUP GROUP g ann COUNT 2 STREAMS orders "
NEW = "XREADGROUP GROUP g ann BLOCK 9 COUNT 2 STREAMS orders >"


class ConsumerTest(unittest.TestCase):
    def test_until_empty(self) -> None:
        socket = Scripted(reply_of(row(1), DELETED), b":2\r\n", reply_of(), reply_of(row(10), row(11)), b":2\r\n", NIL)
        seen: list[bytes] = []
        self.assertEqual(consumer(socket).run(lambda it: seen.append(it.id), until_empty=True), 3)
        self.assertEqual(seen, [b"1-0", b"10-0", b"11-0"])
        self.assertEqual(socket.sent, [PENDING + "0-0", "XACK orders g 1-0 9-0", PENDING + "9-0", NEW,
                                       "XACK orders g 10-0 11-0", NEW])

    def test_what_a_handler_raises(self) -> None:
        socket = Scripted(reply_of(), reply_of(row(1), row(2)), b":1\r\n")

        def handler(it: jagyerti.Entry) -> None:
            self.assertEqual(len([sent for sent in socket.sent if sent.startswith("XACK")]), 0)
            if it.id == b"2-0":
                raise KeyError("no such item")

        with self.assertRaises(KeyError):
            consumer(socket).run(handler)
        self.assertEqual(socket.sent[-1], "XACK orders g 1-0")

    def test_what_is_left_pending(self) -> None:
        socket = Scripted(reply_of(row(1)), reply_of(), reply_of(row(2), row(3)), b":1\r\n", NIL)

        def handler(it: jagyerti.Entry) -> None:
            if it.id != b"3-0":
                raise LeavePending

        self.assertEqual(consumer(socket).run(handler, until_empty=True), 1)
        self.assertEqual([sent for sent in socket.sent if sent.startswith("XACK")], ["XACK orders g 3-0"])

    def test_stop(self) -> None:
        socket = Scripted(reply_of(), reply_of(row(1), row(2)), b":2\r\n")
        mine = consumer(socket)
        self.assertEqual(mine.run(lambda it: mine.stop()), 2)
        self.assertEqual(socket.sent[-1], "XACK orders g 1-0 2-0")

    def test_what_ends_a_run(self) -> None:
        for replies, kind in (((b"-NOGROUP no such group\r\n",), jagyerti.ServerError),
                              ((b"*1\r\n",), jagyerti.ConnectionClosed), ((b"?",), jagyerti.ProtocolError),
                              ((b"+OK\r\n",), jagyerti.OtherReply), ((reply_of(row(1)), b"+OK\r\n"), jagyerti.Error)):
            with self.assertRaises(kind):
                consumer(Scripted(*replies)).run(lambda it: None)

    def test_ensure_group(self) -> None:
        socket = Scripted(b"+OK\r\n", b"-BUSYGROUP Consumer Group name already exists\r\n", b"-WRONGTYPE other\r\n")
        connection = jagyerti.Connection(socket)
        self.assertTrue(connection.ensure_group("orders", "g"))
        self.assertFalse(connection.ensure_group("orders", "g", "$"))
        with self.assertRaises(jagyerti.ServerError):
            connection.ensure_group("orders", "g")
        self.assertEqual(socket.sent[:2], ["XGROUP CREATE orders g 0-0 MKSTREAM", "XGROUP CREATE orders g $ MKSTREAM"])

    def test_connection(self) -> None:
        socket = Scripted(b"+PONG\r\n", group(row(1)), group(bulk(b"0-0"), group(row(1)), group(bulk(b"2-0"))),
                          group(bulk(b"3-0"), group(bulk(b"1-0")), group()))
        connection = jagyerti.Connection(socket)
        self.assertEqual(connection.call("PING"), b"PONG")
        self.assertEqual(connection.range_of(commands.xclaim("orders", "g", "ann", 0, "1-0"))[0].get(b"item"), b"tea")
        claimed = connection.claimed_of(commands.xautoclaim("orders", "g", "ann", 0))
        self.assertEqual((claimed.next_id, claimed.entries.ids(), claimed.deleted_ids), (b"0-0", [b"1-0"], [b"2-0"]))
        ids = connection.claimed_ids_of(commands.xautoclaim("orders", "g", "ann", 0, justid=True))
        self.assertEqual(ids, (b"3-0", [b"1-0"], []))


if __name__ == "__main__":
    unittest.main()
