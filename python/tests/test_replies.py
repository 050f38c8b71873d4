"""Replies, whole, in pieces, and changed at random, beside the reader of `resp`."""
from __future__ import annotations

import math
import os
import random
import unittest
from typing import Any

import jagyerti
from jagyerti import errors

from . import resp
from .stored import REPLIES, ROWS, bulk, entry, group, mutated

FINDING = {"streams": jagyerti.find_streams, "range": jagyerti.find_range, "value": jagyerti.find_value,
           "autoclaim": jagyerti.find_autoclaim, "justid": jagyerti.find_justid}
COUNT = int(os.environ.get("MUTATIONS", "100000"))
FAULTS = {kind for kind in vars(errors).values()
          if isinstance(kind, type) and issubclass(kind, errors.ProtocolError) and kind is not errors.ProtocolError}


def entries(found: jagyerti.Entries) -> Any:
    return [(it.id, None if it.deleted else [(bytes(name), bytes(value)) for name, value in it]) for it in found]


def plain(kind: str, found: Any) -> Any:
    """What was found, as the reader of `resp` shows it."""
    if kind == "streams":
        return [(stream.name, entries(stream.entries)) for stream in found]
    if kind == "range":
        return entries(found)
    claimed = found.ids if kind == "justid" else entries(found.entries)
    return found.next_id, claimed, found.deleted_ids


def same(ours: Any, theirs: Any) -> bool:
    """Whether two values of any reply are the same."""
    if isinstance(theirs, resp.Failure):
        return isinstance(ours, jagyerti.ServerError) and ours.text == theirs.text
    if isinstance(theirs, resp.Pairs):
        if isinstance(ours, dict):
            return all(any(same(key, it) for key in ours) for it, _ in theirs.pairs)
        return same(ours, [list(pair) for pair in theirs.pairs])
    if isinstance(theirs, list):
        return isinstance(ours, list) and len(ours) == len(theirs) and all(map(same, ours, theirs))
    if isinstance(theirs, float) and math.isnan(theirs):
        return isinstance(ours, float) and math.isnan(ours)
    return type(ours) is (bytes if isinstance(theirs, bytes) else type(theirs)) and ours == theirs


def outcome(kind: str, data: bytes) -> tuple[Any, ...]:
    """What the package says of bytes; an exception that is none of its own comes out."""
    try:
        found = FINDING[kind](data)
    except jagyerti.ServerError as error:
        return ("error", error.text)
    except jagyerti.OtherReply as error:
        return ("other", len(error.reply))
    except jagyerti.ProtocolError as error:
        return ("refused",) if type(error) in FAULTS else ("unnamed", error)
    return ("not yet",) if found is None else ("found", found[0] if kind == "value" else plain(kind, found[0]), found[1])


class RepliesTest(unittest.TestCase):
    def agree(self, kind: str, data: bytes) -> str:
        wanted, found = resp.outcome(kind, data), outcome(kind, data)
        if wanted[0] == "error":
            wanted = wanted[:2]
        if kind == "value" and wanted[0] == found[0] == "found":
            self.assertTrue(same(found[1], wanted[1]) and found[2] == wanted[2], (data, found, wanted))
        else:
            self.assertEqual(found, wanted, (kind, data))
        return str(wanted[0])

    def test_stored(self) -> None:
        for kind, replies in REPLIES.items():
            for reply in replies:
                for data in (reply, reply + b"+OK\r\n"):
                    self.assertIn(self.agree(kind, data), ("found", "error"), data)
                for end in range(len(reply)):
                    self.assertEqual(self.agree(kind, reply[:end]), "not yet", reply[:end])

    def test_each_reply_by_each_reading(self) -> None:
        for kind in REPLIES:
            for replies in REPLIES.values():
                for reply in replies:
                    self.agree(kind, reply)

    def test_mutations(self) -> None:
        chosen = random.Random(20261126)
        stored = [(kind, reply) for kind, replies in REPLIES.items() for reply in replies]
        tally: dict[str, int] = {}
        for _ in range(COUNT):
            kind, reply = chosen.choice(stored)
            sort = self.agree(kind, mutated(chosen, reply))
            tally[sort] = tally.get(sort, 0) + 1
        if COUNT >= 10000:
            self.assertEqual(set(tally), {"found", "error", "other", "refused", "not yet"})

    def test_many_entries(self) -> None:
        rows = [b"*2\r\n" + bulk(b"%d-0" % at) + group(bulk(b"name"), bulk(b"%d" % at)) for at in range(5000)]
        found = jagyerti.find_range(group(*rows))
        assert found is not None
        self.assertEqual(len(found[0]), 5000)
        self.assertEqual(found[0].ids()[4999], b"4999-0")
        self.assertEqual(found[0][-1].get(b"name"), b"4999")
        self.assertEqual([it.id for it in found[0][10:12]], [b"10-0", b"11-0"])
        with self.assertRaises(IndexError):
            found[0][5000]

    def test_entry(self) -> None:
        found = jagyerti.find_range(ROWS)
        assert found is not None
        tea, milk, gone, unnamed, last = found[0]
        self.assertEqual(tea.to_dict(), {b"item": b"tea", b"cups": b"2"})
        self.assertEqual((len(tea.items()), milk.items(), gone.deleted, gone.items()), (2, [(b"item", b"\r\nmilk")], True, []))
        self.assertEqual((last.get(b"item"), last.get(b"none")), (b"2", None))

    def test_a_name_of_text(self) -> None:
        found = jagyerti.find_range(group(entry(b"1-0", b"item", b"tea", "naïve".encode(), b"2")))
        assert found is not None
        self.assertEqual([found[0][0].get(name) for name in ("item", "naïve", "none")], [b"tea", b"2", None])
        self.assertEqual(found[0][0].get(memoryview(b"item")), b"tea")
        with self.assertRaises(TypeError):
            found[0][0].get(5)  # type: ignore[arg-type]

    def test_the_rest_of_an_entry(self) -> None:
        found = jagyerti.find_range(ROWS)
        assert found is not None
        tea, gone = found[0][0], found[0][2]
        self.assertTrue(all(isinstance(part, memoryview) for field in tea for part in field))
        self.assertEqual(repr(gone), "Entry(id=b'3-0', fields=[], deleted)")

    def test_faults_by_name(self) -> None:
        named = {b"?": errors.UnknownType, b"$?\r\n": errors.StreamedValue, b"$1\r\nab": errors.BadEnd,
                 b"$x\r\n": errors.BadLength, b"$999999999\r\n": errors.TooLong, b"+" + b"a" * 70000: errors.LongLine,
                 b"*1\r\n" * 200: errors.TooDeep, b":x\r\n": errors.BadNumber, b"_x\r\n": errors.BadNull,
                 b"#x\r\n": errors.BadBoolean, b"=1\r\nx\r\n": errors.BadVerbatim, b">0\r\n": errors.BadPush,
                 b">1\r\n$1\r\n\xff\r\n": errors.NotUtf8}
        for data, kind in named.items():
            with self.assertRaises(kind):
                jagyerti.find_value(data)

    def test_error(self) -> None:
        with self.assertRaises(jagyerti.ServerError) as raised:
            jagyerti.find_streams(b"-NOGROUP no such group\r\n")
        self.assertEqual((raised.exception.code, str(raised.exception)), ("NOGROUP", "NOGROUP no such group"))

    def test_which_errors_are_worth_another_try(self) -> None:
        # As docs/WORKER.md says of redis_client.
        for code in ("READONLY", "UNBLOCKED", "LOADING", "MASTERDOWN", "CLUSTERDOWN", "TRYAGAIN", "BUSY", "OOM", "MISCONF",
                     "NOREPLICAS"):
            self.assertTrue(errors.ServerError(f"{code} it says".encode()).is_transient, code)
        self.assertTrue(errors.ServerError(b"ERR max number of clients reached").is_transient)
        for text in (b"NOGROUP none", b"WRONGTYPE other", b"ERR LOADING", b"BUSYGROUP there", b"NOAUTH first", b"MOVED 1 a:1", b""):
            self.assertFalse(errors.ServerError(text).is_transient, text)
        for error, wanted in ((errors.ConnectionClosed(), True), (errors.OutOfMemory(), True), (errors.OtherReply(b""), False),
                              (errors.UnknownType(), False), (errors.NothingGiven(), False), (errors.LibraryNotFound(), False)):
            self.assertIs(error.is_transient, wanted, error)

    def test_a_number_of_many_digits(self) -> None:
        self.assertEqual(jagyerti.find_value(b"(" + b"1" * 5000 + b"\r\n"), (b"1" * 5000, 5003))


class DecoderTest(unittest.TestCase):
    def test_in_pieces(self) -> None:
        for kind, replies in REPLIES.items():
            whole = [reply for reply in replies if reply[:1] not in b"-!"]
            for size in (1, 2, 7, 1000):
                decoder, found, data = jagyerti.Decoder(), [], b"".join(whole)
                for at in range(0, len(data), size):
                    decoder.feed(data[at : at + size])
                    while (reply := getattr(decoder, kind)()) is not None:
                        found.append(reply[0] if kind == "value" else plain(kind, reply))
                self.assertEqual(len(found), len(whole))
                self.assertEqual(len(decoder), 0)
                for one, reply in zip(found, whole):
                    wanted = resp.outcome(kind, reply)[1]
                    self.assertTrue(same(one, wanted) if kind == "value" else one == wanted, (one, wanted))

    def test_what_comes_after_an_error(self) -> None:
        decoder = jagyerti.Decoder()
        decoder.feed(b"-ERR no\r\n:1\r\n" + REPLIES["streams"][0] + b"?")
        with self.assertRaises(jagyerti.ServerError):
            decoder.streams()
        with self.assertRaises(jagyerti.OtherReply) as raised:
            decoder.streams()
        self.assertEqual(raised.exception.reply, b":1\r\n")
        self.assertEqual(len(decoder.streams() or ()), 1)
        for _ in range(2):
            with self.assertRaises(errors.UnknownType):
                decoder.streams()

    def test_what_was_read_stays(self) -> None:
        decoder = jagyerti.Decoder()
        decoder.feed(ROWS)
        found = decoder.range()
        assert found is not None
        decoder.feed(b"x" * 10000)
        self.assertEqual(found[0].get(b"item"), b"tea")


if __name__ == "__main__":
    unittest.main()
