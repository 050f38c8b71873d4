"""Groups, and what is pending."""
from __future__ import annotations

import unittest

from jagyerti import (Group, OtherReply, PendingEntry, PendingSummary, ServerError, read_groups, read_pending,
                           read_pending_summary)

GROUP = (b"*12\r\n$4\r\nname\r\n$2\r\ng1\r\n$9\r\nconsumers\r\n:2\r\n$7\r\npending\r\n:3\r\n$17\r\nlast-delivered-id\r\n"
         b"$3\r\n5-0\r\n$12\r\nentries-read\r\n:5\r\n$3\r\nlag\r\n:7\r\n")
UNTOLD = b"%4\r\n+name\r\n$2\r\ng2\r\n+pending\r\n:0\r\n+consumers\r\n:0\r\n+lag\r\n_\r\n"
ROWS = b"*2\r\n*4\r\n$3\r\n1-0\r\n$3\r\nann\r\n:700\r\n:2\r\n*4\r\n$3\r\n2-0\r\n$3\r\nbob\r\n:5\r\n:1\r\n"
SUMMARY = b"*4\r\n:3\r\n$3\r\n1-0\r\n$3\r\n9-0\r\n*2\r\n*2\r\n$3\r\nann\r\n$1\r\n2\r\n*2\r\n$3\r\nbob\r\n$1\r\n1\r\n"


class RecordsTest(unittest.TestCase):
    def test_groups(self) -> None:
        reply = b"*2\r\n" + GROUP + UNTOLD
        groups = [Group(b"g1", 2, 3, b"5-0", 5, 7), Group(b"g2", 0, 0, b"", None, None)]
        self.assertEqual(read_groups(reply + b":1\r\n"), (groups, len(reply)))
        for end in range(len(reply)):
            self.assertIsNone(read_groups(reply[:end]))

    def test_tables_grow(self) -> None:
        reply = b"*100\r\n" + GROUP * 100
        self.assertEqual(read_groups(reply), ([Group(b"g1", 2, 3, b"5-0", 5, 7)] * 100, len(reply)))

    def test_pending(self) -> None:
        rows = [PendingEntry(b"1-0", b"ann", 700, 2), PendingEntry(b"2-0", b"bob", 5, 1)]
        self.assertEqual(read_pending(ROWS), (rows, len(ROWS)))
        summary = PendingSummary(3, b"1-0", b"9-0", [(b"ann", 2), (b"bob", 1)])
        self.assertEqual(read_pending_summary(SUMMARY), (summary, len(SUMMARY)))
        nothing = b"*4\r\n:0\r\n$-1\r\n$-1\r\n*-1\r\n"
        self.assertEqual(read_pending_summary(nothing), (PendingSummary(0, b"", b"", []), len(nothing)))

    def test_other_replies(self) -> None:
        for read in (read_groups, read_pending, read_pending_summary):
            self.assertRaises(OtherReply, read, b"+OK\r\n")
            with self.assertRaises(ServerError) as raised:
                read(b"-NOGROUP no such group\r\n")
            self.assertEqual(raised.exception.code, "NOGROUP")


if __name__ == "__main__":
    unittest.main()
