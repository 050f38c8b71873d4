"""Commands, as their words and as their bytes."""
from __future__ import annotations

import unittest

from jagyerti import ArgumentTooLarge, BadSettings, Command, NothingGiven, commands, pack

FIELDS = {"item": "tea", b"cups": b"2"}


class CommandsTest(unittest.TestCase):
    def written(self, command: Command, words: str) -> None:
        self.assertEqual(command.arguments, words.encode().split(b" "))
        self.assertEqual(pack(*command.arguments), command)

    def test_bytes(self) -> None:
        self.assertEqual(commands.xack("k", "g", "1-0"), b"*4\r\n$4\r\nXACK\r\n$1\r\nk\r\n$1\r\ng\r\n$3\r\n1-0\r\n")
        self.assertEqual(pack("SET", "k", b"\r\n", 12).arguments, [b"SET", b"k", b"\r\n", b"12"])
        self.assertEqual(pack("PING", ""), b"*2\r\n$4\r\nPING\r\n$0\r\n\r\n")

    def test_xadd(self) -> None:
        self.written(commands.xadd("orders", FIELDS), "XADD orders * item tea cups 2")
        self.written(commands.xadd("orders", [("a", "1"), ("a", "2")], "5-*"), "XADD orders 5-* a 1 a 2")
        self.written(commands.xadd("k", FIELDS, nomkstream=True, policy="ACKED", idmp=("shop", "o-17"), maxlen=1000,
                                   approximate=True, limit=50),
                     "XADD k NOMKSTREAM ACKED IDMP shop o-17 MAXLEN ~ 1000 LIMIT 50 * item tea cups 2")
        self.written(commands.xadd("k", FIELDS, idmpauto="shop", minid="5-0"),
                     "XADD k IDMPAUTO shop MINID = 5-0 * item tea cups 2")

    def test_xtrim(self) -> None:
        self.written(commands.xtrim("k", maxlen=0), "XTRIM k MAXLEN = 0")
        self.written(commands.xtrim("k", minid="5-0", approximate=True, policy="DELREF"), "XTRIM k MINID ~ 5-0 DELREF")

    def test_reads(self) -> None:
        self.written(commands.xread({"a": "0-0", "b": "$"}, count=2, block=0), "XREAD BLOCK 0 COUNT 2 STREAMS a b 0-0 $")
        self.written(commands.xreadgroup("g", "ann", {"a": ">"}), "XREADGROUP GROUP g ann STREAMS a >")
        self.written(commands.xreadgroup("g", "ann", {"a": ">", "b": ">"}, count=10, block=5, noack=True, claim=7),
                     "XREADGROUP GROUP g ann BLOCK 5 COUNT 10 NOACK CLAIM 7 STREAMS a b > >")

    def test_of_groups(self) -> None:
        self.written(commands.xack("k", "g", ["1-0", b"2-0"]), "XACK k g 1-0 2-0")
        self.written(commands.xclaim("k", "g", "ann", 0, ["1-0", "2-0"]), "XCLAIM k g ann 0 1-0 2-0")
        self.written(commands.xclaim("k", "g", "ann", 9, "1-0", idle=1, time=2, retrycount=3, force=True, justid=True,
                                     lastid="9-0"),
                     "XCLAIM k g ann 9 1-0 IDLE 1 TIME 2 RETRYCOUNT 3 FORCE JUSTID LASTID 9-0")
        self.written(commands.xautoclaim("k", "g", "ann", 60000), "XAUTOCLAIM k g ann 60000 0-0")
        self.written(commands.xautoclaim("k", "g", "ann", 1, "5-0", count=3, justid=True),
                     "XAUTOCLAIM k g ann 1 5-0 COUNT 3 JUSTID")
        self.written(commands.xpending("k", "g", 10), "XPENDING k g - + 10")
        self.written(commands.xpending("k", "g", 10, "1-0", "2-0", idle=5, consumer="ann"), "XPENDING k g IDLE 5 1-0 2-0 10 ann")

    def test_ranges(self) -> None:
        self.written(commands.xlen("k"), "XLEN k")
        self.written(commands.xrange("k"), "XRANGE k - +")
        self.written(commands.xrange("k", "1-0", "2-0", count=0), "XRANGE k 1-0 2-0 COUNT 0")
        self.written(commands.xrevrange("k"), "XREVRANGE k + -")
        self.written(commands.xrevrange("k", "2-0", "1-0", count=1), "XREVRANGE k 2-0 1-0 COUNT 1")
        self.written(commands.xdel("k", ["1-0", b"2-0"]), "XDEL k 1-0 2-0")
        self.assertRaises(NothingGiven, lambda: commands.xdel("k", []))

    def test_groups_and_what_is_told(self) -> None:
        self.written(commands.xgroup_create("k", "g", mkstream=True), "XGROUP CREATE k g $ MKSTREAM")
        self.written(commands.xgroup_create("k", "g", "0-0"), "XGROUP CREATE k g 0-0")
        self.written(commands.xgroup_setid("k", "g", "5-0"), "XGROUP SETID k g 5-0")
        self.written(commands.xgroup_destroy("k", "g"), "XGROUP DESTROY k g")
        self.written(commands.xinfo_stream("k"), "XINFO STREAM k")
        self.written(commands.xinfo_groups("k"), "XINFO GROUPS k")
        self.written(commands.xinfo_consumers("k", "g"), "XINFO CONSUMERS k g")
        self.written(commands.xpending_summary("k", "g"), "XPENDING k g")

    def test_texts_are_any_bytes(self) -> None:
        odd = bytes(range(256)) * 10
        self.assertEqual(commands.xadd(odd, {odd: odd}).arguments, [b"XADD", odd, b"*", odd, odd])
        self.assertEqual(commands.xack("é", b"", [""]).arguments, [b"XACK", "é".encode(), b"", b""])

    def test_what_is_no_command(self) -> None:
        for call in (lambda: commands.xack("k", "g", []), lambda: commands.xadd("k", {}), lambda: commands.xread({}),
                     lambda: commands.xclaim("k", "g", "ann", 0, [])):
            self.assertRaises(NothingGiven, call)
        for call in (lambda: commands.xtrim("k"), lambda: commands.xtrim("k", maxlen=-1), lambda: commands.xtrim("k", minid=b"\xff"),
                     lambda: commands.xtrim("k", maxlen=1, minid="1"), lambda: commands.xadd("k", FIELDS, limit=1),
                     lambda: commands.xadd("k", FIELDS, policy="OTHER"), lambda: commands.xread({"k": "0"}, count=1 << 64),
                     lambda: commands.xadd("k", FIELDS, idmp=("p", "i"), idmpauto="p")):
            self.assertRaises(BadSettings, call)
        self.assertRaises(TypeError, lambda: commands.xack("k", "g", 5))  # type: ignore[arg-type]
        self.assertTrue(issubclass(ArgumentTooLarge, ValueError))


if __name__ == "__main__":
    unittest.main()
