"""Dead letters over a redis-server, and the subcommand."""
from __future__ import annotations

import contextlib
import io
import json
import os
import shutil
import subprocess
import tempfile
import threading
import time
import unittest
from typing import Dict, List, Optional, Tuple

from jagyerti import connect, dead_letters, process, resp, server
from jagyerti.cli import main

from .scripted import scripted

LETTER = ("entry", "5-0", "deliveries", "3")
REASONED = ("reason", "no\torder", *LETTER)


def called(*words: str) -> Tuple[int, str, str]:
    """The status of a command, and what it prints on both."""
    out, error = io.StringIO(), io.StringIO()
    with contextlib.redirect_stdout(out), contextlib.redirect_stderr(error):
        try:
            status: Optional[int] = main(list(words))
        except SystemExit as ended:
            status = ended.code if isinstance(ended.code, int) else 1
    return status or 0, out.getvalue(), error.getvalue()


class WordsTest(unittest.TestCase):
    def test_words_that_are_refused(self) -> None:
        url = "redis://127.0.0.1:1"
        for words, said in ((("list", url), "no stream"), (("list", url, "d", "1-0"), "takes no ids"),
                            (("replay", url, "d", "--to", "k"), "wants the ids"), (("drop", url, "d"), "wants the ids"),
                            (("drop", url, "d", "1-0", "--all"), "not both"), (("show", url, "d", "--all"), "takes no --all"),
                            (("replay", url, "d", "1-0"), "wants --to"), (("drop", url, "d", "1-0", "--to", "k"), "takes no --to"),
                            (("replay", url, "d", "--to", "d", "1-0"), "itself"), (("drop", url, "d", "--json", "1-0"), "takes no --json"),
                            (("show", url, "d", "x"), "no id"), (("show", url, "d", "18446744073709551616-0"), "no id"),
                            (("list", url, "d", "--jsn"), "--jsn is unknown"), (("burn", url, "d"), "invalid choice")):
            status, shown, error = called("dead", *words)
            self.assertEqual((status, shown), (2, ""), words)
            self.assertIn(said, error, words)

    def test_ids(self) -> None:
        self.assertEqual([dead_letters.complete_id(text) for text in ("5", "5-7", "0005-0")], ["5-0", "5-7", "5-0"])

    def test_a_server_that_is_not_there(self) -> None:
        status, _, error = called("dead", "list", f"redis://127.0.0.1:{server.free_port()}", "d")
        self.assertEqual(status, 1)
        self.assertIn("no connection", error)

    def test_another_slot(self) -> None:
        crossing = b"-CROSSSLOT Keys in request don't hash to the same slot\r\n"
        with scripted([b":1\r\n", crossing]) as (port, noted):
            status, _, error = called("dead", "replay", f"redis://127.0.0.1:{port}", "d", "--to", "k", "1-0")
        self.assertEqual(status, 1)
        self.assertIn("CROSSSLOT", error)
        self.assertIn("{orders}:dead", error)
        self.assertEqual(noted[1][3:], [b"d", b"k", b"1-0"])

    def test_a_redirection(self) -> None:
        with scripted([b":1\r\n", b"*0\r\n"]) as (other, noted), scripted([f"-MOVED 5 127.0.0.1:{other}\r\n".encode()]) as (port, _):
            self.assertEqual(called("dead", "list", f"redis://127.0.0.1:{port}", "d"), (0, "", "jagyerti dead: d has no letters\n"))
        self.assertEqual(noted[1][:2], [b"XRANGE", b"d"])


@unittest.skipUnless(shutil.which("redis-server"), "redis-server is not installed")
class DeadLettersTest(unittest.TestCase):
    def setUp(self) -> None:
        self.server = self.enterServer()
        self.connection = self.server.open()
        self.addCleanup(self.connection.close)

    def enterServer(self) -> server.Server:
        stack = contextlib.ExitStack()
        self.addCleanup(stack.close)
        return stack.enter_context(server.start_redis())

    def ask(self, *words: resp.Word) -> resp.Reply:
        return resp.ask(self.connection, *words)

    def dead(self, action: str, *words: str) -> Tuple[int, str, str]:
        return called("dead", action, self.server.url, *words)

    def test_list_and_show(self) -> None:
        self.ask("XADD", "d", "1-0", *LETTER, "item", "tea", b"\xff", b"a\nb")
        self.ask("XADD", "d", "2-0", "entry", "6-0", "deliveries", "1", "reason", "no such column", "item", "cup")
        self.ask("XADD", "d", "3-0", "item", "tea")
        self.assertEqual(self.dead("list", "d"), (0, "1-0  entry 5-0  3 deliveries\n"
                                                     "2-0  entry 6-0  1 delivery  reason: no such column\n3-0  is no dead letter\n", ""))
        self.assertEqual(self.dead("show", "d", "1"),
                         (0, "1-0\n    entry: 5-0\n    deliveries: 3\n    item: tea\n    \\xff: a\\nb\n", ""))
        rows = [json.loads(line) for line in self.dead("list", "--json", "d")[1].splitlines()]
        self.assertEqual(rows[0], {"id": "1-0", "entry": "5-0", "deliveries": 3, "fields": [["item", "tea"], ["\\xff", "a\nb"]]})
        self.assertEqual((rows[1]["fields"][0], rows[2]["entry"]), (["reason", "no such column"], None))
        status, shown, error = self.dead("show", "d", "1-0", "9-0", "--json")
        self.assertEqual((status, [json.loads(line)["id"] for line in shown.splitlines()]), (1, ["1-0"]))
        self.assertIn("9-0: no such letter in d", error)

    def test_letters_with_a_reason_before_their_fields(self) -> None:
        self.ask("XADD", "d", "1-0", *REASONED, "reason", "its own", "item", "tea")
        self.ask("XADD", "d", "2-0", "reason", "", "entry", "6-0", "deliveries", "1", "entry", "x", "deliveries", "y")
        others = (("reason", "x"), ("reason", "x", "item", "tea"), ("reason", "x", "entry", "6-0"), ("reason", "x", "reason", "y", *LETTER),
                  ("reason", "x", "entry", "6-0", "deliveries", "many"), ("reason", "x", "deliveries", "3", "entry", "6-0"))
        for at, fields in enumerate(others, 3):
            self.ask("XADD", "d", f"{at}-0", *fields)
        lines = self.dead("list", "d")[1].splitlines()
        self.assertEqual(lines[:2], ["1-0  entry 5-0  3 deliveries  reason: no\\torder", "2-0  entry 6-0  1 delivery  reason: "])
        self.assertEqual(lines[2:], [f"{at}-0  is no dead letter" for at in range(3, 3 + len(others))])
        self.assertEqual(self.dead("show", "d", "1"), (0, "1-0\n    reason: no\\torder\n    entry: 5-0\n    deliveries: 3\n"
                                                          "    reason: its own\n    item: tea\n", ""))
        rows = [json.loads(line) for line in self.dead("show", "--json", "d", "1-0", "2-0", "3-0")[1].splitlines()]
        self.assertEqual(rows, [
            {"id": "1-0", "reason": "no\torder", "entry": "5-0", "deliveries": 3, "fields": [["reason", "its own"], ["item", "tea"]]},
            {"id": "2-0", "reason": "", "entry": "6-0", "deliveries": 1, "fields": [["entry", "x"], ["deliveries", "y"]]},
            {"id": "3-0", "entry": None, "deliveries": None, "fields": [["reason", "x"]]}])
        self.ask("XADD", "k", "1-0", "n", "old")
        for id in ("1-0", "2-0"):
            self.assertEqual(self.dead("replay", "d", id, "--to", "k")[0], 0)
        self.assertEqual([fields for _, fields in self.ask("XRANGE", "k", "2", "+")],
                         [[b"reason", b"its own", b"item", b"tea"], [b"entry", b"x", b"deliveries", b"y"]])
        for at in (3, 4, 5, 6, 8):
            self.assertIn("no dead letter", self.dead("replay", "d", f"{at}-0", "--to", "k")[2])
        self.assertEqual(self.dead("drop", "d", "3-0")[:2], (0, "3-0: dropped\n"))

    def test_a_stream_without_letters(self) -> None:
        for words in (("list", "d"), ("list", "--json", "d"), ("show", "d"), ("drop", "d", "--all"), ("replay", "d", "--to", "k", "--all")):
            self.assertEqual(self.dead(*words), (0, "", "jagyerti dead: d has no letters\n"), words)

    def test_many_letters(self) -> None:
        for at in range(250):
            self.ask("XADD", "d", f"{at}-18446744073709551615", "entry", f"{at}-1", "deliveries", 3, "n", at)
        self.assertEqual(len(self.dead("list", "d")[1].splitlines()), 250)
        self.ask("XADD", "k", "1-0", "n", "old")
        status, shown, _ = self.dead("replay", "d", "--to", "k", "--all")
        self.assertEqual((status, len(shown.splitlines()), self.ask("XLEN", "d")), (0, 250, 0))
        values = [fields for _, fields in self.ask("XRANGE", "k", "-", "+")]
        self.assertEqual(values, [[b"n", b"old"]] + [[b"n", b"%d" % at] for at in range(250)])

    def test_replay_is_once(self) -> None:
        self.ask("XADD", "k", "5-0", "item", "tea", "item", "pot")
        self.ask("XADD", "d", "1-0", *LETTER, "item", "tea", "item", "pot")
        status, shown, error = self.dead("replay", "d", "1-0", "--to", "k")
        added = self.ask("XREVRANGE", "k", "+", "-", "COUNT", 1)[0]
        self.assertEqual((status, shown, error), (0, f"1-0: added to k as {added[0].decode()}\n", ""))
        self.assertEqual(added[1], [b"item", b"tea", b"item", b"pot"])
        status, shown, error = self.dead("replay", "d", "--to", "k", "1-0")
        self.assertEqual((status, shown, self.ask("XLEN", "k")), (1, "", 2))
        self.assertIn("1-0: no such letter in d", error)

    def test_replay_of_two_at_once(self) -> None:
        self.ask("XADD", "k", "1-0", "n", "old")
        for at in range(1, 201):
            self.ask("XADD", "d", f"{at}-0", "entry", f"{at}-1", "deliveries", 3, "n", at)
        added: Dict[int, List[str]] = {0: [], 1: []}

        def replay(which: int) -> None:
            with self.server.open() as own:
                for at in range(1, 201):
                    found = dead_letters.replay_letter(own, "d", f"{at}-0", "k")
                    added[which] += [found] if found else []

        threads = [threading.Thread(target=replay, args=(which,)) for which in (0, 1)]
        for thread in threads:
            thread.start()
        for thread in threads:
            thread.join(30)
        self.assertEqual((len(added[0]) + len(added[1]), self.ask("XLEN", "k"), self.ask("XLEN", "d")), (200, 201, 0))

    def test_what_replay_refuses_changes_nothing(self) -> None:
        self.ask("XADD", "d", "1-0", *LETTER, "item", "tea")
        self.ask("XADD", "d", "2-0", "item", "tea")
        self.ask("XADD", "k", "1-0", "n", "old")
        self.ask("SET", "text", "x")
        for onto, id, said in (("none", "1-0", "none does not exist"), ("text", "1-0", "WRONGTYPE"), ("k", "2-0", "no dead letter")):
            status, shown, error = self.dead("replay", "d", id, "--to", onto)
            self.assertEqual((status, shown), (1, ""), onto)
            self.assertIn(said, error)
        self.ask("CONFIG", "SET", "maxmemory", "1")
        self.assertIn("OOM", self.dead("replay", "d", "1-0", "--to", "k")[2])
        self.ask("CONFIG", "SET", "maxmemory", "0")
        self.assertEqual((self.ask("XLEN", "d"), self.ask("XLEN", "k"), self.ask("EXISTS", "none")), (2, 1, 0))
        self.assertIn("WRONGTYPE", self.dead("list", "text")[2])

    def test_a_cluster(self) -> None:
        with server.start_redis("--cluster-enabled", "yes", "--cluster-port", str(server.free_port())) as node:
            node.ask("CLUSTER", "ADDSLOTSRANGE", 0, 16383)
            for _ in range(100):
                if b"cluster_state:ok" in node.ask("CLUSTER", "INFO"):
                    break
                time.sleep(0.05)
            for stream, onto in (("dead", "orders"), ("{orders}:dead", "{orders}")):
                node.ask("XADD", stream, "1-0", *LETTER, "item", "tea")
                node.ask("XADD", onto, "1-0", "item", "old")
            status, shown, error = called("dead", "replay", node.url, "dead", "--to", "orders", "--all")
            self.assertEqual((status, shown), (1, ""))
            self.assertIn("CROSSSLOT", error)
            self.assertEqual((node.ask("XLEN", "dead"), node.ask("XLEN", "orders")), (1, 1))
            self.assertEqual(called("dead", "replay", node.url, "{orders}:dead", "--to", "{orders}", "--all")[0], 0)
            self.assertEqual((node.ask("XLEN", "{orders}:dead"), node.ask("XLEN", "{orders}")), (0, 2))

    def test_drop(self) -> None:
        for at in (1, 2, 3):
            self.ask("XADD", "d", f"{at}-0", *LETTER, "n", at)
        status, shown, error = self.dead("drop", "d", "2-0", "7-0")
        self.assertEqual((status, shown), (1, "2-0: dropped\n"))
        self.assertIn("7-0: no such letter", error)
        self.assertEqual(self.dead("drop", "d", "--all"), (0, "1-0: dropped\n3-0: dropped\n", ""))
        self.assertEqual(self.dead("list", "d"), (0, "", "jagyerti dead: d has no letters\n"))

    def test_letters_of_stream_drain(self) -> None:
        try:
            program = process.find_program("stream_drain")
        except connect.Failed as failed:
            self.skipTest(str(failed))
        self.ask("XGROUP", "CREATE", "k", "g", "0", "MKSTREAM")
        self.ask("XADD", "k", "5-0", "item", "tea", "item", "pot")
        self.ask("XREADGROUP", "GROUP", "g", "ann", "STREAMS", "k", ">")
        self.ask("XCLAIM", "k", "g", "ann", 0, "5-0", "RETRYCOUNT", 3)
        with tempfile.TemporaryDirectory() as folder, self.server.open() as side:
            side.settimeout(None)
            words = [program, "k", "g", "ann", os.path.join(folder, "lines"), "--dead", "3", "d", "--until-empty", "--block", "10"]
            subprocess.run(words, stdin=side, stdout=side, stderr=subprocess.DEVNULL, check=True, timeout=60)
        letter, = dead_letters.read_letters(self.connection, "d")
        self.assertEqual((letter.entry, letter.fields), ("5-0", [(b"item", b"tea"), (b"item", b"pot")]))
        self.assertGreaterEqual(letter.deliveries or 0, 3)
        self.assertIsNotNone(dead_letters.replay_letter(self.connection, "d", letter.id, "k"))
        self.assertEqual([fields for _, fields in self.ask("XRANGE", "k", "-", "+")], 2 * [[b"item", b"tea", b"item", b"pot"]])


if __name__ == "__main__":
    unittest.main()
