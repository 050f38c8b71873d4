"""A consumer over a connection to redis-server, where that is installed, in RESP2 and RESP3."""
from __future__ import annotations

import os
import re
import shutil
import socket
import subprocess
import sys
import tempfile
import time
import unittest

import jagyerti
from jagyerti import Connection, Consumer, Entry, NotConnected, ServerError, commands, server


PACKAGES = os.path.dirname(os.path.dirname(jagyerti.__file__))
README = os.path.join(os.path.dirname(os.path.dirname(os.path.abspath(__file__))), "README.md")


@unittest.skipUnless(shutil.which("redis-server"), "redis-server is not installed")
class LiveTest(unittest.TestCase):
    @classmethod
    def setUpClass(cls) -> None:
        cls.folder = tempfile.TemporaryDirectory()
        cls.path = os.path.join(cls.folder.name, "socket")
        cls.server = subprocess.Popen(
            ["redis-server", "--port", "0", "--unixsocket", cls.path, "--save", "", "--dir", cls.folder.name],
            stdout=subprocess.DEVNULL)
        until = time.monotonic() + 60
        while not os.path.exists(cls.path) and time.monotonic() < until:
            time.sleep(0.05)

    @classmethod
    def tearDownClass(cls) -> None:
        cls.server.terminate()
        cls.server.wait()
        cls.folder.cleanup()

    def connected(self, protocol: int) -> Connection:
        connected = socket.socket(socket.AF_UNIX)
        connected.settimeout(60)
        connected.connect(self.path)
        self.addCleanup(connected.close)
        connection = Connection(connected)
        connection.call("HELLO", protocol)
        return connection

    def test_at_least_once(self) -> None:
        for protocol in (2, 3):
            with self.subTest(protocol=protocol):
                self.consume(self.connected(protocol), f"orders{protocol}")

    def consume(self, connection: Connection, key: str) -> None:
        self.assertEqual([connection.ensure_group(key, "g") for _ in range(2)], [True, False])
        value = bytes(range(256)) * 300
        ids = [connection.value_of(commands.xadd(key, {"number": str(at), "value": value})) for at in range(500)]
        seen: list[bytes] = []

        def handler(entry: Entry) -> None:
            if entry.get(b"number") == b"250" and len(seen) == 250:
                raise InterruptedError
            self.assertEqual(entry.items(), [(b"number", b"%d" % len(seen)), (b"value", value)])
            seen.append(entry.id)

        consumer = Consumer(connection, key, "g", "ann", count=100, block=1)
        with self.assertRaises(InterruptedError):
            consumer.run(handler)
        pending = connection.value_of(commands.xpending(key, "g", 1000))
        assert isinstance(pending, list)
        self.assertEqual([row[0] for row in pending], ids[250:300])
        claimed = connection.claimed_of(commands.xautoclaim(key, "g", "bob", 0, count=10))
        self.assertEqual(claimed.entries.ids(), ids[250:260])
        mine = connection.range_of(commands.xclaim(key, "g", "ann", 0, claimed.entries.ids()))
        self.assertEqual(mine.ids(), ids[250:260])
        connection.call("XDEL", key, str(ids[499], "ascii"))

        def rest(entry: Entry) -> None:
            seen.append(entry.id)

        self.assertEqual(consumer.run(rest, until_empty=True), 249)
        self.assertEqual(seen, ids[:499])
        self.assertEqual(connection.value_of(commands.xpending(key, "g", 1000)), [])
        with self.assertRaises(ServerError) as raised:
            Consumer(connection, key, "other", "ann").read_new()
        self.assertEqual(raised.exception.code, "NOGROUP")
        self.assertEqual(connection.call("PING"), b"PONG")


@unittest.skipUnless(shutil.which("redis-server"), "redis-server is not installed")
@unittest.skipUnless(os.path.exists(README), "the page is not beside the tests")
class PageTest(unittest.TestCase):
    def blocks(self, url: str) -> list[str]:
        """The programs of the page, over this server."""
        with open(README, encoding="utf-8") as file:
            found = re.findall(r"^```python\n(.*?)^```$", file.read(), re.S | re.M)
        return [text.replace("redis://localhost:6379", url) for text in found]

    def test_the_first_consumer_twice(self) -> None:
        with server.start_redis() as one:
            program = self.blocks(one.url)[0].replace(".run(handle)", ".run(handle, until_empty=True)").replace(
                '"ann")', '"ann", block=1)')
            shown = []
            for number in (1, 2):
                one.ask("XADD", "orders", f"{number}-0", "item", "tea")
                ran = subprocess.run([sys.executable, "-c", program], env=dict(os.environ, PYTHONPATH=PACKAGES),
                                     capture_output=True, text=True, timeout=60)
                self.assertEqual((ran.returncode, ran.stderr), (0, ""))
                shown.append(ran.stdout)
            self.assertEqual(shown, ["b'1-0' {b'item': b'tea'}\n", "b'2-0' {b'item': b'tea'}\n"])

    def test_a_consumer_that_outlives_its_server(self) -> None:
        port = server.free_port()
        program = self.blocks(f"redis://127.0.0.1:{port}")[1]
        program += "\ndef handle(entry):\n    print(entry.id.decode(), flush=True)\nwork_for_ever(handle)\n"
        with subprocess.Popen([sys.executable, "-c", program], env=dict(os.environ, PYTHONPATH=PACKAGES),
                              stdout=subprocess.PIPE, text=True) as worker:
            assert worker.stdout is not None
            try:
                for number in ("1-0", "2-0"):
                    with server.start_redis(port=port):
                        with Connection.open(f"redis://127.0.0.1:{port}") as connection:
                            connection.value_of(commands.xadd("orders", {"item": "tea"}, number))
                        self.assertEqual(worker.stdout.readline(), f"{number}\n")
            finally:
                worker.kill()

    def test_no_connection(self) -> None:
        with self.assertRaises(NotConnected) as raised:
            Connection.open(f"redis://127.0.0.1:{server.free_port()}")
        self.assertTrue(raised.exception.is_transient)
        self.assertRaises(ValueError, Connection.open, "http://127.0.0.1")


if __name__ == "__main__":
    unittest.main()
