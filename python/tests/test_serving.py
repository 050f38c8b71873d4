"""`jagyerti serve`: connections share one server. Wants stream_serve; without it nothing is tried."""
import socket
import threading
import time
import unittest

from jagyerti import connect, process, resp, server


def has_program():
    try:
        return bool(process.find_program("stream_serve"))
    except connect.Failed:
        return False


@unittest.skipUnless(has_program(), "no stream_serve is built")
class Serving(unittest.TestCase):
    @classmethod
    def setUpClass(cls):
        cls.context = server.start_serve("--clock", "1000")
        cls.server = cls.context.__enter__()

    @classmethod
    def tearDownClass(cls):
        cls.context.__exit__(None, None, None)

    def setUp(self):
        self.server.ask("FLUSHALL")
        self.one, self.other = self.server.open(), self.server.open()
        self.addCleanup(self.one.close)
        self.addCleanup(self.other.close)

    def test_streams_are_shared(self):
        self.assertEqual(resp.ask(self.one, "XADD", "k", "5-1", "a", "b"), b"5-1")
        self.assertEqual(resp.ask(self.other, "XRANGE", "k", "-", "+"), [[b"5-1", [b"a", b"b"]]])

    def test_each_has_its_protocol(self):
        resp.ask(self.one, "XADD", "k", "5-1", "a", "b")
        self.assertEqual(resp.ask(self.one, "HELLO", "3")[b"proto"], 3)
        wanted = [[b"5-1", [b"a", b"b"]]]
        for _ in range(2):
            self.assertEqual(resp.ask(self.one, "XREAD", "STREAMS", "k", "0"), {b"k": wanted})
            self.assertEqual(resp.ask(self.other, "XREAD", "STREAMS", "k", "0"), [[b"k", wanted]])

    def test_block_waits_for_an_entry(self):
        resp.ask(self.one, "XADD", "k", "5-1", "a", "b")
        threading.Timer(0.2, resp.ask, (self.other, "XADD", "k", "6-1", "c", "d")).start()
        self.assertEqual(resp.ask(self.one, "XREAD", "BLOCK", "0", "STREAMS", "k", "$"), [[b"k", [[b"6-1", [b"c", b"d"]]]]])

    def test_block_ends(self):
        begun = time.monotonic()
        self.assertIsNone(resp.ask(self.one, "XREAD", "BLOCK", "300", "STREAMS", "k", "0"))
        self.assertGreaterEqual(time.monotonic() - begun, 0.29)

    def wait_until(self, count):
        """Waits until so many clients wait, as INFO tells it."""
        line, end = b"blocked_clients:%d\r\n" % count, time.monotonic() + 10
        while line not in resp.ask(self.other, "INFO", "clients"):
            self.assertLess(time.monotonic(), end)

    def test_what_a_group_waits_for_goes_away(self):
        for words, error in ((("DEL", "k"), "UNBLOCKED the stream key no longer exists"),
                             (("FLUSHALL",), "UNBLOCKED the stream key no longer exists"),
                             (("XGROUP", "DESTROY", "k", "g"), "NOGROUP the consumer group this client was blocked on no longer exists")):
            resp.ask(self.other, "XGROUP", "CREATE", "k", "g", "$", "MKSTREAM")
            self.one.sendall(resp.encode(["XREADGROUP", "GROUP", "g", "c", "BLOCK", "0", "STREAMS", "k", ">"]))
            self.wait_until(1)
            resp.ask(self.other, *words)
            self.assertEqual(self.one.recv(100), f"-{error}\r\n".encode())
            self.wait_until(0)

    def test_calls_and_errors_are_counted(self):
        resp.ask(self.other, "CONFIG", "RESETSTAT")
        self.assertIn(b"total_error_replies:0\r\n", resp.ask(self.other, "INFO"))
        resp.ask(self.other, "XGROUP", "CREATE", "k", "g", "$", "MKSTREAM")
        self.one.sendall(resp.encode(["XREADGROUP", "GROUP", "g", "c", "BLOCK", "0", "STREAMS", "k", ">"]))
        self.wait_until(1)
        resp.ask(self.other, "XADD", "other", "5-1", "a", "b")
        resp.ask(self.other, "XGROUP", "DESTROY", "k", "g")
        self.assertTrue(self.one.recv(100).startswith(b"-NOGROUP "))
        for words in (["XLEN"], ["no", "such"]):
            with self.assertRaises(resp.ReplyError):
                resp.ask(self.other, *words)
        self.assertEqual(resp.ask(self.other, "INFO", "errorstats"),
                         b"# Errorstats\r\nerrorstat_ERR:count=2\r\nerrorstat_NOGROUP:count=1\r\n")
        rows = resp.ask(self.other, "INFO", "commandstats").split(b"\r\n")
        for name, counts in (("xreadgroup", (1, 0, 1)), ("xadd", (1, 0, 0)), ("xlen", (0, 1, 0))):
            self.assertIn(b"cmdstat_%s:calls=%d,usec=0,usec_per_call=0.00,rejected_calls=%d,failed_calls=%d"
                          % (name.encode(), *counts), rows)
        self.assertFalse([row for row in rows if b"_no:" in row])
        self.assertIn(b"total_error_replies:3\r\n", resp.ask(self.other, "INFO", "stats"))

    def test_nothing_goes_to_a_client_that_has_gone(self):
        resp.ask(self.other, "XGROUP", "CREATE", "k", "g", "$", "MKSTREAM")
        self.one.sendall(resp.encode(["XREADGROUP", "GROUP", "g", "c", "BLOCK", "0", "STREAMS", "k", ">"]))
        self.wait_until(1)
        self.one.close()
        resp.ask(self.other, "XADD", "k", "5-1", "a", "b")
        self.wait_until(0)
        self.assertEqual(resp.ask(self.other, "XPENDING", "k", "g")[0], 0)

    def test_transactions_do_not_mix(self):
        resp.ask(self.one, "MULTI")
        self.assertEqual(resp.ask(self.one, "XADD", "k", "1-1", "a", "b"), b"QUEUED")
        self.other.sendall(resp.encode(["XLEN", "k"]))
        self.other.settimeout(0.3)
        with self.assertRaises(socket.timeout):
            self.other.recv(100)
        self.assertEqual(resp.ask(self.one, "EXEC"), [b"1-1"])
        self.other.settimeout(10)
        self.assertEqual(self.other.recv(100), b":1\r\n")

    def test_a_transaction_ends_with_its_connection(self):
        resp.ask(self.one, "MULTI")
        resp.ask(self.one, "XADD", "k", "1-1", "a", "b")
        self.one.close()
        self.assertEqual(resp.ask(self.other, "XLEN", "k"), 0)

    def test_lines_and_wrong_input(self):
        self.one.sendall(b'XADD k 7-1 "a b" c\r\n')
        self.assertEqual(self.one.recv(100), b"$3\r\n7-1\r\n")
        self.one.sendall(b"*1\r\n:3\r\n")
        self.assertEqual(self.one.recv(100), b"-ERR Protocol error: expected '$'\r\n")
        self.assertEqual(self.one.recv(100), b"")
        self.assertEqual(resp.ask(self.other, "XRANGE", "k", "-", "+"), [[b"7-1", [b"a b", b"c"]]])

    def test_quit(self):
        self.assertEqual(resp.ask(self.one, "QUIT"), b"OK")
        self.assertEqual(self.one.recv(100), b"")
        self.assertEqual(resp.ask(self.other, "PING"), b"PONG")


if __name__ == "__main__":
    unittest.main()
