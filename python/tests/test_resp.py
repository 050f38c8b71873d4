"""Commands as bytes, and replies of both protocols, whole and cut."""
import io
import math
import socket
import threading
import unittest

from jagyerti import resp

# What redis.io's protocol specification shows, and the value that it means.
REPLIES = (
    (b"+OK\r\n", b"OK"),
    (b":-3\r\n", -3),
    (b"$5\r\nhello\r\n", b"hello"),
    (b"$0\r\n\r\n", b""),
    (b"$4\r\n\r\n\r\n\r\n", b"\r\n\r\n"),
    (b"$-1\r\n", None),
    (b"*-1\r\n", None),
    (b"*0\r\n", []),
    (b"*3\r\n:1\r\n$-1\r\n*1\r\n+a\r\n", [1, None, [b"a"]]),
    (b"_\r\n", None),
    (b"#t\r\n", True),
    (b"#f\r\n", False),
    (b",1.25\r\n", 1.25),
    (b",-inf\r\n", -math.inf),
    (b"(3492890328409238509324850943850943825024385\r\n", 3492890328409238509324850943850943825024385),
    (b"=15\r\ntxt:Some string\r\n", b"Some string"),
    (b"%2\r\n+first\r\n:1\r\n*1\r\n+k\r\n:2\r\n", {b"first": 1, (b"k",): 2}),
    (b"~2\r\n+a\r\n+b\r\n", [b"a", b"b"]),
    (b">2\r\n+message\r\n+b\r\n", [b"message", b"b"]),
    (b"|1\r\n+ttl\r\n:3600\r\n:5\r\n", 5),
)
ERRORS = (
    (b"-WRONGTYPE Operation against a key\r\n", "WRONGTYPE", "WRONGTYPE Operation against a key"),
    (b"!21\r\nSYNTAX invalid syntax\r\n", "SYNTAX", "SYNTAX invalid syntax"),
)
WRONG = (b"\r\n", b"OK\r\n", b":x\r\n", b": 1\r\n", b":1_0\r\n", b"$x\r\n", b"$-2\r\n", b"*-3\r\n", b"#x\r\n", b"_x\r\n",
         b"$2\r\nabc\r\n", b"+a\n", b",1.x\r\n", b"HTTP/1.1 400 Bad Request\r\n", b"*1\r\n" * 100_000,
         b"+" + b"a" * resp.LONGEST_LINE + b"\r\n", b"~-1\r\n")

# Values, and how RESP3 and RESP2 write them.
ENCODED = (
    (b"a\r\n", b"$3\r\na\r\n\r\n", b"$3\r\na\r\n\r\n"),
    ("\u00e9\udcff", b"$3\r\n\xc3\xa9\xff\r\n", b"$3\r\n\xc3\xa9\xff\r\n"),
    ("", b"$0\r\n\r\n", b"$0\r\n\r\n"),
    (-3, b":-3\r\n", b":-3\r\n"),
    (None, b"_\r\n", b"$-1\r\n"),
    (True, b"#t\r\n", b":1\r\n"),
    (False, b"#f\r\n", b":0\r\n"),
    (1.25, b",1.25\r\n", b"$4\r\n1.25\r\n"),
    (-math.inf, b",-inf\r\n", b"$4\r\n-inf\r\n"),
    ([], b"*0\r\n", b"*0\r\n"),
    ([1, [None]], b"*2\r\n:1\r\n*1\r\n_\r\n", b"*2\r\n:1\r\n*1\r\n$-1\r\n"),
    ({"k": 1, "l": [{}]}, b"%2\r\n$1\r\nk\r\n:1\r\n$1\r\nl\r\n*1\r\n%0\r\n", b"*4\r\n$1\r\nk\r\n:1\r\n$1\r\nl\r\n*1\r\n*0\r\n"),
    (resp.ReplyError("ERR no"), b"-ERR no\r\n", b"-ERR no\r\n"),
    ([resp.Encoded(b"*-1\r\n"), resp.Encoded(b"+OK\r\n")], b"*2\r\n*-1\r\n+OK\r\n", b"*2\r\n*-1\r\n+OK\r\n"),
)


class Slow:
    """A reader that returns one byte of each read."""

    def __init__(self, text):
        self.file = io.BytesIO(text)
        self.readline = self.file.readline

    def read(self, _size):
        return self.file.read(1)


class Replies(unittest.TestCase):
    def test_commands(self):
        self.assertEqual(resp.encode(["XADD", "k\u00e9y", b"\xff\r\n", 12]), b"*4\r\n$4\r\nXADD\r\n$4\r\nk\xc3\xa9y\r\n$3\r\n\xff\r\n\r\n$2\r\n12\r\n")
        self.assertEqual(resp.encode(["\udcff"]), b"*1\r\n$1\r\n\xff\r\n")

    def test_replies_are_encoded(self):
        for value, in_resp3, in_resp2 in ENCODED:
            with self.subTest(value):
                self.assertEqual((resp.encode_reply(value), resp.encode_reply(value, protocol=2)), (in_resp3, in_resp2))

    def test_whole(self):
        for text, value in REPLIES:
            with self.subTest(text):
                for reader in (io.BytesIO(text + b"+next\r\n"), Slow(text + b"+next\r\n")):
                    read = resp.read_reply(reader)
                    self.assertEqual((type(read), read), (type(value), value))
                    self.assertEqual(resp.read_reply(reader), b"next")

    def test_cut_at_each_byte(self):
        for text in [one[0] for one in REPLIES + ERRORS]:
            for cut in range(len(text)):
                with self.subTest(text=text, cut=cut), self.assertRaises(ConnectionError):
                    resp.read_reply(io.BytesIO(text[:cut]))

    def test_errors(self):
        for text, code, shown in ERRORS:
            with self.subTest(text), self.assertRaises(resp.ReplyError) as caught:
                resp.read_reply(io.BytesIO(text))
            self.assertEqual((caught.exception.code, str(caught.exception)), (code, shown))

    def test_error_inside_an_array(self):
        first, second = resp.read_reply(io.BytesIO(b"*2\r\n-ERR no\r\n:1\r\n"))
        self.assertIsInstance(first, resp.ReplyError)
        self.assertEqual(second, 1)

    def test_no_reply(self):
        for text in WRONG:
            with self.subTest(text[:40]), self.assertRaises(resp.ProtocolError):
                resp.read_reply(io.BytesIO(text))

    def test_ask_takes_its_reply_alone(self):
        for text, value in REPLIES:
            ours, theirs = socket.socketpair()
            with self.subTest(text), ours, theirs:
                theirs.sendall(text + b"+next\r\n")
                self.assertEqual(resp.ask(ours, "PING"), value)
                self.assertEqual(ours.recv(100), b"+next\r\n")
                self.assertEqual(theirs.recv(100), b"*1\r\n$4\r\nPING\r\n")

    def test_ask_all(self):
        ours, theirs = socket.socketpair()
        with ours, theirs:
            theirs.sendall(b":1\r\n:2\r\n:3\r\n")
            self.assertEqual(resp.ask_all(ours, [["A"], ["B"], ["C"]], at_once=2), [1, 2, 3])
            self.assertEqual(theirs.recv(100), b"*1\r\n$1\r\nA\r\n*1\r\n$1\r\nB\r\n*1\r\n$1\r\nC\r\n")

    def test_ask_in_pieces(self):
        ours, theirs = socket.socketpair()

        def send():
            for at in range(len(text)):
                theirs.sendall(text[at:at + 1])

        text = b"*2\r\n$70000\r\n" + b"x" * 70000 + b"\r\n:1\r\n"
        thread = threading.Thread(target=send)
        with ours, theirs:
            thread.start()
            self.assertEqual(resp.ask(ours, "GET"), [b"x" * 70000, 1])
            thread.join()


if __name__ == "__main__":
    unittest.main()
