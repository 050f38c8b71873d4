"""What a new connection says, held to a server that plays a script."""
import os
import socket
import tempfile
import unittest

from jagyerti import connect, resp, server, url

from .scripted import scripted

OK = b"+OK\r\n"
HELLO = b"%1\r\n+proto\r\n:3\r\n"
# URL without its place, options, the replies of the server, and the commands that have to come.
SEQUENCES = (
    ("", {}, [], []),
    (":secret@", {}, [OK], ["AUTH secret"]),
    ("ann:secret@", {}, [OK], ["AUTH ann secret"]),
    ("ann:@", {}, [OK], ["AUTH ann "]),
    ("", {"protocol": 3}, [HELLO], ["HELLO 3"]),
    (":secret@", {"protocol": 3}, [HELLO], ["HELLO 3 AUTH default secret"]),
    ("ann:secret@", {"protocol": 2}, [HELLO], ["HELLO 2 AUTH ann secret"]),
    ("ann:secret@/4", {"client_name": "me"}, [OK, OK, OK], ["AUTH ann secret", "SELECT 4", "CLIENT SETNAME me"]),
    ("?protocol=3&name=you", {}, [HELLO, OK], ["HELLO 3", "CLIENT SETNAME you"]),
    (":secret@/4?protocol=3&name=you", {"protocol": 2, "client_name": "me"}, [HELLO, OK, OK],
     ["HELLO 2 AUTH default secret", "SELECT 4", "CLIENT SETNAME me"]),
    ("/4", {"protocol": 3, "client_name": "me"}, [HELLO, OK, OK], ["HELLO 3", "SELECT 4", "CLIENT SETNAME me"]),
)


def url_of(login, port):
    login, at, tail = login.rpartition("@")
    return f"redis://{login}{at}127.0.0.1:{port}{tail}"


class Connect(unittest.TestCase):
    def test_sequences(self):
        for login, options, replies, wanted in SEQUENCES:
            with self.subTest(login=login, options=options), scripted([*replies, b"+PONG\r\n"]) as (port, noted):
                address = url.Address.parse(url_of(login, port))
                with connect.open(address, connect.Options(**options)) as connection:
                    self.assertEqual(resp.ask(connection, "PING"), b"PONG")
                self.assertEqual([b" ".join(words).decode() for words in noted], [*wanted, "PING"])

    def test_unix_socket(self):
        with tempfile.TemporaryDirectory() as folder:
            path = os.path.join(folder, "a b")
            with scripted([OK, OK, b"+PONG\r\n"], socket.AF_UNIX, path) as (_, noted):
                with connect.open(url.Address.parse(f"unix://:secret@{path.replace(' ', '%20')}?db=2")) as connection:
                    self.assertEqual(resp.ask(connection, "PING"), b"PONG")
            self.assertEqual(noted, [[b"AUTH", b"secret"], [b"SELECT", b"2"], [b"PING"]])

    def fails(self, address, status, text, **options):
        with self.assertRaisesRegex(connect.Failed, text) as caught:
            connect.open(url.Address.parse(address), connect.Options(**options))
        self.assertEqual(caught.exception.status, status)
        self.assertNotIn("secret", str(caught.exception))

    def test_refused_login(self):
        with scripted([b"-WRONGPASS invalid username-password pair\r\n"]) as (port, _):
            self.fails(f"redis://:secret@127.0.0.1:{port}", 1, "AUTH: the server replied WRONGPASS")

    def test_no_server(self):
        self.fails(f"redis://127.0.0.1:{server.free_port()}", 1, "no connection with 127.0.0.1:")
        self.fails("unix:///nowhere/at/all", 1, "no connection with /nowhere/at/all")

    def test_closed_at_once(self):
        with scripted([b""]) as (port, _):
            self.fails(f"redis://127.0.0.1:{port}", 1, "closed the connection|reset by peer", protocol=3, timeout=5)

    def test_silent(self):
        with socket.socket() as listener:
            listener.bind(("127.0.0.1", 0))
            listener.listen()
            address = f"redis://:secret@127.0.0.1:{listener.getsockname()[1]}"
            self.fails(address, 3, "says nothing for 0.2 seconds", timeout=0.2)

    def test_no_redis(self):
        with scripted([b"HTTP/1.1 400 Bad Request\r\n"]) as (port, _):
            self.fails(f"redis://:secret@127.0.0.1:{port}", 1, "does not speak the protocol")


if __name__ == "__main__":
    unittest.main()
