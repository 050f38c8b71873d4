"""TLS and Unix sockets: certificates are verified, and a program gets what the server says. Wants openssl."""
import contextlib
import os
import shutil
import socket
import ssl
import subprocess
import sys
import tempfile
import threading
import unittest

from jagyerti import connect, resp, url

from .test_command import LAUNCH

ECHO = """#!{python} -I
import os, sys
os.write(1, b"PING\\r\\n")
came = b""
while piece := os.read(0, 100):
    came += piece
print(came, file=sys.stderr)
"""


@unittest.skipUnless(shutil.which("openssl"), "no openssl is installed")
class Tls(unittest.TestCase):
    @classmethod
    def setUpClass(cls):
        cls.folder = tempfile.mkdtemp()
        cls.addClassCleanup(shutil.rmtree, cls.folder)
        cls.cert, cls.key = os.path.join(cls.folder, "cert"), os.path.join(cls.folder, "key")
        subprocess.run(["openssl", "req", "-x509", "-newkey", "rsa:2048", "-nodes", "-days", "2", "-subj", "/CN=test", "-addext",
                        "subjectAltName=IP:127.0.0.1", "-keyout", cls.key, "-out", cls.cert], check=True, stderr=subprocess.DEVNULL)
        cls.program = os.path.join(cls.folder, "echo")
        with open(cls.program, "w", encoding="ascii") as file:
            file.write(ECHO.format(python=sys.executable))
        os.chmod(cls.program, 0o755)

    def serve(self, listener, context=None):
        """Takes a connection, notes the first bytes, replies +PONG, and closes."""
        self.noted = b""

        def play():
            with contextlib.suppress(OSError):
                connection, _ = listener.accept()
                if context is not None:
                    connection = context.wrap_socket(connection, server_side=True)
                with connection:
                    self.noted = connection.recv(100)
                    connection.sendall(b"+PONG\r\n")

        listener.settimeout(30)
        thread = threading.Thread(target=play, daemon=True)
        thread.start()
        self.addCleanup(listener.close)
        self.addCleanup(thread.join, 30)

    def over_tls(self):
        context = ssl.SSLContext(ssl.PROTOCOL_TLS_SERVER)
        context.load_cert_chain(self.cert, self.key)
        listener = socket.create_server(("127.0.0.1", 0))
        self.serve(listener, context)
        return f"rediss://127.0.0.1:{listener.getsockname()[1]}"

    def test_verified(self):
        with connect.open(url.Address.parse(self.over_tls()), connect.Options(cacert=self.cert)) as connection:
            self.assertEqual(resp.ask(connection, "PING"), b"PONG")

    def test_not_verified(self):
        with connect.open(url.Address.parse(self.over_tls()), connect.Options(verify=False)) as connection:
            self.assertEqual(resp.ask(connection, "PING"), b"PONG")

    def test_unknown_certificate(self):
        with self.assertRaisesRegex(connect.Failed, "no TLS with 127.0.0.1:.*certificate verify failed"):
            connect.open(url.Address.parse(self.over_tls()))

    def test_other_name(self):
        address = url.Address.parse(self.over_tls().replace("127.0.0.1", "localhost"))
        with self.assertRaisesRegex(connect.Failed, "no TLS with localhost:"):
            connect.open(address, connect.Options(cacert=self.cert))

    def run_echo(self, address, *words):
        command = [sys.executable, "-I", "-c", LAUNCH, "connect", address, *words, "--", self.program]
        ran = subprocess.run(command, capture_output=True, timeout=60, text=True, check=False)
        self.assertEqual((ran.stderr, ran.returncode), ("b'+PONG\\r\\n'\n", 0))
        self.assertEqual(self.noted, b"PING\r\n")

    def test_program_over_tls(self):
        self.run_echo(self.over_tls(), "--cacert", self.cert)

    def test_program_over_a_unix_socket(self):
        path = os.path.join(self.folder, "socket")
        listener = socket.socket(socket.AF_UNIX)
        listener.bind(path)
        listener.listen()
        self.serve(listener)
        self.run_echo(f"unix://{path}")

    def test_program_over_tcp(self):
        listener = socket.create_server(("127.0.0.1", 0))
        self.serve(listener)
        self.run_echo(f"redis://127.0.0.1:{listener.getsockname()[1]}")


if __name__ == "__main__":
    unittest.main()
