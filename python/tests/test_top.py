"""jagyerti top: on a terminal, as texts, and for scrapes."""
from __future__ import annotations

import contextlib
import fcntl
import http.client
import json
import os
import pty
import re
import select
import shutil
import signal
import socket
import subprocess
import sys
import tempfile
import termios
import time
import unittest
from typing import Callable, Optional, Tuple

from jagyerti import connect, monitor, process, resp, screen, server

from .scripted import scripted
from .test_dead_letters import called

PACKAGES = process.PACKAGES


def program() -> Optional[str]:
    """The program, None if it is not built."""
    try:
        return process.find_program("stream_top")
    except connect.Failed:
        return None


PROGRAM = program()


class LinesTest(unittest.TestCase):
    def test_lines_that_fit(self) -> None:
        self.assertEqual(screen.fitting(["abcdef", "ab"], 4, 2), ["abcd", "ab"])
        self.assertEqual(screen.fitting(["a", "b", "c", "d"], 20, 3), ["a", "b", "and 2 more lines"])
        self.assertEqual(screen.cut("東京a", 4), "東京")
        self.assertEqual(screen.cut("東京a", 3), "東")
        self.assertEqual(screen.cut("a\x1b[2Jb", 9), "a?[2Jb")
        self.assertEqual(screen.cut("e\u0301x", 2), "e\u0301x")

    def test_places(self) -> None:
        self.assertEqual(monitor.read_place("127.0.0.1:0"), ("127.0.0.1", 0))
        self.assertEqual(monitor.read_place("[::1]:9121"), ("::1", 9121))
        for text in ("9121", ":9121", "a:b", "a:65536", "a:1:2", ""):
            self.assertRaises(ValueError, monitor.read_place, text)

    def test_words_that_are_refused(self) -> None:
        url = "redis://127.0.0.1:1"
        for words, said in (((url,), "no stream"), ((url, "k", "--json", "--openmetrics"), "not allowed"),
                            ((url, "k", "--listen", "1:2", "--once"), "does not go"), ((url, "k", "--listen", "x"), "HOST:PORT"),
                            ((url, "k", "--jsn"), "unknown"), ((url, "k", "--timeout", "0"), "at least 0.01")):
            status, shown, error = called("top", *words, "--program", sys.executable)
            self.assertEqual((status, shown), (2, ""), words)
            self.assertIn(said, error, words)


class PlaceTest(unittest.TestCase):
    def test_the_program_is_named_anywhere(self) -> None:
        with tempfile.TemporaryDirectory() as folder, socket.create_server(("127.0.0.1", 0)) as quiet:
            shown = os.path.join(folder, "shown")
            with open(shown, "w", encoding="ascii") as file:
                file.write("#!/bin/sh\necho \"$@\" >&2\n")
            os.chmod(shown, 0o700)
            url, place = f"redis://127.0.0.1:{quiet.getsockname()[1]}", "127.0.0.1:0"
            for words in (("--program", shown, "--listen", place, "orders"), ("orders", "--listen", place, "--program", shown)):
                with subprocess.Popen([sys.executable, "-m", "jagyerti", "top", url, *words], stdout=subprocess.PIPE,
                                      stderr=subprocess.PIPE, env=dict(os.environ, PYTHONPATH=PACKAGES), text=True) as one:
                    assert one.stdout is not None and one.stderr is not None
                    line = one.stdout.readline()
                    one.terminate()
                    self.assertEqual((one.stderr.read(), one.wait(20)), ("", 0), words)
                self.assertRegex(line, r"\Ahttp://127\.0\.0\.1:\d+/metrics\n\Z")
            for words in (("--program", shown, "--json", "orders"), ("--json", "--program", shown, "orders")):
                self.assertEqual(called("top", url, *words), (0, "--once --json -- orders\n", ""), words)


class Terminal:
    """The command in a terminal of its own."""

    def __init__(self, *words: str) -> None:
        self.main, other = pty.openpty()
        self.before = termios.tcgetattr(other)
        env = dict(os.environ, PYTHONPATH=PACKAGES, COLUMNS="100", LINES="24", PYTHONUTF8="1")
        self.process = subprocess.Popen([sys.executable, "-m", "jagyerti", "top", *words], stdin=other, stdout=other,
                                        stderr=other, env=env, start_new_session=True,
                                        preexec_fn=lambda: fcntl.ioctl(0, termios.TIOCSCTTY, 0))
        self.other, self.text = other, ""

    def read_until(self, is_there: Callable[[str], bool], seconds: float = 20) -> bool:
        """Reads what is shown until a condition of all of it is true."""
        end = time.monotonic() + seconds
        while time.monotonic() < end and not is_there(self.text):
            if select.select([self.main], [], [], 0.1)[0]:
                with contextlib.suppress(OSError):
                    self.text += os.read(self.main, 65536).decode(errors="replace")
        return is_there(self.text)

    def wait(self) -> Tuple[int, bool]:
        """Its status, and whether the terminal is as it was."""
        status = self.process.wait(20)
        self.read_until(lambda text: False, 0.3)
        is_restored = termios.tcgetattr(self.other) == self.before
        enters, leaves = (self.text.rfind(code.decode()) for code in (screen.ENTER, screen.LEAVE))
        return status, is_restored and leaves > enters

    def close(self) -> None:
        if self.process.poll() is None:
            self.process.kill()
        self.process.wait()
        os.close(self.main)
        os.close(self.other)


@unittest.skipUnless(shutil.which("redis-server"), "redis-server is not installed")
@unittest.skipUnless(PROGRAM, "stream_top is not built")
class TopTest(unittest.TestCase):
    def setUp(self) -> None:
        stack = contextlib.ExitStack()
        self.addCleanup(stack.close)
        self.server = stack.enter_context(server.start_redis())
        self.server.ask("XGROUP", "CREATE", "orders", "packers", "0", "MKSTREAM")
        self.server.ask("XADD", "orders", "5-0", "item", "tea")
        self.server.ask("XADD", "orders", "6-0", "item", "cup")
        self.server.ask("XREADGROUP", "GROUP", "packers", "ann", "COUNT", 1, "STREAMS", "orders", ">")

    def terminal(self, *words: str) -> Terminal:
        opened = Terminal(*words)
        self.addCleanup(opened.close)
        return opened

    def shown(self) -> Terminal:
        """A terminal in which the table is."""
        one = self.terminal(self.server.url, "orders", "orders:dead")
        self.assertTrue(one.read_until(lambda text: "packers    1        1" in text and "orders:dead: no such stream" in text), one.text)
        return one

    def test_until_q(self) -> None:
        one = self.shown()
        self.assertIn(f"127.0.0.1:{self.server.port}", one.text)
        self.server.ask("XADD", "orders", "7-0", "item", "pot")
        self.assertTrue(one.read_until(lambda text: "packers    2        1" in text))
        os.write(one.main, b"xq")
        self.assertEqual(one.wait(), (0, True))

    def test_signals(self) -> None:
        for number, status in ((signal.SIGTERM, 0), (signal.SIGHUP, 129), (signal.SIGQUIT, 131)):
            one = self.shown()
            one.process.send_signal(number)
            self.assertEqual(one.wait(), (status, True), number)
        one = self.shown()
        os.write(one.main, b"\x03")
        self.assertEqual(one.wait(), (0, True))

    def test_suspended(self) -> None:
        one = self.shown()
        one.text = ""
        one.process.send_signal(signal.SIGTSTP)
        # It leaves the screen before it stops. The kernel stops no process of a session without a shell: it goes on at once.
        left = (screen.LEAVE + screen.ENTER).decode()
        self.assertTrue(one.read_until(lambda text: "packers    1        1" in text.partition(left)[2]), one.text)
        os.write(one.main, b"q")
        self.assertEqual(one.wait(), (0, True))

    def test_a_server_that_goes_and_comes(self) -> None:
        port = self.server.port
        one = self.shown()
        self.server.process.kill()
        self.server.process.wait()
        self.assertTrue(one.read_until(lambda text: "not current: " in text), one.text[-2000:])
        with server.start_redis(port=port) as again:
            again.ask("XGROUP", "CREATE", "orders", "billing", "0", "MKSTREAM")
            self.assertTrue(one.read_until(lambda text: "billing" in text), one.text[-2000:])
        os.write(one.main, b"q")
        self.assertEqual(one.wait(), (0, True))

    def test_what_cannot_be_watched(self) -> None:
        self.server.ask("SET", "text", "x")
        one = self.terminal(self.server.url, "orders", "text")
        self.assertEqual(one.wait(), (1, True))
        self.assertIn("text: Error: the server replied WRONGTYPE", one.text)
        one = self.terminal(f"redis://127.0.0.1:{server.free_port()}", "orders")
        self.assertEqual(one.wait(), (1, True))
        self.assertIn("no connection", one.text)

    def test_no_terminal(self) -> None:
        env = dict(os.environ, PYTHONPATH=PACKAGES)
        words = [sys.executable, "-m", "jagyerti", "top", self.server.url, "orders"]
        with subprocess.Popen(words, stdin=subprocess.DEVNULL, stdout=subprocess.PIPE, env=env, text=True) as one:
            assert one.stdout is not None
            lines = [one.stdout.readline() for _ in range(8)]
            one.send_signal(signal.SIGTERM)
            self.assertEqual(one.wait(20), 0)
        self.assertEqual(lines[0], "orders: 2 entries, 1 groups, last id 6-0\n")
        self.assertEqual((lines[3], lines[0]), ("\n", lines[4]))

    def test_nobody_reads(self) -> None:
        words = [sys.executable, "-m", "jagyerti", "top", self.server.url, "orders"]
        with subprocess.Popen(words, stdin=subprocess.DEVNULL, stdout=subprocess.PIPE, stderr=subprocess.PIPE,
                              env=dict(os.environ, PYTHONPATH=PACKAGES), text=True) as one:
            assert one.stdout is not None and one.stderr is not None
            one.stdout.readline()
            one.stdout.close()
            self.assertEqual((one.stderr.read(), one.wait(20)), ("", 0))

    def test_texts(self) -> None:
        status, shown, error = called("top", self.server.url, "--once", "--json", "orders", "orders:dead")
        orders, dead = json.loads(shown)["streams"]
        self.assertEqual((status, error, orders["length"], orders["groups"][0]["lag"], dead["length"]), (0, "", 2, 1, 0))
        # The program may be named before, between and after other options.
        for words in (("--program", PROGRAM, "--openmetrics", "orders"), ("orders", "--openmetrics", "--program", PROGRAM)):
            status, shown, _ = called("top", self.server.url, *[word for word in words if word])
            self.assertTrue(status == 0 and shown.endswith("# EOF\n") and 'redis_stream_length{stream="orders"} 2\n' in shown)
        status, shown, _ = called("top", self.server.url, "--once", "orders")
        self.assertEqual((status, shown.splitlines()[0]), (0, "orders: 2 entries, 1 groups, last id 6-0"))
        self.assertEqual(called("top", self.server.url, "--once", "nothing"), (0, "nothing: no such stream\n", ""))
        status, shown, _ = called("top", self.server.url, "--once", "orders:dead", "orders")
        self.assertEqual((status, shown.splitlines()[:3]),
                         (0, ["orders:dead: no such stream", "", "orders: 2 entries, 1 groups, last id 6-0"]))
        self.server.ask("SET", "text", "a")
        status, shown, error = called("top", self.server.url, "--once", "orders", "text")
        self.assertEqual((status, shown, error.startswith("jagyerti top: Error: the server replied WRONGTYPE")), (1, "", True))
        self.assertEqual(called("top", self.server.url, "--json", "--", "--once")[0], 0)

    def test_sentinel(self) -> None:
        reply = resp.encode_reply(["127.0.0.1", str(self.server.port)])
        for words in (("top", "--json", "orders"), ("dead", "list", "orders")):
            with scripted([reply]) as (sentinel, noted):
                status, shown, _ = called(*words, f"redis://127.0.0.1:{sentinel}", "--sentinel", "main")
            self.assertEqual((status, noted[0][1:]), (0, [b"GET-MASTER-ADDR-BY-NAME", b"main"]))
            self.assertIn("5-0", shown) if words[0] == "dead" else self.assertIn('"orders"', shown)

    def test_a_password(self) -> None:
        self.server.ask("CONFIG", "SET", "requirepass", "s3cret")
        status, _, error = called("top", self.server.url, "--json", "orders")
        self.assertEqual(status, 1)
        self.assertIn("NOAUTH", error)
        self.assertEqual(called("top", f"redis://:s3cret@127.0.0.1:{self.server.port}", "--json", "orders")[0], 0)


@unittest.skipUnless(PROGRAM, "stream_top is not built")
class ListenTest(unittest.TestCase):
    @contextlib.contextmanager
    def listening(self, url: str, *words: str):
        """The command, and the port at which it listens."""
        env = dict(os.environ, PYTHONPATH=PACKAGES)
        command = [sys.executable, "-m", "jagyerti", "top", url, *words, "orders", "--listen", "127.0.0.1:0"]
        with subprocess.Popen(command, stdout=subprocess.PIPE, stderr=subprocess.PIPE, env=env, text=True) as one:
            try:
                assert one.stdout is not None
                found = re.fullmatch(r"http://127\.0\.0\.1:(\d+)/metrics\n", one.stdout.readline())
                assert found is not None
                yield one, int(found[1])
            finally:
                one.terminate()
                self.assertEqual(one.wait(20), 0)

    def scrape(self, port: int, path: str = "/metrics") -> Tuple[int, Optional[str], str]:
        with contextlib.closing(http.client.HTTPConnection("127.0.0.1", port, timeout=30)) as client:
            client.request("GET", path)
            reply = client.getresponse()
            return reply.status, reply.headers["Content-Type"], reply.read().decode()

    @unittest.skipUnless(shutil.which("redis-server"), "redis-server is not installed")
    def test_scrapes(self) -> None:
        with server.start_redis() as one:
            one.ask("XADD", "orders", "5-0", "item", "tea")
            with self.listening(one.url, "--program", str(PROGRAM)) as (_, port):
                status, kind, text = self.scrape(port)
                self.assertEqual((status, kind), (200, monitor.OPEN_METRICS))
                self.assertIn('redis_stream_length{stream="orders"} 1\n', text)
                self.assertEqual(self.scrape(port, "/"), (404, monitor.PLAIN, "it is at /metrics\n"))
                one.process.kill()
                one.process.wait()
                status, kind, text = self.scrape(port)
                self.assertEqual((status, kind), (503, monitor.PLAIN))
                self.assertIn(f"127.0.0.1:{one.port}", text)

    def test_a_server_that_says_nothing(self) -> None:
        with socket.create_server(("127.0.0.1", 0)) as silent:
            place = f"127.0.0.1:{silent.getsockname()[1]}"
            with self.listening(f"redis://{place}", "--timeout", "0.5") as (_, port):
                status, _, text = self.scrape(port)
                self.assertEqual((status, text), (503, f"{place} says nothing for 0.5 seconds\n"))
            self.assertEqual(called("top", f"redis://{place}", "orders", "--json", "--timeout", "0.5")[0], 3)

    def test_a_port_that_is_taken(self) -> None:
        with socket.create_server(("127.0.0.1", 0)) as taken:
            place = f"127.0.0.1:{taken.getsockname()[1]}"
            status, shown, error = called("top", "redis://127.0.0.1:1", "orders", "--listen", place)
        self.assertEqual((status, shown), (1, ""))
        self.assertIn("in use", error)


@unittest.skipUnless(shutil.which("redis-server"), "redis-server is not installed")
@unittest.skipUnless(shutil.which("openssl"), "openssl is not installed")
@unittest.skipUnless(PROGRAM, "stream_top is not built")
class TlsTest(unittest.TestCase):
    def test_tls(self) -> None:
        with contextlib.ExitStack() as stack:
            folder = stack.enter_context(tempfile.TemporaryDirectory())
            key, cert = os.path.join(folder, "key"), os.path.join(folder, "cert")
            subprocess.run(["openssl", "req", "-x509", "-newkey", "rsa:2048", "-nodes", "-keyout", key, "-out", cert, "-days", "2",
                            "-subj", "/CN=localhost", "-addext", "subjectAltName=IP:127.0.0.1"], check=True, capture_output=True)
            port = server.free_port()
            one = stack.enter_context(server.start_redis("--tls-port", str(port), "--tls-cert-file", cert, "--tls-key-file", key,
                                                         "--tls-ca-cert-file", cert, "--tls-auth-clients", "no"))
            one.ask("XADD", "orders", "5-0", "item", "tea")
            status, shown, error = called("top", f"rediss://127.0.0.1:{port}", "--cacert", cert, "--json", "orders")
            self.assertEqual((status, error), (0, ""))
            self.assertEqual(json.loads(shown)["streams"][0]["length"], 1)
            self.assertEqual(called("top", f"rediss://127.0.0.1:{port}", "--json", "orders")[0], 1)
            one_shown = Terminal(f"rediss://127.0.0.1:{port}", "orders", "--tls-no-verify")
            self.addCleanup(one_shown.close)
            self.assertTrue(one_shown.read_until(lambda text: "orders: 1 entries" in text), one_shown.text)
            os.write(one_shown.main, b"q")
            self.assertEqual(one_shown.wait(), (0, True))


if __name__ == "__main__":
    unittest.main()
