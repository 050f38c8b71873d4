"""Servers of one's own, for tests and tools: on a free port of the loopback, ended with the caller."""
from __future__ import annotations

import contextlib
import ctypes
import os
import shutil
import signal
import socket
import subprocess
import sys
import tempfile
import threading
import time
from typing import Iterator, List, Optional

from . import connect, process, resp
from .url import Address

WAIT = 60.0  # seconds


class Server:
    """A server that runs: its port, its process, and the folder that it keeps its files in.

    It may be ended, and started again with the same words.
    """

    def __init__(self, words: List[str], port: int, folder: str) -> None:
        self.words, self.port, self.folder = words, port, folder
        self.start()

    def start(self) -> None:
        """Starts it, and waits until it has loaded its files. Raises connect.Failed if it ends or does not reply.

        It is killed when the process ends that started it. A thread may end before: what it starts is not killed then.
        """
        is_main = threading.current_thread() is threading.main_thread()
        self.process = subprocess.Popen(self.words, stdin=subprocess.DEVNULL, stdout=subprocess.DEVNULL,
                                        preexec_fn=end_with_parent if is_main else None)
        end = time.monotonic() + WAIT
        while time.monotonic() < end and self.process.poll() is None:
            if self._is_ready():
                return
            time.sleep(0.02)
        self.end(signal.SIGKILL)
        raise connect.Failed(f"the server on port {self.port} did not start")

    def end(self, how: signal.Signals = signal.SIGTERM) -> None:
        """Ends it by this signal, and by SIGKILL if it is still there after a minute."""
        self.process.send_signal(how)
        try:
            self.process.wait(WAIT)
        except subprocess.TimeoutExpired:
            self.process.kill()
            self.process.wait()

    @property
    def url(self) -> str:
        """The URL of this server."""
        return f"redis://127.0.0.1:{self.port}"

    def open(self, options: connect.Options = connect.Options()) -> socket.socket:
        """Connects to this server."""
        return connect.open(Address.parse(self.url), options)

    def ask(self, *words: resp.Word) -> resp.Reply:
        """Sends one command over a connection of its own, and returns its reply."""
        with self.open() as connection:
            return resp.ask(connection, *words)

    def _is_ready(self) -> bool:
        try:
            self.ask("PING")
        except resp.ReplyError as error:
            return error.code != "LOADING"
        except (connect.Failed, resp.ProtocolError, OSError):
            return False
        return True


class Redis(Server):
    """A redis-server that keeps nothing on disk but its log, unless more words of its command line say so."""

    def __init__(self, folder: str, *extra_words: str, port: Optional[int] = None) -> None:
        program = shutil.which("redis-server")
        if program is None:
            raise connect.Failed("redis-server is not installed: apt-get install redis-server", connect.USAGE)
        port = free_port() if port is None else port
        super().__init__([program, "--port", str(port), "--bind", "127.0.0.1", "--dir", folder, "--save", "", "--appendonly", "no",
                          "--logfile", os.path.join(folder, "log"), *extra_words], port, folder)


def free_port() -> int:
    """Returns a port of the loopback at which nothing listens now."""
    with socket.socket() as one:
        one.bind(("127.0.0.1", 0))
        return int(one.getsockname()[1])


@contextlib.contextmanager
def start_redis(*extra_words: str, port: Optional[int] = None) -> Iterator[Server]:
    """Starts a redis-server in a folder of its own, at a free port or at this one."""
    with tempfile.TemporaryDirectory(prefix="redis-") as folder:
        server = Redis(folder, *extra_words, port=port)
        try:
            yield server
        finally:
            server.end()


@contextlib.contextmanager
def start_serve(*extra_words: str) -> Iterator[Server]:
    """Starts `jagyerti serve`, which is stream_serve on a port."""
    with tempfile.TemporaryDirectory(prefix="serve-") as folder:
        port = free_port()
        launch = f"import sys; sys.path.insert(0, {process.PACKAGES!r}); from jagyerti.cli import main; sys.exit(main(sys.argv[1:]))"
        words = [sys.executable, "-I", "-c", launch, "serve", "--port", str(port), *extra_words]
        server = Server(words, port, folder)
        try:
            yield server
        finally:
            server.end()


def end_with_parent() -> None:
    """Has this process killed when the thread ends that started it: for subprocess's preexec_fn."""
    ctypes.CDLL(None).prctl(1, signal.SIGKILL, 0, 0, 0)
