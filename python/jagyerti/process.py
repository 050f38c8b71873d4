"""Programs on a connection: where they are, how one is started, and how it is ended."""
from __future__ import annotations

import contextlib
import ctypes
import fcntl
import os
import select
import signal
import socket
import struct
import subprocess
import threading
import time
from typing import Callable, Dict, IO, List, Optional, Sequence, Tuple

from .bridge import Bridge
from .connect import Failed, set_limits

PACKAGE = os.path.dirname(os.path.realpath(__file__))
# The folder that the package is in: that of a checkout is python/.
PACKAGES = os.path.dirname(PACKAGE)
HELD = (signal.SIGTERM, signal.SIGINT)
SECRETS = ("REDIS_URL", "REDISCLI_AUTH")
SIOCOUTQ = 0x5411  # of linux/sockios.h: bytes that the other machine has not confirmed


def find_program(name: str, given: Optional[str] = None) -> str:
    """Returns the path of a program: the given one, or the first that is found of this name.

    It is searched for in the folder JAGYERTI_PROGRAMS, in bin/ of the package, in bin/ of the prefix that the package is
    installed in, and in a checkout, where 'rt run' builds it or tools/install.
    """
    for path in [given] if given else _places(name):
        if os.path.isfile(path) and os.access(path, os.X_OK):
            return path
    if given:
        raise Failed(f"{given} is no program")
    raise Failed(f"no program {name}: run tools/install, or name the folder that has it in JAGYERTI_PROGRAMS")


def _places(name: str) -> List[str]:
    folder, root = os.environ.get("JAGYERTI_PROGRAMS"), os.path.dirname(PACKAGES)
    places = [os.path.join(folder, name)] if folder else []
    places += [os.path.join(PACKAGE, "bin", name), os.path.join(root, "bin", name)]
    if os.path.isdir(os.path.join(root, "crates")):
        places += [os.path.join(root, "crates", name, "out", name), os.path.join(root, "build", name)]
    return places


def program_environment() -> Dict[str, str]:
    """Returns the environment of a program: that of this process without passwords."""
    return {name: value for name, value in os.environ.items() if name not in SECRETS}


def die_with_parent(parent: int) -> None:
    """Has the kernel kill this process when its parent ends; ends it if the parent is gone already."""
    ctypes.CDLL(None).prctl(1, signal.SIGKILL, 0, 0, 0)
    if os.getppid() != parent:
        os._exit(127)


class Listener(threading.Thread):
    """Reads what a program prints on standard error, and passes each line to `hear` and then to standard error.

    `hear` returns False for a line that is not to be shown. `tick` is called at the start, once a second, and at the end.
    """

    def __init__(self, stream: IO[bytes], hear: Callable[[str], bool], tick: Callable[[], None]) -> None:
        super().__init__(daemon=True)
        self.stream, self.hear, self.tick = stream, hear, tick

    def run(self) -> None:
        """Reads until the end."""
        self.tick()
        due, rest = time.monotonic() + 1, b""
        while True:
            if select.select([self.stream], [], [], max(0.0, due - time.monotonic()))[0]:
                piece = os.read(self.stream.fileno(), 65536)
                *lines, rest = (rest + piece).split(b"\n")
                for line in lines:
                    self._take(line + b"\n")
                if not piece:
                    break
            if time.monotonic() >= due:
                self.tick()
                due = time.monotonic() + 1
        if rest:
            self._take(rest)
        self.tick()

    def _take(self, line: bytes) -> None:
        if self.hear(line.decode(errors="replace").rstrip("\n")):
            os.write(2, line)


def hear_all(_line: str) -> bool:
    """Shows each line."""
    return True


def do_nothing() -> None:
    """Does nothing."""


class Run:
    """A run of a program whose standard input and output is a connection.

    It ignores SIGTERM and SIGINT, which come to the whole foreground group of a terminal, and is killed if this process
    ends. A read or a write of it fails after `silence` seconds, 0 for never. It is killed `grace` seconds after a stop,
    if that is a number. `restore_signals` is as that of Popen: without it SIGPIPE and SIGXFSZ are ignored, and errors.
    `pipes` are file descriptors that it gets by their numbers, and that are closed here once it has started.
    """

    def __init__(self, words: Sequence[str], connection: socket.socket, silence: float, timeout: float,
                 pipes: Sequence[int] = ()) -> None:
        self.words, self.connection, self.stops, self.pipes = list(words), connection, 0, tuple(pipes)
        self.grace: Optional[float] = None
        self.restore_signals = False
        self.process: Optional[subprocess.Popen[bytes]] = None
        self.listener: Optional[Listener] = None
        self.timer: Optional[threading.Timer] = None
        has_counts = connection.family in (socket.AF_INET, socket.AF_INET6) and type(connection) is socket.socket
        self.bridge = None if has_counts else Bridge(connection, silence, timeout)
        if self.bridge is None:
            set_limits(connection, silence, timeout)

    def start(self, hear: Callable[[str], bool] = hear_all, tick: Callable[[], None] = do_nothing) -> None:
        """Starts it. Each line that it prints on standard error is passed to `hear`, as Listener does."""
        given = self.connection if self.bridge is None else self.bridge.outer
        parent = os.getpid()

        def prepare() -> None:
            die_with_parent(parent)
            for held in HELD:
                signal.signal(held, signal.SIG_IGN)
            signal.pthread_sigmask(signal.SIG_UNBLOCK, HELD)

        try:
            self.process = subprocess.Popen(self.words, stdin=given.fileno(), stdout=given.fileno(),
                                            stderr=subprocess.PIPE, env=program_environment(), preexec_fn=prepare,
                                            pass_fds=self.pipes, restore_signals=self.restore_signals)
        except OSError as error:
            raise Failed(f"cannot run {self.words[0]}: {error}") from None
        finally:
            for pipe in self.pipes:
                os.close(pipe)
        if self.bridge is not None:
            self.bridge.outer.close()
        assert self.process.stderr is not None
        self.listener = Listener(self.process.stderr, hear, tick)
        self.listener.start()

    def stop(self) -> None:
        """Ends its input: it takes the replies that have come, finishes that batch, and ends. The second time it is killed."""
        self.stops += 1
        if self.stops > 1:
            self.kill()
            return
        if self.bridge is not None:
            self.bridge.stop()
        else:
            with contextlib.suppress(OSError):
                self.connection.shutdown(socket.SHUT_RD)
        if self.grace is not None:
            self.timer = threading.Timer(self.grace, self.kill)
            self.timer.daemon = True
            self.timer.start()

    def kill(self) -> None:
        """Ends it at once, if it has not ended."""
        if self.process is not None:
            self.process.kill()

    def lasts(self, seconds: float) -> bool:
        """Waits so long for its end. Returns whether it still runs."""
        assert self.process is not None
        try:
            self.process.wait(seconds)
        except subprocess.TimeoutExpired:
            return True
        return False

    def wait(self) -> int:
        """Waits for its end. Returns its status, or the negative number of the signal that ended it."""
        assert self.process is not None
        if self.bridge is not None:
            self.bridge.run()
        status = self.process.wait()
        if self.timer is not None:
            self.timer.cancel()
        if self.listener is not None:
            self.listener.join()
        return status

    def close(self) -> None:
        """Closes the connection. After a stop, what was sent has a second to arrive before that."""
        for _ in range(50 if self.stops and self.bridge is None else 0):
            left = bytearray(4)
            try:
                fcntl.ioctl(self.connection.fileno(), SIOCOUTQ, left)
            except OSError:
                break
            if not any(left):
                break
            time.sleep(0.02)
        if self.bridge is not None:
            self.bridge.inner.close()
        if self.process is not None and self.process.stderr is not None:
            self.process.stderr.close()
        self.connection.close()

    def counts(self) -> Tuple[float, int, int]:
        """Returns milliseconds since bytes came from the server, bytes that came, and bytes that were sent."""
        if self.bridge is not None:
            return self.bridge.counts()
        info = self.connection.getsockopt(socket.IPPROTO_TCP, socket.TCP_INFO, 256)
        # tcpi_last_data_recv, tcpi_bytes_received and tcpi_bytes_sent of linux/tcp.h
        silent, received, sent = (struct.unpack_from(kind, info, at)[0] for kind, at in (("I", 52), ("Q", 128), ("Q", 200)))
        return float(silent), int(received), int(sent)
