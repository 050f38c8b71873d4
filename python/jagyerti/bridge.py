"""Copies between a connection and a program that cannot have the connection itself, as over TLS."""
from __future__ import annotations

import contextlib
import select
import socket
import ssl
import time
from typing import Optional, Tuple

from .connect import set_limits

NOT_NOW = (BlockingIOError, ssl.SSLWantReadError, ssl.SSLWantWriteError)


class Bridge:
    """The program has `outer`, one end of a pair of sockets; what comes at the other end goes to the server."""

    def __init__(self, server: socket.socket, silence: float, timeout: float) -> None:
        set_limits(server, 0, timeout)
        server.setblocking(False)
        self.server, self.timeout = server, timeout
        self.inner, self.outer = socket.socketpair()
        set_limits(self.outer, silence, timeout)
        self.inner.setblocking(False)
        self.last_came, self.received, self.sent = time.monotonic(), 0, 0
        self.to_program, self.to_server = b"", b""
        self.is_open, self.is_over = True, False

    def counts(self) -> Tuple[float, int, int]:
        """Returns milliseconds since bytes came from the server, bytes that came, and bytes that were sent."""
        return (time.monotonic() - self.last_came) * 1000, self.received, self.sent

    def run(self) -> None:
        """Copies until the program has ended and what it sent is out, or the server has closed the connection. If the
        program has ended, it gives up a server that took nothing for `timeout` seconds."""
        moved = time.monotonic()
        while (self.is_open or self.to_server) and not self.is_over:
            if self._step():
                moved = time.monotonic()
            elif time.monotonic() - moved >= self.timeout and self._has_ended():
                return
            else:
                self._wait()

    def stop(self) -> None:
        """Ends the input of the program."""
        with contextlib.suppress(OSError):
            self.inner.shutdown(socket.SHUT_WR)

    def _has_ended(self) -> bool:
        """Returns whether the program has closed its end, even if what it sent is not read yet."""
        poll = select.poll()
        poll.register(self.inner, 0)
        return any(event & select.POLLHUP for _, event in poll.poll(0))

    def _wait(self) -> None:
        reading = [] if self.to_program else [self.server]
        reading += [self.inner] if self.is_open and not self.to_server else []
        writing = [self.inner] if self.to_program else []
        writing += [self.server] if self.to_server else []
        select.select(reading, writing, [], 0.5)

    def _step(self) -> bool:
        """Moves one piece in each direction, if it can. Returns whether a byte moved."""
        moved = False
        if not self.to_program:
            self.to_program = self._read_server()
            moved = bool(self.to_program)
        if not self.to_server and self.is_open:
            piece = _read(self.inner)
            self.is_open, self.to_server = piece != b"", piece or b""
            self.sent += len(self.to_server)
            moved = moved or bool(piece)
        self.to_program, to_program = _write(self.inner, self.to_program)
        self.to_server, to_server = _write(self.server, self.to_server)
        return moved or to_program > 0 or to_server > 0

    def _read_server(self) -> bytes:
        piece = _read(self.server)
        if piece == b"":
            # (the program still reads what it was sent, and its writes fail)
            with contextlib.suppress(OSError):
                self.inner.shutdown(socket.SHUT_RDWR)
            self.is_over = True
        elif piece:
            self.last_came = time.monotonic()
            self.received += len(piece)
        return piece or b""


def _read(one: socket.socket) -> Optional[bytes]:
    """Returns what can be read: None if nothing is there yet, and nothing at the end."""
    try:
        return one.recv(65536)
    except NOT_NOW:
        return None
    except OSError:
        return b""


def _write(one: socket.socket, text: bytes) -> Tuple[bytes, int]:
    """Returns what could not be written yet, and how much was. What nobody reads any more is dropped."""
    try:
        sent = one.send(text) if text else 0
    except NOT_NOW:
        sent = 0
    except OSError:
        sent = len(text)
    return text[sent:], sent
