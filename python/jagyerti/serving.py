"""stream_serve on a port of the loopback: one server, which any number of connections share."""
from __future__ import annotations

import collections
import contextlib
import math
import select
import shlex
import socket
import subprocess
import threading
import time
from typing import IO, Counter, List, Optional, Tuple

from . import resp
from .connect import Failed

# A command of these changes no stream, so nobody has to look again after it.
READS = (b"XREAD", b"XRANGE", b"XREVRANGE", b"XLEN", b"XINFO", b"XPENDING", b"PING", b"HELLO", b"CLIENT", b"TIME")
LOOK_EACH = 0.1  # seconds between two looks whether a client that waits is still there
# What redis-server replies to a client that waits in a group.
NO_STREAM = b"-UNBLOCKED the stream key no longer exists\r\n"
NO_GROUP = b"-NOGROUP the consumer group this client was blocked on no longer exists\r\n"


class Recorder:
    """A reader that keeps all that is read."""

    def __init__(self, reader: IO[bytes]) -> None:
        self.reader, self.text = reader, b""

    def readline(self, limit: int) -> bytes:
        """Reads up to a line feed."""
        line = self.reader.readline(limit)
        self.text += line
        return line

    def read(self, size: int) -> bytes:
        """Reads at most this many bytes."""
        piece = self.reader.read(size)
        self.text += piece
        return piece


class Statistics:
    """What INFO counts since the start, or since CONFIG RESETSTAT: the calls of each command, and the errors."""

    def __init__(self) -> None:
        self.calls: Counter[str] = collections.Counter()
        self.rejected: Counter[str] = collections.Counter()
        self.failed: Counter[str] = collections.Counter()
        self.errors: Counter[str] = collections.Counter()

    def note(self, name: bytes, reply: bytes) -> None:
        """Counts a command of this name and its reply."""
        command = name.decode(errors="replace").lower()
        if reply.startswith(b"-"):
            self.errors[reply[1:].split()[0].decode(errors="replace")] += 1
        if reply.startswith(b"-ERR unknown command"):
            return
        if reply.startswith(b"-ERR wrong number of arguments"):
            self.rejected[command] += 1
            return
        self.calls[command] += 1
        self.failed[command] += reply.startswith(b"-")

    def text(self, sections: List[bytes]) -> bytes:
        """Returns the sections of INFO that are named; without a name all but that of the commands."""
        names = {section.lower() for section in sections} or {b"default"}
        whole = bool(names & {b"all", b"everything"})
        usual = whole or b"default" in names
        parts = []
        if usual or b"stats" in names:
            parts.append(f"# Stats\r\ntotal_error_replies:{sum(self.errors.values())}\r\n")
        if whole or b"commandstats" in names:
            parts.append("# Commandstats\r\n" + "".join(map(self._row, sorted({*self.calls, *self.rejected}))))
        if usual or b"errorstats" in names:
            parts.append("# Errorstats\r\n" + "".join(
                f"errorstat_{error}:count={count}\r\n" for error, count in sorted(self.errors.items())))
        return "\r\n".join(parts).encode()

    def _row(self, name: str) -> str:
        return (f"cmdstat_{name}:calls={self.calls[name]},usec=0,usec_per_call=0.00,"
                f"rejected_calls={self.rejected[name]},failed_calls={self.failed[name]}\r\n")


class Program:
    """The one stream_serve, over its standard input and output. It has one session, so HELLO is sent when it changes."""

    def __init__(self, words: List[str]) -> None:
        self.process = subprocess.Popen(words, stdin=subprocess.PIPE, stdout=subprocess.PIPE)
        self.changed = threading.Condition()
        self.protocol, self.waiting = 2, 0
        self.statistics = Statistics()

    def ask(self, protocol: int, words: List[bytes]) -> bytes:
        """Sends a command, and returns the bytes of its reply. Raises ConnectionError if the program has ended."""
        if protocol != self.protocol:
            self._exchange([b"HELLO", b"%d" % protocol])
            self.protocol = protocol
        return self._exchange(words)

    def _exchange(self, words: List[bytes]) -> bytes:
        assert self.process.stdin is not None and self.process.stdout is not None
        self.process.stdin.write(resp.encode(words))
        self.process.stdin.flush()
        recorder = Recorder(self.process.stdout)
        with contextlib.suppress(resp.ReplyError):
            resp.read_reply(recorder)
        return recorder.text


class Session:
    """One connection. A transaction, from WATCH or MULTI on, has the server for itself."""

    def __init__(self, program: Program, connection: socket.socket) -> None:
        self.program, self.connection, self.protocol = program, connection, 2
        self.is_alone, self.in_multi = False, False

    def serve(self) -> None:
        """Replies to commands until the connection ends."""
        with self.connection, self.connection.makefile("rb") as reader:
            try:
                with contextlib.suppress(OSError):
                    while (words := read_command(reader)) is not None:
                        if words:
                            self.connection.sendall(self.answer(words))
                        if words and words[0].upper() == b"QUIT":
                            return
            except resp.ProtocolError as error:
                with contextlib.suppress(OSError):
                    self.connection.sendall(f"-ERR Protocol error: {error}\r\n".encode())
            finally:
                self._leave()

    def answer(self, words: List[bytes]) -> bytes:
        """Returns the reply to a command. A read with BLOCK waits for entries, but not in a transaction."""
        name = words[0].upper()
        if name == b"QUIT":
            return b"+OK\r\n"
        if name in (b"WATCH", b"MULTI") and not self.is_alone:
            self.program.changed.acquire()
            self.is_alone = True
        with self.program.changed:
            reply = self._reply_to(words)
            self.program.statistics.note(name, reply)
            if name == b"INFO" and reply.startswith(b"$"):
                reply = self._with_counts(reply, words[1:])
            if name == b"HELLO" and not reply.startswith(b"-"):
                self.protocol = self.program.protocol = int(words[1]) if len(words) > 1 else self.protocol
            if name not in READS:
                self.program.changed.notify_all()
        self._note_transaction(name, reply)
        return reply

    def _reply_to(self, words: List[bytes]) -> bytes:
        if not self.in_multi and [word.upper() for word in words] == [b"CONFIG", b"RESETSTAT"]:
            self.program.statistics = Statistics()
            return b"+OK\r\n"
        block = None if self.is_alone else block_of(words)
        return self.program.ask(self.protocol, words) if block is None else self._answer_blocked(words, block)

    def _with_counts(self, reply: bytes, sections: List[bytes]) -> bytes:
        """Returns the reply to INFO with the clients that wait, and with what was counted."""
        text = reply.partition(b"\r\n")[2][:-2]
        parts = [text.replace(b"blocked_clients:0", b"blocked_clients:%d" % self.program.waiting),
                 self.program.statistics.text(sections)]
        return resp.encode_reply(b"\r\n".join(filter(None, parts)))

    def _answer_blocked(self, words: List[bytes], block: float) -> bytes:
        """Asks again after each change, until there is something or the time is over; 0 for no end."""
        words = self._with_ids(words)
        end = time.monotonic() + block if block else math.inf
        reply = self.program.ask(self.protocol, words)
        if reply.startswith(b"-"):
            return reply
        self.program.waiting += 1
        try:
            while reply in (b"*-1\r\n", b"_\r\n") and self._sees_change(end):
                reply = self.program.ask(self.protocol, words)
        finally:
            self.program.waiting -= 1
        return self._what_is_gone(words) if reply.startswith(b"-NOGROUP") else reply

    def _sees_change(self, end: float) -> bool:
        """Waits for a change, and returns whether one came before the end. Raises ConnectionError if the client has gone."""
        while (left := end - time.monotonic()) > 0:
            has_changed = self.program.changed.wait(min(left, LOOK_EACH))
            if select.select([self.connection], [], [], 0)[0] and not self.connection.recv(1, socket.MSG_PEEK):
                raise ConnectionResetError
            if has_changed:
                return True
        return False

    def _what_is_gone(self, words: List[bytes]) -> bytes:
        """Returns the error for a client that waited in a group which is no longer there."""
        keys, _ = keys_and_ids(words)
        return NO_GROUP if self.program.ask(2, [b"EXISTS", *keys]) == b":%d\r\n" % len(keys) else NO_STREAM

    def _with_ids(self, words: List[bytes]) -> List[bytes]:
        """Returns XREAD with the last id of each stream in place of `$`, which would be another one at the next look."""
        if words[0].upper() != b"XREAD" or b"$" not in words:
            return words
        keys, ids = keys_and_ids(words)
        return words[:len(words) - len(ids)] + [self._last_id(key) if id == b"$" else id for key, id in zip(keys, ids)]

    def _last_id(self, key: bytes) -> bytes:
        words = self.program.ask(2, [b"XINFO", b"STREAM", key]).split(b"\r\n")
        return words[words.index(b"last-generated-id") + 2] if b"last-generated-id" in words else b"0-0"

    def _note_transaction(self, name: bytes, reply: bytes) -> None:
        self.in_multi = (self.in_multi or name == b"MULTI") and name not in (b"EXEC", b"DISCARD")
        if self.is_alone and (name in (b"EXEC", b"DISCARD") or name == b"UNWATCH" and not self.in_multi):
            self.is_alone = False
            self.program.changed.release()

    def _leave(self) -> None:
        """Gives up the transaction of a connection that ended."""
        if self.is_alone:
            with contextlib.suppress(OSError, ConnectionError):
                self.answer([b"DISCARD" if self.in_multi else b"UNWATCH"])
        if self.is_alone:
            self.program.changed.release()


def keys_and_ids(words: List[bytes]) -> Tuple[List[bytes], List[bytes]]:
    """Returns the keys of a read, and its ids."""
    both = words[[word.upper() for word in words].index(b"STREAMS") + 1:]
    return both[:len(both) // 2], both[len(both) // 2:]


def block_of(words: List[bytes]) -> Optional[float]:
    """Returns the seconds of BLOCK in a read; None if there is none."""
    upper = [word.upper() for word in words]
    if upper[0] in (b"XREAD", b"XREADGROUP") and b"STREAMS" in upper:
        options = upper[:upper.index(b"STREAMS")]
        if b"BLOCK" in options[:-1] and (value := options[options.index(b"BLOCK") + 1]).isdigit():
            return int(value) / 1000
    return None


def read_command(reader: IO[bytes]) -> Optional[List[bytes]]:
    """Reads a command: an array of bulk strings, or a line of words. Returns None at the end of the connection."""
    line = reader.readline(resp.LONGEST_LINE)
    if not line.endswith(b"\n"):
        return None
    if not line.startswith(b"*"):
        try:
            return [word.encode("latin-1") for word in shlex.split(line.decode("latin-1"))]
        except ValueError:
            raise resp.ProtocolError("unbalanced quotes in request") from None
    words = []
    for _ in range(_length(line)):
        head = reader.readline(resp.LONGEST_LINE)
        if not head.startswith(b"$"):
            raise resp.ProtocolError("expected '$'")
        text = reader.read(_length(head) + 2)
        words.append(text[:-2])
        if not text.endswith(b"\r\n"):
            return None
    return words


def _length(line: bytes) -> int:
    digits = line[1:].rstrip(b"\r\n")
    if not digits.isdigit() or len(digits) > 9:
        raise resp.ProtocolError("invalid length")
    return int(digits)


def serve_forever(listener: socket.socket, program: Program) -> None:
    """Takes connections, each in a thread of its own, while the program runs."""
    while True:
        connection, _ = listener.accept()
        if program.process.poll() is not None:
            raise Failed("stream_serve has ended")
        connection.setsockopt(socket.IPPROTO_TCP, socket.TCP_NODELAY, 1)
        threading.Thread(target=Session(program, connection).serve, daemon=True).start()
