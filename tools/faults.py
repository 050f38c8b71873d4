"""What the tools of tools/live have in common: the lines that go through a stream, kills and cuts, and how what came
out is compared with what went in."""
import contextlib
import functools
import math
import os
import re
import select
import signal
import socket
import threading
import time

from shared import begin, below, join, resp

UNCUT = None, math.inf
EXEC = resp.encode(["EXEC"])
# The words of a server that has its log on the disk before it replies.
LOGGED = ("--appendonly", "yes", "--appendfsync", "always")


def text(number):
    return b"%d tea\t\\ %s\r" % (number, "\u00e9".encode() if number % 2 else b"\xff") + b"." * (number % 50)


def lines_in(data):
    """The lines of a file. A last one without its end is marked, so that it is no line that went in."""
    *lines, rest = data.split(b"\n")
    return [*lines, rest + b" without its end"] if rest else lines


def compared(files, wanted):
    """How many of the wanted lines no file has, how many others there are, how many of the first of their kind come
    after a later one of their file, and how many come again, each under its name in a table."""
    places = {line: place for place, line in enumerate(wanted)}
    seen, foreign, order, repeated = set(), 0, 0, 0
    for lines in files:
        last = -1
        for place in map(places.get, lines):
            if place is None:
                foreign += 1
            elif place in seen:
                repeated += 1
            else:
                seen.add(place)
                order += place < last
                last = place
    return {"Missing": len(places) - len(seen), "Foreign": foreign, "Out of order": order, "Repeated": repeated}


class Way:
    """The way of lines from a file, into which they come a few at a time, through a server, by works at once."""

    def __init__(self, folder, lines):
        self.source, self.lines, self.came, self.failed = f"{folder}/in", lines, 0, None
        open(self.source, "wb").close()

    def grow(self, most):
        """Lines come into the file, so many at most."""
        first, self.came = self.came + 1, min(self.lines, self.came + most)
        with open(self.source, "ab") as file:
            file.write(b"".join(text(number) + b"\n" for number in range(first, self.came + 1)))

    def do_at_once(self, *works):
        """Does works at once, and raises the failure of one. A server that the first one starts ends with the tool."""
        def do(work):
            try:
                work()
            except Exception as error:
                self.failed = self.failed or error

        threads = begin(*(functools.partial(do, work) for work in works[1:]))
        do(works[0])
        join(threads)
        if self.failed:
            raise self.failed


def kill(pid):
    """Ends a process by SIGKILL. Returns whether it was there."""
    try:
        os.kill(pid, signal.SIGKILL)
    except ProcessLookupError:
        return False
    return True


def child_of(ran):
    """The first process that a command has begun, once it has; None if the command ended before."""
    while ran.poll() is None:
        if found := below(ran.pid):
            return next(iter(found))
        time.sleep(0.001)
    return None


class Link:
    """A connection of a program with a server, `far`. It passes bytes on, until it is cut: after a number of bytes of
    the program, or for 'reply' of the server. With 'late' the rest is held back, for `deliver`; with 'unanswered' the
    rest comes to the server too, and no more replies come back. `older` is a link whose bytes come after so many bytes
    of this one."""

    def __init__(self, far, cut=UNCUT, older=None, moment=0):
        self.listener = socket.create_server(("127.0.0.1", 0))
        self.url = f"redis://127.0.0.1:{self.listener.getsockname()[1]}"
        self.near, self.far = None, far
        self.far.settimeout(None)
        self.cut, self.older, self.moment = cut, older, moment
        self.passed = {self.far: 0}
        self.is_cut, self.is_closed, self.held = False, False, b""
        self.came_late = self.added_late = False
        self.begun, self.thread = threading.Event(), threading.Thread(target=self.serve)
        self.thread.start()

    def serve(self):
        try:
            self.near, _ = self.listener.accept()
            self.passed[self.near] = 0
            while all(self.turn(side) for side in select.select([self.near, self.far], [], [])[0]):
                pass
        except OSError:
            self.is_closed = True
        finally:
            self.begun.set()
            self.listener.close()
            if self.near:
                self.near.close()
            if self.older:
                self.older.deliver()
            if not self.held:
                self.far.close()

    def end(self):
        """Ends it, if no program has connected."""
        with contextlib.suppress(OSError):
            self.listener.shutdown(socket.SHUT_RDWR)
        self.thread.join()

    def turn(self, side):
        """Takes what one side sent; whether the connection goes on."""
        piece = side.recv(1 << 16)
        if not piece:
            self.is_closed = side is self.far
            return False
        self.begun.set()
        if side is self.near and self.older and self.moment < self.passed[side] + len(piece):
            before = self.moment - self.passed[side]
            if before and not self.put(side, piece[:before]):
                return False
            self.older.deliver()
            self.older, piece = None, piece[before:]
        return self.put(side, piece)

    def put(self, side, piece):
        """Passes bytes on, and cuts the connection after as many as was told; whether it goes on."""
        (kind, most), other = self.cut, self.far if side is self.near else self.near
        left = most - self.passed[side]
        if len(piece) <= left or (side is self.far) != (kind == "reply"):
            other.sendall(piece)
            self.passed[side] += len(piece)
            return True
        self.is_cut = True
        if kind == "late":
            other.sendall(piece[:left])
            self.held = piece[left:]
            while EXEC not in self.held and self.answer():
                self.held += self.rest(0.05)
            self.held += self.rest()
        elif kind == "unanswered":
            self.far.sendall(piece + self.rest())
            select.select([self.far], [], [], 0.1)
        else:
            other.sendall(piece[:left])
        return False

    def rest(self, quiet=0.2):
        """What the program still writes, until it writes nothing for `quiet` seconds."""
        rest = b""
        while select.select([self.near], [], [], quiet)[0] and (piece := self.near.recv(1 << 16)):
            rest += piece
        return rest

    def answer(self):
        """Passes on what the server replied to the bytes before the cut, without which the program sends no EXEC;
        whether there was any."""
        if not select.select([self.far], [], [], 0.2)[0] or not (piece := self.far.recv(1 << 16)):
            return False
        self.near.sendall(piece)
        return True

    def deliver(self):
        """The bytes that were held back come to the server, and its replies go nowhere."""
        replies = b""
        with contextlib.suppress(OSError):
            self.far.settimeout(5)
            # what is queued without its EXEC is dropped, as at the end of the connection
            self.far.sendall(self.held + resp.encode(["DISCARD"]) + resp.encode(["PING"]))
            while not replies.endswith(b"+PONG\r\n") and (piece := self.far.recv(1 << 16)):
                replies += piece
        self.far.close()
        self.came_late = replies.endswith(b"+PONG\r\n") and EXEC in self.held
        self.added_late = self.came_late and re.search(rb"\r\n\d+-0\r\n", replies) is not None
