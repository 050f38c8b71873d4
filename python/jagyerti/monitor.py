"""The figures of streams, as the program stream_top shows them over a connection."""
from __future__ import annotations

import dataclasses
import functools
import http.server
import re
import socket
import socketserver
import threading
import time
from typing import Any, Callable, List, Optional, Tuple

from . import connect, process, resp, sentinel
from .connect import SILENT, Failed
from .retry import Pauses
from .shown import on_one_line
from .url import Address

OPEN_METRICS = "application/openmetrics-text; version=1.0.0; charset=utf-8"
PLAIN = "text/plain; charset=utf-8"
ROUNDS = (1 << 32) - 1  # of one second at most each
# The first line of a table, after the name of the stream.
HEAD = re.compile(r".*: [0-9]+ entries, [0-9]+ groups, last id .*", re.DOTALL)
QUIET = 0.03  # seconds in which no line comes after the last one of a table
LONGEST_PAUSE = 10.0
NO_STREAM = "ERR no such key"


@dataclasses.dataclass(frozen=True)
class Plan:
    """Which program shows which streams of which server. With a `master` the servers are sentinels that know it."""

    program: str
    servers: Tuple[Address, ...]
    options: connect.Options
    keys: Tuple[str, ...]
    master: Optional[str] = None

    @property
    def place(self) -> str:
        """The server, as it is shown."""
        return self.servers[0].place if self.master is None else f"the master {self.master}"

    def connect(self) -> socket.socket:
        """Connects with the server. Raises Failed."""
        if self.master is None:
            return connect.open(self.servers[0], self.options)
        return connect.open(sentinel.find_master(self.servers, self.master, self.options), self.options)


def run_once(plan: Plan, *words: str) -> str:
    """Runs the program with these words over a connection of its own, and returns what it prints.

    Raises Failed with the reason that it prints, or with the status SILENT if it did not end in time.
    """
    lines: List[str] = []

    def hear(line: str) -> bool:
        lines.append(line)
        return False

    run = process.Run([plan.program, *words], plan.connect(), 0, plan.options.timeout)
    timer = threading.Timer(plan.options.timeout, run.kill)
    try:
        run.start(hear)
        timer.start()
        status = run.wait()
    finally:
        timer.cancel()
        run.close()
    if status < 0:
        raise Failed(f"{plan.place} says nothing for {plan.options.timeout:g} seconds", SILENT)
    if status:
        raise Failed("\n".join(lines) or f"{plan.program} ended with {status}")
    return "".join(f"{line}\n" for line in lines)


def figures(plan: Plan, form: str) -> str:
    """Returns the figures of all streams in the form of an option of the program, --json or --openmetrics."""
    return run_once(plan, "--once", form, "--", *plan.keys)


def tables(plan: Plan) -> str:
    """Returns the table of each stream, or a line that says that there is no such stream."""
    return "\n".join(_table(plan, key) for key in plan.keys)


def _table(plan: Plan, key: str) -> str:
    try:
        return run_once(plan, "--", key, "1")
    except Failed as failed:
        if NO_STREAM not in str(failed):
            raise
        return f"{_tell_none(key)}\n"


def _tell_none(key: str) -> str:
    return f"{on_one_line(resp.to_bytes(key))}: no such stream"


class Watch(threading.Thread):
    """Has the table of one stream, anew each second and as entries come. After an error it tries again.

    `table` has its lines, and `error` says why it is not current. `failure` is the first error, if there was no table
    before it: then nothing is tried again.
    """

    def __init__(self, plan: Plan, key: str) -> None:
        super().__init__(daemon=True)
        self.plan, self.key = plan, key
        self.coming: List[str] = []
        self.came = 0.0
        self.table: List[str] = []
        self.is_new = False
        self.error = ""
        self.failure: Optional[Failed] = None
        self.ended = threading.Event()
        self.running: Optional[process.Run] = None

    def run(self) -> None:
        """Watches until `end`."""
        pauses = Pauses(LONGEST_PAUSE)
        while not self.ended.is_set():
            self.coming = []
            failed = self._run_program()
            had_table = bool(self.coming)
            self._keep()
            if NO_STREAM in str(failed):
                self._show_none()
                pauses.reset()
            elif not self.table:
                self.failure = failed
                return
            else:
                self.error = str(failed)
            if had_table:
                pauses.reset()
            self.ended.wait(pauses.take())

    def _show_none(self) -> None:
        """Shows that there is no stream, which may come."""
        none = [_tell_none(self.key)]
        if self.table != none:
            self.table, self.is_new = none, True
        self.error = ""

    def _run_program(self) -> Failed:
        """Runs the program until it ends. Returns why it did."""
        try:
            timeout = self.plan.options.timeout
            run = process.Run([self.plan.program, "--", self.key, str(ROUNDS)], self.plan.connect(), timeout + 1, timeout)
        except Failed as failed:
            return failed
        try:
            run.start(self._hear)
            self.running = run
            status = run.wait()
        except Failed as failed:
            return failed
        finally:
            self.running = None
            run.close()
        # The last line is the reason, and belongs to no table.
        return Failed(self.coming.pop() if self.coming else f"{self.plan.program} ended with {status}")

    def _hear(self, line: str) -> bool:
        if HEAD.fullmatch(line):
            self.coming, self.error = [], ""
        self.coming.append(line)
        self.came = time.monotonic()
        return False

    def take(self) -> bool:
        """Takes over the table that came, if all of it is there. Returns whether it differs from the last one."""
        if time.monotonic() - self.came > QUIET:
            self._keep()
        is_new, self.is_new = self.is_new, False
        return is_new

    def _keep(self) -> None:
        coming = self.coming
        if coming and coming is not self.table and HEAD.fullmatch(coming[0]):
            self.table, self.is_new = coming, True

    def end(self) -> None:
        """Ends it, and the program."""
        self.ended.set()
        running = self.running
        if running is not None:
            running.kill()


class Scrapes(http.server.BaseHTTPRequestHandler):
    """One request of Prometheus."""

    timeout = 10

    def __init__(self, plan: Plan, say: Callable[[str], None], *request: Any) -> None:
        self.plan, self.say = plan, say
        super().__init__(*request)

    def do_GET(self) -> None:
        """Replies with the figures of now, or with the reason why there are none."""
        if self.path.partition("?")[0] != "/metrics":
            return self.reply(404, PLAIN, "it is at /metrics\n")
        try:
            return self.reply(200, OPEN_METRICS, figures(self.plan, "--openmetrics"))
        except Failed as failed:
            shown = "".join(mark if mark.isprintable() else "?" for mark in str(failed))
            self.say(shown)
            return self.reply(503, PLAIN, f"{shown}\n")

    def reply(self, status: int, kind: str, text: str) -> None:
        """Sends a text."""
        sent = text.encode()
        self.send_response(status)
        self.send_header("Content-Type", kind)
        self.send_header("Content-Length", str(len(sent)))
        self.end_headers()
        self.wfile.write(sent)

    def log_message(self, format: str, *arguments: Any) -> None:
        """Says nothing of a request that went well."""


def listen(plan: Plan, place: Tuple[str, int], say: Callable[[str], None]) -> socketserver.TCPServer:
    """Listens at a host and a port, 0 for any, for one scrape after another. Raises Failed if it cannot."""

    class Server(socketserver.TCPServer):
        address_family = socket.AF_INET6 if ":" in place[0] else socket.AF_INET
        allow_reuse_address = True

    try:
        return Server(place, functools.partial(Scrapes, plan, say))
    except OSError as error:
        raise Failed(f"{place[0]}:{place[1]}: {error}") from None


def read_place(text: str) -> Tuple[str, int]:
    """Reads HOST:PORT, an IPv6 address in brackets. Raises ValueError."""
    found = re.fullmatch(r"(?:\[([0-9A-Fa-f:.]+)\]|([^:\[\]]+)):([0-9]{1,5})", text)
    if not found or int(found[3]) > 65535:
        raise ValueError(f"{text}: wanted HOST:PORT")
    return found[1] or found[2], int(found[3])
