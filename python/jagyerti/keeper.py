"""Jobs that come again after a pause, and jobs that were given up: what `jagyerti run` asks over a connection of its own.

The entry of a job that failed is claimed for a second consumer, CONSUMER.later: so a run that begins again does not get it
as its own. Its idle time is set so that it is as long as --idle once the pause is over. Then any consumer claims it, also
if this process is gone by then. A pause that is longer than --idle is kept by setting the idle time back meanwhile.
"""
from __future__ import annotations

import contextlib
import dataclasses
import math
import random
import socket
import threading
import time
from typing import Callable, Dict, Optional, Sequence, Set

from . import connect, resp
from .connect import Failed
from .dead_letters import Letter, letter_of
from .desk import Desk
from .url import Address

PAGE = 1000  # entries that are asked for at once
MORE = 0.25  # of a pause comes to it by chance, at most
REST = 5.0  # seconds after a failure in which the server is not asked again
BEAT = 1.0  # seconds between two looks, at most


class Link:
    """A connection that is opened as it is needed. What goes wrong with it is said once, until it works again."""

    def __init__(self, find_server: Callable[[], Optional[Address]], options: connect.Options, say: Callable[[str], None]) -> None:
        self.find_server, self.say = find_server, say
        self.options = dataclasses.replace(options, timeout=min(options.timeout, REST))
        self.lock = threading.Lock()
        self.connection: Optional[socket.socket] = None
        self.said, self.rests_until = "", 0.0

    def ask(self, *words: resp.Word) -> resp.Reply:
        """Returns the reply. Raises Failed if there is none, and ReplyError if it is an error."""
        with self.lock:
            if time.monotonic() < self.rests_until:
                raise Failed("the connection failed a moment ago")
            was_open = self.connection is not None
            try:
                reply = self._ask_once(*words)
            except Failed:
                if not was_open:
                    raise
                reply = self._ask_once(*words)
            self.said = ""
            return reply

    def _ask_once(self, *words: resp.Word) -> resp.Reply:
        server = self.find_server() if self.connection is None else None
        if self.connection is None and server is None:
            raise Failed("no server is known yet")
        try:
            if server is not None:
                self.connection = connect.open(server, self.options)
            assert self.connection is not None
            return resp.ask_all(self.connection, [words])[0]  # which reads more than a byte at once
        except resp.ReplyError as error:
            if error.code == "MOVED":  # the next question goes to the node that stream_run found then
                self._drop()
            raise
        except (OSError, resp.ProtocolError, Failed) as error:
            self.rests_until = 0.0 if self.connection is not None else time.monotonic() + REST
            self._drop()
            raise Failed(str(error)) from None

    def complain(self, what: str, error: Exception) -> None:
        """Says that something was not done, unless the last thing it said is the same."""
        if self.said != what:
            self.said = what
            self.say(f"{what}: {error}")

    def _drop(self) -> None:
        if self.connection is not None:
            self.connection.close()
            self.connection = None

    def close(self) -> None:
        """Closes the connection."""
        with self.lock:
            self._drop()


def find_deliveries(link: Link, words: Sequence[str], job: str) -> Optional[int]:
    """Returns how often the entry of a job was delivered so far, None if the server does not say. `words` are KEY and GROUP."""
    try:
        rows = link.ask("XPENDING", words[0], words[1], job, job, 1)
    except (Failed, resp.ReplyError) as error:
        link.complain("how often a job was delivered is not known", error)
        return None
    return int(rows[0][3]) if rows else None


class Keeper:
    """Holds back the entries of jobs that failed: `after` seconds, twice as long for each delivery, at most `most`."""

    def __init__(self, link: Link, words: Sequence[str], idle: float, after: float, most: float) -> None:
        self.link, self.idle, self.after, self.most = link, idle, after, most
        self.key, self.group, self.consumer = words[:3]
        self.own = f"{self.consumer}.later"
        self.due: Dict[str, float] = {}
        self.turn, self.lock = 0.0, threading.Lock()

    def pause(self, deliveries: int) -> float:
        """Returns the seconds of a pause after so many deliveries, without the part by chance."""
        return min(self.most, self.after * float(2 ** min(max(deliveries, 1) - 1, 60)))

    def hold(self, job: str) -> None:
        """Claims the entry of a job that failed, until its pause is over. If that fails, it comes as without a pause."""
        try:
            with self.lock:
                rows = self.link.ask("XPENDING", self.key, self.group, job, job, 1)
                for _, consumer, _, deliveries in rows:
                    if consumer == resp.to_bytes(self.consumer):  # else another one has claimed it
                        self._keep(job, self.pause(deliveries) * random.uniform(1, 1 + MORE))
        except (Failed, resp.ReplyError) as error:
            self.link.complain("a job was not held back", error)

    def adopt(self) -> None:
        """Holds what a process before this one has left with a pause longer than --idle, for a part of it by chance."""
        start = "-"
        while start:
            with self.lock:
                rows = self.link.ask("XPENDING", self.key, self.group, start, "+", PAGE, self.own)
                for job, pause in ((row[0].decode(), self.pause(row[3])) for row in rows):
                    if pause > self.idle and job not in self.due:
                        self._keep(job, pause * random.random())
            start = f"({rows[-1][0].decode()}" if len(rows) == PAGE else ""

    def tick(self) -> None:
        """Sets back the idle time of the entries whose pauses go on: four times in the time of --idle."""
        if not self.due or time.monotonic() < self.turn:
            return
        self.turn = time.monotonic() + self.idle / 4
        with self.lock:
            self._set_back()

    def _set_back(self) -> None:
        mine = self._mine()
        for job in [job for job in self.due if job not in mine]:
            self.due.pop(job, None)
        left = {job: due - time.monotonic() for job, due in self.due.items()}
        later = [job for job in left if left[job] > self.idle]
        for job in left.keys() - later:
            self._keep(job, left[job])
        for at in range(0, len(later), PAGE):
            self.link.ask("XCLAIM", self.key, self.group, self.own, 0, *later[at:at + PAGE], "JUSTID")

    def _mine(self) -> Set[str]:
        """Returns which of the entries with long pauses are here still: another consumer may have claimed one."""
        jobs = sorted(self.due, key=lambda job: [int(part) for part in job.split("-")])
        start = jobs[0]
        mine: Set[str] = set()
        while start:
            rows = self.link.ask("XPENDING", self.key, self.group, start, jobs[-1], PAGE, self.own)
            mine.update(row[0].decode() for row in rows)
            start = f"({rows[-1][0].decode()}" if len(rows) == PAGE else ""
        return mine

    def _keep(self, job: str, left: float) -> None:
        """Claims an entry so that others may claim it after `left` seconds, or after --idle if that is less."""
        idle = math.floor(max(0.0, self.idle - max(0.0, left)) * 1000)
        self.link.ask("XCLAIM", self.key, self.group, self.own, 0, job, "IDLE", idle, "JUSTID")
        if left > self.idle:
            self.due[job] = time.monotonic() + left
        else:
            self.due.pop(job, None)


class Letters:
    """Looks for dead letters, and says of each why its job failed last, if that is known here.

    A letter that has a reason itself is of a reply whose text was shown before, so that is not said again.
    """

    def __init__(self, link: Link, stream: str, desk: Desk, say: Callable[[str], None]) -> None:
        self.link, self.stream, self.desk, self.say = link, stream, desk, say
        self.last: Optional[str] = None

    def begin(self) -> None:
        """Passes over the letters that are there, once."""
        if self.last is None:
            found = self.link.ask("XREVRANGE", self.stream, "+", "-", "COUNT", 1)
            self.last = found[0][0].decode() if found else "0-0"

    def tick(self) -> None:
        """Takes the letters that came since the last time."""
        self.begin()
        while True:
            letters = self.link.ask("XRANGE", self.stream, f"({self.last}", "+", "COUNT", PAGE) if self.desk.reasons else []
            for row in letters:
                self.last = row[0].decode()
                self._tell(letter_of(row))
            if len(letters) < PAGE:
                return

    def _tell(self, letter: Letter) -> None:
        why = self.desk.reasons.pop(letter.entry or "", None)
        if why is not None:
            self.say(f"{letter.entry} was given up after {letter.times}" + (f": {why}" if letter.why is None else ""))


class Beat(threading.Thread):
    """Calls what a keeper and a look for letters have to do, now and then. `seconds` are between two calls."""

    def __init__(self, link: Link, keeper: Optional[Keeper], letters: Optional[Letters]) -> None:
        super().__init__(daemon=True)
        self.link, self.keeper, self.letters = link, keeper, letters
        self.seconds = BEAT if keeper is None else max(0.01, min(BEAT, keeper.idle / 4))
        self.is_adopted, self.ended = False, threading.Event()

    def begin(self) -> None:
        """Has the letters known that are there before the first job."""
        with contextlib.suppress(Failed, resp.ReplyError):
            if self.letters is not None:
                self.letters.begin()

    def run(self) -> None:
        """Calls until `finish`."""
        while not self.ended.wait(self.seconds):
            self.look()

    def look(self) -> None:
        """Calls each once. A server that is not there is for stream_run to tell."""
        with contextlib.suppress(Failed, resp.ReplyError):
            if self.keeper is not None:
                if not self.is_adopted:
                    self.keeper.adopt()
                    self.is_adopted = True
                self.keeper.tick()
        with contextlib.suppress(Failed, resp.ReplyError):
            if self.letters is not None:
                self.letters.tick()

    def finish(self) -> None:
        """Calls each a last time."""
        self.ended.set()
        if self.is_alive():
            self.join(REST)
        self.look()
