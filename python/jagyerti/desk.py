"""The jobs of one handler after the other: the one in hand, counts of replies, seconds of each job, and why jobs failed."""
from __future__ import annotations

import bisect
import itertools
import re
import time
from typing import Dict, List, Optional

from .metrics import BUCKETS, Value

MOST_REASONS = 10_000  # jobs of which it is kept why they failed
ID = re.compile(rb'\{"id":"([0-9]+-[0-9]+)"')
REPLY = re.compile(rb"(done|stop|later|later (.*)|dead (.*))\n", re.S)
LATER, DEAD, DONE, STOP = "later", "dead", "done", "stop"


def id_of(line: bytes) -> str:
    """Returns the id of the job that has this line, or a line that begins so."""
    found = ID.match(line)
    return found[1].decode() if found else "?"


class Spread:
    """How many jobs took at most so many seconds, for each bucket, and the seconds of all."""

    def __init__(self) -> None:
        self.counts, self.sum = [0] * (len(BUCKETS) + 1), 0.0

    def add(self, seconds: float) -> None:
        """Counts a job."""
        self.counts[bisect.bisect_left(BUCKETS, seconds)] += 1
        self.sum += seconds

    def figure(self) -> List[float]:
        """Returns the sum, and after it how many jobs are in each bucket or in one before it."""
        return [round(self.sum, 6), *itertools.accumulate(self.counts)]


class Desk:
    """What became of jobs. A job is in hand from its line to its reply."""

    def __init__(self) -> None:
        self.counts = dict.fromkeys((DONE, LATER, DEAD, STOP), 0)
        self.timeouts, self.handlers = 0, 0
        self.line: Optional[bytes] = None
        self.since, self.last_done = 0.0, 0.0
        self.spread = Spread()
        self.reasons: Dict[str, str] = {}

    @property
    def in_hand(self) -> Optional[str]:
        """The id of the job in hand."""
        return None if self.line is None else id_of(self.line)

    @property
    def replies(self) -> int:
        """How many replies came."""
        return sum(self.counts.values())

    def figures(self) -> Dict[str, Value]:
        """Returns what the metrics say of jobs."""
        last = {"last_entry_timestamp_seconds": f"{self.last_done:.3f}"} if self.last_done else {}
        return {"done": self.counts[DONE], "later": self.counts[LATER], "dead": self.counts[DEAD], "timeouts": self.timeouts,
                "restarts": max(0, self.handlers - 1), "in_hand": int(self.line is not None),
                "job_seconds": self.spread.figure(), **last}

    def begin(self, line: bytes) -> None:
        """Takes a line, or the beginning of a long one: its job is in hand."""
        self.since = time.monotonic()
        self.line = line

    def end(self, reply: bytes) -> Optional[str]:
        """Takes the reply to the job in hand, and returns what it says. After None, no reply, the job is still in hand.

        A line of JSON is 'done': stream_run looks at its form.
        """
        line, kind, text = self.line, DONE, ""
        if reply != b"done\n" and not (reply[:1] == b"{" and b"\n" in reply):
            found = REPLY.match(reply[:reply.find(b"\n") + 1])
            kind = found[1].partition(b" ")[0].decode() if found else ""
            text = (found[2] or found[3] or b"").decode(errors="replace").strip() if found else ""
        if not kind or line is None:
            return None
        self.counts[kind] += 1
        if kind != STOP:
            self.spread.add(time.monotonic() - self.since)
        if kind == DONE:
            self.last_done = time.time()
            if self.reasons:
                self.reasons.pop(id_of(line), None)
        elif kind != STOP:
            self.note(id_of(line), f"{kind}: {text}" if text else f"it replied {kind}")
        self.line = None
        return kind

    def take_back(self, job: str) -> None:
        """Has this job in hand again: its reply was a line of JSON that stream_run refused."""
        self.counts[DONE] -= 1
        self.line = b'{"id":"%s"' % job.encode()

    def note(self, job: str, why: str) -> None:
        """Keeps why a job failed. The oldest of many reasons are forgotten."""
        self.reasons.pop(job, None)
        self.reasons[job] = "".join(mark if mark.isprintable() else "?" for mark in why)
        while len(self.reasons) > MOST_REASONS:
            del self.reasons[next(iter(self.reasons))]
