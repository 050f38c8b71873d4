"""Runs a program on connections, one after the other, until it is done: retries, signals, metrics."""
from __future__ import annotations

import contextlib
import dataclasses
import os
import re
import signal
import socket
import time
from types import FrameType
from typing import Callable, Iterator, List, Optional, Sequence, Tuple

from . import connect, sentinel
from .connect import FAILED, SILENT, USAGE, Failed
from .counts import Counts
from .metrics import Figures, MetricsFile, Row
from .process import HELD, Run
from .retry import BROKE, Pauses
from .url import Address

GOOD_RUN = 60.0  # seconds after which the count of tries begins anew
TOGETHER = 0.3  # seconds in which two signals are one: timeout(1) sends its to a process, and then to the group of it
CLOSED = re.compile(r"error: (.*: )?the server closed the connection\.?", re.I)
STOPPED = 143  # the status if a signal came before the end of what has one
UNSAFE = 5  # the status if another start could acknowledge entries that are not on the disk
NOT_AGAIN = re.compile(r"error: cannot (write the file: .*\(os error 5\)"
                       r"|(write the file|open .*|keep the base in .*): it could not be synced: "
                       r"|write the line of the entry .*: (a line of its id is there with other fields|the file was changed))", re.I)
CAUSE = "    "  # a line of the cause begins with it
COUNTS = re.compile(r"([0-9]+) (entry|entries|records?) in ")


class Stopped(Exception):
    """A signal came while no program ran."""


@dataclasses.dataclass(frozen=True)
class Plan:
    """What is run, and how. `say` prints what this process itself has to say. A foreign program is not of this package.

    `count` is what the program takes for --count if it is not given, and None if it has no such option. A plan that
    `has_end` is done only if the program ends by itself.
    """

    program: str
    words: Sequence[str]
    servers: Sequence[Address]
    options: connect.Options
    say: Callable[[str], None]
    master: Optional[str] = None
    block: float = 5.0
    retry: float = 0
    pause: float = 30.0
    grace: Optional[float] = None
    is_foreign: bool = False
    metrics: Optional[str] = None
    metrics_prefix: str = "stream_drain"
    count: Optional[int] = None
    has_end: bool = False

    @property
    def stopped(self) -> int:
        """The status after a signal, if nothing went wrong."""
        return STOPPED if self.has_end else 0

    @property
    def silence(self) -> float:
        """The seconds that the server may say nothing, 0 for any time: beyond what it is asked to wait."""
        return self.block + self.options.timeout if self.block else 0.0

    @property
    def is_quiet(self) -> bool:
        """Whether only the counts at the end are shown."""
        return "--quiet" in self.words

    def program_words(self) -> List[str]:
        """Returns the words of the program. For metrics it reports its counts each second, so it is not quiet."""
        return [self.program, *(word for word in self.words if self.metrics is None or word != "--quiet")]


class Tries:
    """Runs of a program, one after the other. After a signal the run that is there ends cleanly, and no other begins."""

    def __init__(self, plan: Plan) -> None:
        self.plan, self.figures = plan, Figures()
        self.counts, self.is_fewer = Counts(plan.words, plan.count), False
        self.run: Optional[Run] = None
        self.signals, self.signalled, self.is_idle = 0, -TOGETHER, False
        self.error, self.cause, self.entries, self.held_counts, self.held_error = "", "", 0, "", ""
        self.metrics = MetricsFile(plan.metrics, plan.metrics_prefix, plan.say) if plan.metrics else None

    def run_to_the_end(self) -> int:
        """Runs it as often as it may help. Returns the exit status: after one signal `stopped`, if nothing went wrong."""
        for held in HELD:
            signal.signal(held, self.take_signal)
        try:
            return self.try_all()
        except Stopped:
            return self.plan.stopped

    def take_signal(self, _number: int, _frame: Optional[FrameType]) -> None:
        """Handles SIGTERM and SIGINT: the first ends the run that is there cleanly, the second at once."""
        last, self.signalled = self.signalled, time.monotonic()
        if self.signals and self.signalled - last < TOGETHER:
            return
        self.signals += 1
        if self.run is not None:
            self.run.stop()
        elif self.is_idle:
            raise Stopped

    @contextlib.contextmanager
    def idle(self) -> Iterator[None]:
        """A time in which a signal ends this process by Stopped, since no program runs."""
        self.is_idle = True
        try:
            if self.signals:
                raise Stopped
            yield
        finally:
            self.is_idle = False

    def sleep(self, pause: float) -> None:
        """Waits before the next try."""
        with self.idle():
            time.sleep(pause)

    def try_all(self) -> int:
        """Runs it, and again if that may help. Returns the status of the last run."""
        pauses = Pauses(self.plan.pause)
        while True:
            begun = time.monotonic()
            try:
                status, may_help = self.run_once(self.find_server)
            except Failed as failed:
                self.plan.say(str(failed))
                status, may_help = failed.status, True
            if time.monotonic() - begun >= max(GOOD_RUN, 2 * self.plan.silence):
                pauses.reset()
            if self.is_fewer:
                continue
            if not may_help or self.signals:
                return status
            if pauses.tries >= self.plan.retry:
                return status
            pause = pauses.take()
            self.plan.say(f"tries again in {pause:.1f} seconds")
            self.sleep(pause)

    def find_server(self) -> Address:
        """Returns the server of the next run. Raises Failed."""
        if self.plan.master is not None:
            return sentinel.find_master(self.plan.servers, self.plan.master, self.plan.options)
        return self.plan.servers[0]

    def run_once(self, find_server: Callable[[], Address]) -> Tuple[int, bool]:
        """Connects and runs the program. Returns its status, and whether another try may help.

        `is_fewer` says then that the next run is to begin at once, with fewer entries at once.
        """
        self.is_fewer = False
        with self.idle():
            connection = connect.open(find_server(), self.plan.options)
        signal.pthread_sigmask(signal.SIG_BLOCK, HELD)
        self.figures.begin()
        self.error, self.cause, self.entries, self.held_counts, self.held_error = "", "", 0, "", ""
        run = self.make_run(connection)
        sent_before, begun = run.counts()[2], time.monotonic()
        try:
            run.start(self.hear, self.write_metrics)
            self.run = run
            self.begun(run)
            signal.pthread_sigmask(signal.SIG_UNBLOCK, HELD)
            if self.signals and not run.stops:
                run.stop()
            status = run.wait()
            silent, _, sent = run.counts()
        finally:
            self.run = None
            run.close()
            signal.pthread_sigmask(signal.SIG_UNBLOCK, HELD)
        outcome = self._outcome(status, silent, sent > sent_before)
        if not self.signals:
            self._take_end(self.entries > 0 or time.monotonic() - begun >= GOOD_RUN)
        return outcome

    def _take_end(self, is_good: bool) -> None:
        """Sets how many entries the next run takes at once, and says so if these are fewer."""
        self.is_fewer = self.counts.take_end(self.error, is_good)
        if self.is_fewer:
            self.say(f"takes --count {self.counts.now}, since a batch was past a limit")

    def program_words(self) -> List[str]:
        """Returns the words of the next run of the program."""
        return self.counts.in_words(self.plan.program_words())

    def make_run(self, connection: socket.socket) -> Run:
        """Returns a run of the program on this connection, which is not started yet."""
        run = Run(self.program_words(), connection, self.plan.silence, self.plan.options.timeout)
        run.grace, run.restore_signals = self.plan.grace, self.plan.is_foreign
        return run

    def begun(self, run: Run) -> None:
        """Is called when the program of a run has started."""

    def hear(self, line: str) -> bool:
        """Takes a line that the program printed. Returns whether it is to be shown now."""
        if line.lower().startswith("error: "):
            self.error, self.cause = line, ""
        elif self.error and not self.cause and line.startswith(CAUSE):
            self.cause = f": {line.strip()}"
        if CLOSED.fullmatch(line):
            self.held_error = line
            return False
        counts = COUNTS.match(line)
        if counts is None:
            return True
        self.entries = int(counts[1])
        self.figures.take(line)
        self.take_counts(line)
        if self.metrics is None or not self.plan.is_quiet:
            return True
        self.held_counts = line
        return False

    def take_counts(self, line: str) -> None:
        """Is called for each line of counts."""

    def write_metrics(self) -> None:
        """Writes the metrics file, if one is wanted."""
        if self.metrics is not None:
            self.metrics.write(self.metric_rows())

    def metric_rows(self) -> List[Row]:
        """Returns what the metrics file says."""
        return [(self.plan.words, self.figures.all())]

    def say(self, text: str) -> None:
        """Prints why a run ended."""
        self.plan.say(text)

    def _outcome(self, status: int, silent: float, has_asked: bool) -> Tuple[int, bool]:
        """Returns what run_once does, and shows the lines that were held back."""
        _show(self.held_counts)
        if self.signals == 1 and status == FAILED and CLOSED.fullmatch(self.error):
            return self.plan.stopped, False
        _show(self.held_error)
        if status < 0:
            self.say(f"the program was ended by {signal.Signals(-status).name}")
            return 128 - status, True
        if status == FAILED and NOT_AGAIN.match(self.error + self.cause):
            self.say("it is not started again: look at the file and the stream first")
            return UNSAFE, False
        silence = self.plan.silence
        if status == FAILED and silence and silent >= silence * 1000 - 20 and has_asked:
            self.say(f"the server said nothing for {silent / 1000:.1f} seconds, --block and --timeout together")
            return SILENT, True
        return status, status not in (0, USAGE) and (has_asked or bool(BROKE.search(self.error)))


def _show(line: str) -> None:
    if line:
        os.write(2, line.encode(errors="replace") + b"\n")
